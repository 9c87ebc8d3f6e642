use crate::{ask, list, sys};
use crate::{DelaySinceLastReceiverReportBlock, Hops, LongTime, ReceiptTime, Refusal, RleChunk, ShortTime, Spread};

/// The most bytes that a packet has.
const LIMIT: usize = 262_144;

/// Adds a record to a job list: the body's length, the kind, the body, all little-endian.
fn add_record(list: &mut Vec<u8>, kind: u16, body: &[u8]) -> Result<(), Refusal> {
    let length = u32::try_from(body.len()).map_err(|_| Refusal::TooMany { found: body.len(), limit: LIMIT })?;
    list.extend_from_slice(&length.to_le_bytes());
    list.extend_from_slice(&kind.to_le_bytes());
    list.extend_from_slice(body);
    Ok(())
}

/// A block that can be added to a packet ([`XrBuilder::add_block`]): one record of a job list.
pub trait XrBlockBuilder {
    /// The record's kind: the block type.
    fn kind(&self) -> u16;

    /// The record's body (docs/RULES.md, "Job lists and writing"), or why there is none.
    fn body(&self) -> Result<Vec<u8>, Refusal>;
}

/// A builder of packets: it makes a job list, and the proved library writes its packet.
///
/// Whatever is wrong with a packet comes out at writing, as a refusal: a thinning over 15 or a padding that is no
/// multiple of 4 as 12, over 31 blocks or 262,144 bytes as 14, a buffer that is too small as 11. A run over 16,383 or
/// a vector over 32,767, which no chunk word can hold, and a run of ones of length 0, is 13, before any of these.
///
/// ```
/// use giunchemis::{LossRle, RleChunk, Xr};
///
/// let builder = Xr::builder().sender_ssrc(1).add_block(
///     LossRle::builder()
///         .ssrc(7)
///         .begin(10)
///         .end(14)
///         .add_chunk(RleChunk::RunLength(2))
///         .add_chunk(RleChunk::RunLength(2)),
/// );
/// let mut packet = [0; 64];
/// assert_eq!(builder.write_plain(&mut packet), Ok(24));
/// // an old reader stops before a block's last word, so careful writing puts two zero words behind it
/// assert_eq!(builder.write_careful(&mut packet), Ok(28));
/// assert_eq!(builder.write_careful(&mut packet[..27]).unwrap_err().values(), (28, 27));
/// ```
#[derive(Clone, Debug, Default)]
#[must_use = "The builder must be built to be used"]
pub struct XrBuilder {
    padding: u8,
    sender_ssrc: u32,
    records: Vec<u8>,
    fault: Option<Refusal>,
}

impl XrBuilder {
    /// Sets the sender's SSRC.
    pub fn sender_ssrc(mut self, sender_ssrc: u32) -> Self {
        self.sender_ssrc = sender_ssrc;
        self
    }

    /// Sets how many bytes of padding the packet has: 0 or a multiple of 4.
    pub fn padding(mut self, padding: u8) -> Self {
        self.padding = padding;
        self
    }

    /// Adds a block.
    pub fn add_block(mut self, block: impl XrBlockBuilder) -> Self {
        let added = block.body().and_then(|body| add_record(&mut self.records, block.kind(), &body));
        self.fault = self.fault.or(added.err());
        self
    }

    /// The job list of the packet (docs/RULES.md, "Job lists and writing"), not yet judged; 13 where a chunk cannot be
    /// made, and 14 where a record has 4 GiB or more.
    pub fn job_list(&self) -> Result<Vec<u8>, Refusal> {
        if let Some(fault) = self.fault {
            return Err(fault);
        }
        let mut body = Vec::new();
        body.extend_from_slice(&self.sender_ssrc.to_le_bytes());
        body.extend_from_slice(&u16::from(self.padding).to_le_bytes());
        let mut list = Vec::new();
        add_record(&mut list, 0, &body)?;
        list.extend_from_slice(&self.records);
        Ok(list)
    }

    /// Writes the packet as rtcp-types' builders write it, and says its length: (13,) 12, 14, 11.
    pub fn write_plain(&self, out: &mut [u8]) -> Result<usize, Refusal> {
        ask::write_plain(&self.job_list()?, out)
    }

    /// Writes the packet so that a reader which keeps the crate's reading is not misled, and says its length; refused
    /// as 15 where that cannot be: (13,) 12, 14, 15, 11.
    pub fn write_careful(&self, out: &mut [u8]) -> Result<usize, Refusal> {
        ask::write_careful(&self.job_list()?, out)
    }

    /// The packet as [`write_plain`](XrBuilder::write_plain) writes it.
    pub fn plain(&self) -> Result<Vec<u8>, Refusal> {
        let list = self.job_list()?;
        list::listed(|out| ask::write_plain(&list, out))
    }

    /// The packet as [`write_careful`](XrBuilder::write_careful) writes it.
    pub fn careful(&self) -> Result<Vec<u8>, Refusal> {
        let list = self.job_list()?;
        list::listed(|out| ask::write_careful(&list, out))
    }

    /// How many bytes [`write_plain`](XrBuilder::write_plain) writes. The original's name.
    pub fn calculate_size(&self) -> Result<usize, Refusal> {
        list::needed(self.write_plain(&mut []))
    }

    /// [`write_plain`](XrBuilder::write_plain) by the original's name.
    pub fn write_into(&self, out: &mut [u8]) -> Result<usize, Refusal> {
        self.write_plain(out)
    }
}

/// The fields of a record of kind 1, 2 or 3.
#[derive(Clone, Copy, Debug, Default)]
struct RangeBody {
    ssrc: u32,
    begin: u16,
    end: u16,
    thinning: u8,
}

impl RangeBody {
    fn bytes(&self) -> Vec<u8> {
        let mut body = Vec::new();
        body.extend_from_slice(&self.ssrc.to_le_bytes());
        body.extend_from_slice(&self.begin.to_le_bytes());
        body.extend_from_slice(&self.end.to_le_bytes());
        body.extend_from_slice(&u16::from(self.thinning).to_le_bytes());
        body
    }
}

/// The setters that the builders with a range share.
macro_rules! sets_its_range {
    () => {
        /// Sets the SSRC of the media that is reported on.
        pub fn ssrc(mut self, ssrc: u32) -> Self {
            self.range.ssrc = ssrc;
            self
        }

        /// Sets the first sequence number of the range.
        pub fn begin(mut self, begin: u16) -> Self {
            self.range.begin = begin;
            self
        }

        /// Sets the first sequence number behind the range.
        pub fn end(mut self, end: u16) -> Self {
            self.range.end = end;
            self
        }

        /// Sets the thinning. Over 15 the packet is refused as 12, at writing.
        pub fn thinning(mut self, thinning: u8) -> Self {
            self.range.thinning = thinning;
            self
        }
    };
}

macro_rules! builds_chunks {
    ($(#[$words:meta])* $name:ident, $number:expr) => {
        $(#[$words])*
        #[derive(Clone, Debug, Default)]
        #[must_use = "The builder must be built to be used"]
        pub struct $name {
            range: RangeBody,
            words: Vec<u16>,
            fault: Option<Refusal>,
        }

        impl $name {
            sets_its_range!();

            /// Adds a chunk. One that no chunk word can hold is refused as 13, at writing.
            pub fn add_chunk(mut self, chunk: RleChunk) -> Self {
                let mut bytes = [0; 2];
                match ask::chunk(chunk, &mut bytes) {
                    Ok(_) => self.words.push(u16::from_be_bytes(bytes)),
                    Err(refusal) => self.fault = self.fault.or(Some(refusal)),
                }
                self
            }

            /// Adds chunk words as they are, such as [`words_from_marks`](crate::words_from_marks) makes. The word
            /// 16384, a run of ones of no length, is refused as 12, at writing.
            pub fn add_words(mut self, words: &[u16]) -> Self {
                self.words.extend_from_slice(words);
                self
            }
        }

        impl XrBlockBuilder for $name {
            fn kind(&self) -> u16 {
                u16::from($number)
            }

            fn body(&self) -> Result<Vec<u8>, Refusal> {
                if let Some(fault) = self.fault {
                    return Err(fault);
                }
                let mut body = self.range.bytes();
                body.extend(self.words.iter().flat_map(|word| word.to_le_bytes()));
                Ok(body)
            }
        }
    };
}

builds_chunks!(
    /// A builder of a [`LossRle`](crate::LossRle).
    LossRleBuilder,
    sys::LOSS
);
builds_chunks!(
    /// A builder of a [`DuplicateRle`](crate::DuplicateRle).
    DuplicateRleBuilder,
    sys::DUPLICATE
);

/// A builder of a [`PacketReceiptTimes`](crate::PacketReceiptTimes).
#[derive(Clone, Debug, Default)]
#[must_use = "The builder must be built to be used"]
pub struct PacketReceiptTimesBuilder {
    range: RangeBody,
    times: Vec<ReceiptTime>,
}

impl PacketReceiptTimesBuilder {
    sets_its_range!();

    /// Adds a receipt time.
    pub fn add_time(mut self, time: ReceiptTime) -> Self {
        self.times.push(time);
        self
    }
}

impl XrBlockBuilder for PacketReceiptTimesBuilder {
    fn kind(&self) -> u16 {
        u16::from(sys::RECEIPT_TIMES)
    }

    fn body(&self) -> Result<Vec<u8>, Refusal> {
        let mut body = self.range.bytes();
        body.extend(self.times.iter().flat_map(|time| time.0.to_le_bytes()));
        Ok(body)
    }
}

/// A builder of a [`ReceiverReferenceTime`](crate::ReceiverReferenceTime).
#[derive(Clone, Debug, Default)]
#[must_use = "The builder must be built to be used"]
pub struct ReceiverReferenceTimeBuilder {
    time: LongTime,
}

impl ReceiverReferenceTimeBuilder {
    /// Sets the clock time.
    pub fn ntp_timestamp(mut self, ntp_timestamp: LongTime) -> Self {
        self.time = ntp_timestamp;
        self
    }
}

impl XrBlockBuilder for ReceiverReferenceTimeBuilder {
    fn kind(&self) -> u16 {
        u16::from(sys::REFERENCE_TIME)
    }

    fn body(&self) -> Result<Vec<u8>, Refusal> {
        Ok(self.time.0.to_le_bytes().to_vec())
    }
}

/// A builder of a [`DelaySinceLastReceiverReportBlock`].
#[derive(Clone, Copy, Debug, Default)]
#[must_use = "The builder must be built to be used"]
pub struct DelaySinceLastReceiverReportBlockBuilder {
    entry: DelaySinceLastReceiverReportBlock,
}

impl DelaySinceLastReceiverReportBlockBuilder {
    /// Sets the SSRC of the receiver.
    pub fn ssrc(mut self, ssrc: u32) -> Self {
        self.entry.ssrc = ssrc;
        self
    }

    /// Sets the middle bits of the receiver's last reference time.
    pub fn last_receiver_report(mut self, last_receiver_report: ShortTime) -> Self {
        self.entry.last_receiver_report = last_receiver_report;
        self
    }

    /// Sets how long ago that came.
    pub fn delay_since_last_receiver_report_timestamp(mut self, delay: ShortTime) -> Self {
        self.entry.delay_since_last_receiver_report_timestamp = delay;
        self
    }
}

/// A builder of a [`DelaySinceLastReceiverReport`](crate::DelaySinceLastReceiverReport).
#[derive(Clone, Debug, Default)]
#[must_use = "The builder must be built to be used"]
pub struct DelaySinceLastReceiverReportBuilder {
    entries: Vec<DelaySinceLastReceiverReportBlock>,
}

impl DelaySinceLastReceiverReportBuilder {
    /// Adds an entry.
    pub fn add_block(mut self, block: DelaySinceLastReceiverReportBlockBuilder) -> Self {
        self.entries.push(block.entry);
        self
    }
}

impl XrBlockBuilder for DelaySinceLastReceiverReportBuilder {
    fn kind(&self) -> u16 {
        u16::from(sys::DLRR)
    }

    fn body(&self) -> Result<Vec<u8>, Refusal> {
        let numbers = |e: &DelaySinceLastReceiverReportBlock| {
            [e.ssrc, e.last_receiver_report.0, e.delay_since_last_receiver_report_timestamp.0]
        };
        Ok(self.entries.iter().flat_map(numbers).flat_map(u32::to_le_bytes).collect())
    }
}

/// A builder of a [`StatisticsSummary`](crate::StatisticsSummary). A number that is not set is absent: its flag is clear,
/// and 0 is written.
#[derive(Clone, Copy, Debug, Default)]
#[must_use = "The builder must be built to be used"]
pub struct StatisticsSummaryBuilder {
    ssrc: u32,
    begin: u16,
    end: u16,
    lost: Option<u32>,
    duplicates: Option<u32>,
    jitter: Option<Spread<u32>>,
    hops: Hops,
}

impl StatisticsSummaryBuilder {
    /// Sets the SSRC of the media that is reported on.
    pub fn ssrc(mut self, ssrc: u32) -> Self {
        self.ssrc = ssrc;
        self
    }

    /// Sets the first sequence number of the range.
    pub fn begin(mut self, begin: u16) -> Self {
        self.begin = begin;
        self
    }

    /// Sets the first sequence number behind the range.
    pub fn end(mut self, end: u16) -> Self {
        self.end = end;
        self
    }

    /// Sets how many packets were lost.
    pub fn lost(mut self, lost: u32) -> Self {
        self.lost = Some(lost);
        self
    }

    /// Sets how many packets were duplicates.
    pub fn duplicates(mut self, duplicates: u32) -> Self {
        self.duplicates = Some(duplicates);
        self
    }

    /// Sets the jitter.
    pub fn jitter(mut self, jitter: Spread<u32>) -> Self {
        self.jitter = Some(jitter);
        self
    }

    /// Sets TTL or hop limit. [`Hops::Unknown`], ToH 3, is refused as 12, at writing.
    pub fn hops(mut self, hops: Hops) -> Self {
        self.hops = hops;
        self
    }

    fn flags(&self) -> u8 {
        let flag = |is_set: bool, bit: u8| if is_set { bit } else { 0 };
        flag(self.lost.is_some(), sys::HAS_LOST)
            | flag(self.duplicates.is_some(), sys::HAS_DUPLICATES)
            | flag(self.jitter.is_some(), sys::HAS_JITTER)
            | self.hops.toh() << 3
    }
}

impl XrBlockBuilder for StatisticsSummaryBuilder {
    fn kind(&self) -> u16 {
        u16::from(sys::SUMMARY)
    }

    fn body(&self) -> Result<Vec<u8>, Refusal> {
        let jitter = self.jitter.unwrap_or_default();
        let hops = self.hops.numbers().unwrap_or_default();
        let mut body = vec![self.flags(), 0];
        body.extend_from_slice(&self.ssrc.to_le_bytes());
        body.extend_from_slice(&self.begin.to_le_bytes());
        body.extend_from_slice(&self.end.to_le_bytes());
        let counts = [self.lost.unwrap_or(0), self.duplicates.unwrap_or(0)];
        let spread = [jitter.min, jitter.max, jitter.mean, jitter.deviation];
        body.extend(counts.into_iter().chain(spread).flat_map(u32::to_le_bytes));
        body.extend_from_slice(&[hops.min, hops.max, hops.mean, hops.deviation]);
        Ok(body)
    }
}
