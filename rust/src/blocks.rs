use crate::{ask, list, sys};
use crate::{
    Cursor, Fields, LongTime, PacketReceiptTimesBuilder, Reading, ReceiptTime, ReceiverReferenceTimeBuilder, Refusal,
    RleChunk, ShortTime, StatisticsSummaryBuilder, Summary, XrBlock, XrBlockParser, XrBlockStaticType,
};
use crate::{DelaySinceLastReceiverReportBlockBuilder, DelaySinceLastReceiverReportBuilder};
use crate::{DuplicateRleBuilder, LossRleBuilder};
use std::iter::FusedIterator;

/// The fewest steps of the cursor that the number iterator takes at a time.
const STRETCH: usize = 64;

/// How many steps it takes at a time through a block of so many bytes: as many as the block has words, since each call
/// of the cursor goes over all of them before its first step.
fn stretch_of(bytes: usize) -> usize {
    STRETCH.max(bytes / 2)
}

/// The sequence numbers of a block ([`LossRle::sequence_iter`], [`DuplicateRle::sequence_iter`]).
///
/// In the standard reading it goes by the number cursor and holds no list but a stretch of as many numbers as the block
/// has words, at least 64. The crate's reading has no cursor: there it holds the list.
#[derive(Clone, Debug)]
pub struct SequenceIter<'a> {
    source: Source<'a>,
}

#[derive(Clone, Debug)]
enum Source<'a> {
    Steps {
        block_type: u8,
        view: &'a [u8],
        cursor: Cursor,
        ended: bool,
        buffer: Vec<u16>,
        at: usize,
        stop: usize,
    },
    List(std::vec::IntoIter<u16>),
}

impl Iterator for SequenceIter<'_> {
    type Item = u16;

    fn next(&mut self) -> Option<u16> {
        match &mut self.source {
            Source::List(list) => list.next(),
            Source::Steps { block_type, view, cursor, ended, buffer, at, stop } => {
                while *at == *stop {
                    if *ended {
                        return None;
                    }
                    let budget = stretch_of(view.len());
                    buffer.resize(budget, 0);
                    let stretch = ask::cursor_view(*block_type, view, *cursor, budget, buffer)
                        .expect("the block was checked, the cursor is its own, and the buffer has room");
                    *cursor = stretch.next;
                    *ended = stretch.taken < budget;
                    *at = 0;
                    *stop = stretch.listed;
                }
                let number = buffer[*at];
                *at += 1;
                Some(number)
            }
        }
    }
}

impl FusedIterator for SequenceIter<'_> {}

/// A run-length encoded block, of type 1 or 2.
#[derive(Clone, Copy, Debug, PartialEq, Eq)]
struct Rle<'a> {
    block: XrBlock<'a>,
    asked: u8,
    fields: Fields,
}

impl<'a> Rle<'a> {
    fn from_block(block: XrBlock<'a>, asked: u8) -> Result<Self, Refusal> {
        let fields = ask::fields_view(block.reading(), asked, block.data())?;
        Ok(Self { block, asked, fields })
    }

    fn sequences_into(&self, out: &mut [u16]) -> Result<usize, Refusal> {
        ask::numbers_view(self.block.reading(), self.asked, self.block.data(), out)
    }

    fn sequence_count(&self) -> Result<usize, Refusal> {
        list::needed(self.sequences_into(&mut []))
    }

    fn sequences(&self) -> Result<Vec<u16>, Refusal> {
        list::listed(|out| self.sequences_into(out))
    }

    fn sequence_iter(&self) -> SequenceIter<'a> {
        let source = match self.block.reading() {
            Reading::Standard => Source::Steps {
                block_type: self.asked,
                view: self.block.data(),
                cursor: Cursor::default(),
                ended: false,
                buffer: Vec::new(),
                at: 0,
                stop: 0,
            },
            Reading::Crate => {
                Source::List(self.sequences().expect("there is memory for the crate's list").into_iter())
            }
        };
        SequenceIter { source }
    }

    fn words(&self) -> Result<Vec<u16>, Refusal> {
        list::listed(|out| ask::words_view(self.block.reading(), self.asked, self.block.data(), out))
    }

    fn chunk_iter(&self) -> ChunkIter {
        ChunkIter { words: self.words().expect("there is memory for the words of a packet").into_iter() }
    }
}

/// The chunks of a block ([`LossRle::chunk_iter`], [`DuplicateRle::chunk_iter`]).
#[derive(Clone, Debug)]
pub struct ChunkIter {
    words: std::vec::IntoIter<u16>,
}

impl Iterator for ChunkIter {
    type Item = RleChunk;

    fn next(&mut self) -> Option<RleChunk> {
        self.words.next().map(ask::chunk_of)
    }

    fn size_hint(&self) -> (usize, Option<usize>) {
        self.words.size_hint()
    }
}

impl ExactSizeIterator for ChunkIter {}
impl FusedIterator for ChunkIter {}

/// What all records answer of their block.
macro_rules! of_its_block {
    () => {
        /// The block that it was had of.
        pub fn block(&self) -> XrBlock<'a> {
            self.block
        }

        /// The block's four header bytes.
        pub fn header_data(&self) -> [u8; 4] {
            self.block.header_data()
        }

        /// The block's type.
        pub fn block_type(&self) -> u8 {
            self.block.block_type()
        }

        /// The header byte whose meaning depends on the type.
        pub fn type_specific_byte(&self) -> u8 {
            self.block.type_specific_byte()
        }

        /// The block's length in bytes, its header included.
        pub fn length(&self) -> usize {
            self.block.length()
        }
    };
}

/// What the records with a range of sequence numbers answer.
macro_rules! of_its_fields {
    () => {
        /// The sequence numbers that are 0 mod 2^thinning are reported on: 0 to 15.
        pub fn thinning(&self) -> u8 {
            self.fields.thinning
        }

        /// The SSRC of the media that is reported on.
        pub fn media_ssrc(&self) -> u32 {
            self.fields.media_ssrc
        }

        /// The first sequence number of the range.
        pub fn begin(&self) -> u16 {
            self.fields.begin
        }

        /// The first sequence number behind the range.
        pub fn end(&self) -> u16 {
            self.fields.end
        }
    };
}

macro_rules! run_length_encoded {
    ($(#[$words:meta])* $name:ident, $builder:ident, $number:expr) => {
        $(#[$words])*
        #[derive(Clone, Copy, Debug, PartialEq, Eq)]
        pub struct $name<'a> {
            block: XrBlock<'a>,
            fields: Fields,
            rle: Rle<'a>,
        }

        impl XrBlockStaticType for $name<'_> {
            const BLOCK_TYPE: u8 = $number;
        }

        impl<'a> XrBlockParser<'a> for $name<'a> {
            fn from_block(block: XrBlock<'a>) -> Result<Self, Refusal> {
                let rle = Rle::from_block(block, Self::BLOCK_TYPE)?;
                Ok(Self { block, fields: rle.fields, rle })
            }
        }

        impl<'a> $name<'a> {
            of_its_block!();
            of_its_fields!();

            /// The sequence numbers that it lists, in order.
            ///
            /// In the standard reading this holds no list but a stretch of it, no longer than the block's words (at
            /// least 64 numbers). In the crate's reading it holds the list, and such a list can have
            /// over 2,000,000,000 numbers, of one packet: ask `sequence_count` first where packets come from
            /// strangers. It panics where the machine has no memory for that list.
            pub fn sequence_iter(&self) -> SequenceIter<'a> {
                self.rle.sequence_iter()
            }

            /// The same as a `Vec`; 11 where the machine has no memory for it.
            pub fn sequences(&self) -> Result<Vec<u16>, Refusal> {
                self.rle.sequences()
            }

            /// The same into lent memory, and how many: 11.
            pub fn sequences_into(&self, out: &mut [u16]) -> Result<usize, Refusal> {
                self.rle.sequences_into(out)
            }

            /// How many numbers it lists, found without listing them.
            pub fn sequence_count(&self) -> usize {
                self.rle.sequence_count().expect("the block was checked")
            }

            /// The chunks as they are stored; the crate's reading leaves out the last word of the block.
            pub fn chunk_iter(&self) -> ChunkIter {
                self.rle.chunk_iter()
            }

            /// A builder of such blocks.
            pub fn builder() -> $builder {
                $builder::default()
            }
        }
    };
}

run_length_encoded!(
    /// A loss block, of type 1: the sequence numbers that it lists were **heard**.
    LossRle,
    LossRleBuilder,
    sys::LOSS
);
run_length_encoded!(
    /// A duplicate block, of type 2: the sequence numbers that it lists were **not duplicated**.
    DuplicateRle,
    DuplicateRleBuilder,
    sys::DUPLICATE
);

/// A block of receipt times, of type 3.
///
/// In the crate's reading a block of which fewer than 12 bytes are left has no fields, and is refused here as 8. (Its
/// list is not refused but empty: [`ask::pairs_view`] says so.)
#[derive(Clone, Copy, Debug, PartialEq, Eq)]
pub struct PacketReceiptTimes<'a> {
    block: XrBlock<'a>,
    fields: Fields,
}

impl XrBlockStaticType for PacketReceiptTimes<'_> {
    const BLOCK_TYPE: u8 = sys::RECEIPT_TIMES;
}

impl<'a> XrBlockParser<'a> for PacketReceiptTimes<'a> {
    fn from_block(block: XrBlock<'a>) -> Result<Self, Refusal> {
        let fields = ask::fields_view(block.reading(), Self::BLOCK_TYPE, block.data())?;
        Ok(Self { block, fields })
    }
}

impl<'a> PacketReceiptTimes<'a> {
    of_its_block!();
    of_its_fields!();

    /// The sequence numbers and their times, in order.
    pub fn sequence_iter(&self) -> impl ExactSizeIterator<Item = (u16, ReceiptTime)> + Clone {
        let (numbers, times) = self.lists().expect("there is memory for the times of a packet");
        numbers.into_iter().zip(times)
    }

    fn lists(&self) -> Result<(Vec<u16>, Vec<ReceiptTime>), Refusal> {
        let ask = |numbers: &mut [u16], times: &mut [ReceiptTime]| {
            ask::pairs_view(self.block.reading(), self.block.data(), numbers, times)
        };
        let needed = list::needed(ask(&mut [], &mut []))?;
        let (mut numbers, mut times) = (list::room(needed)?, list::room(needed)?);
        ask(&mut numbers, &mut times)?;
        Ok((numbers, times))
    }

    /// A builder of such blocks.
    pub fn builder() -> PacketReceiptTimesBuilder {
        PacketReceiptTimesBuilder::default()
    }
}

/// A block of one reference time, of type 4.
#[derive(Clone, Copy, Debug, PartialEq, Eq)]
pub struct ReceiverReferenceTime<'a> {
    block: XrBlock<'a>,
    time: LongTime,
}

impl XrBlockStaticType for ReceiverReferenceTime<'_> {
    const BLOCK_TYPE: u8 = sys::REFERENCE_TIME;
}

impl<'a> XrBlockParser<'a> for ReceiverReferenceTime<'a> {
    fn from_block(block: XrBlock<'a>) -> Result<Self, Refusal> {
        let time = ask::time_view(block.reading(), block.data())?;
        Ok(Self { block, time })
    }
}

impl<'a> ReceiverReferenceTime<'a> {
    of_its_block!();

    /// The clock time, 32 bits of seconds and 32 of their fraction.
    pub fn ntp_timestamp(&self) -> LongTime {
        self.time
    }

    /// A builder of such blocks.
    pub fn builder() -> ReceiverReferenceTimeBuilder {
        ReceiverReferenceTimeBuilder::default()
    }
}

/// A block of clock echoes, of type 5: for each receiver its last reference time, and how long ago that came.
#[derive(Clone, Copy, Debug, PartialEq, Eq)]
pub struct DelaySinceLastReceiverReport<'a> {
    block: XrBlock<'a>,
    entries: usize,
}

impl XrBlockStaticType for DelaySinceLastReceiverReport<'_> {
    const BLOCK_TYPE: u8 = sys::DLRR;
}

impl<'a> XrBlockParser<'a> for DelaySinceLastReceiverReport<'a> {
    fn from_block(block: XrBlock<'a>) -> Result<Self, Refusal> {
        let asked = ask::entries_view(block.reading(), block.data(), &mut [], &mut [], &mut []);
        Ok(Self { block, entries: list::needed(asked)? })
    }
}

impl<'a> DelaySinceLastReceiverReport<'a> {
    of_its_block!();

    /// The entries in order.
    pub fn block_iter(&self) -> impl ExactSizeIterator<Item = DelaySinceLastReceiverReportBlock> + Clone {
        self.entries().expect("there is memory for the entries of a packet").into_iter()
    }

    fn entries(&self) -> Result<Vec<DelaySinceLastReceiverReportBlock>, Refusal> {
        let mut ssrcs: Vec<u32> = list::room(self.entries)?;
        let mut lasts: Vec<ShortTime> = list::room(self.entries)?;
        let mut delays: Vec<ShortTime> = list::room(self.entries)?;
        ask::entries_view(self.block.reading(), self.block.data(), &mut ssrcs, &mut lasts, &mut delays)?;
        let entries = ssrcs.into_iter().zip(lasts).zip(delays);
        Ok(entries
            .map(|((ssrc, last_receiver_report), delay)| DelaySinceLastReceiverReportBlock {
                ssrc,
                last_receiver_report,
                delay_since_last_receiver_report_timestamp: delay,
            })
            .collect())
    }

    /// A builder of such blocks.
    pub fn builder() -> DelaySinceLastReceiverReportBuilder {
        DelaySinceLastReceiverReportBuilder::default()
    }
}

/// An entry of a [`DelaySinceLastReceiverReport`].
#[derive(Clone, Copy, Debug, Default, PartialEq, Eq)]
pub struct DelaySinceLastReceiverReportBlock {
    pub(crate) ssrc: u32,
    pub(crate) last_receiver_report: ShortTime,
    pub(crate) delay_since_last_receiver_report_timestamp: ShortTime,
}

impl DelaySinceLastReceiverReportBlock {
    /// The SSRC of the receiver.
    pub fn ssrc(&self) -> u32 {
        self.ssrc
    }

    /// The middle bits of the receiver's last reference time.
    pub fn last_receiver_report(&self) -> ShortTime {
        self.last_receiver_report
    }

    /// How long ago that came.
    pub fn delay_since_last_receiver_report_timestamp(&self) -> ShortTime {
        self.delay_since_last_receiver_report_timestamp
    }

    /// A builder of an entry.
    pub fn builder() -> DelaySinceLastReceiverReportBlockBuilder {
        DelaySinceLastReceiverReportBlockBuilder::default()
    }
}

/// A block of loss, duplicates, jitter and TTL or hop limit in numbers, of type 6. Only the standard reading has it: the
/// crate's shows type and length of such a block, and refuses this as 10.
///
/// ```
/// use giunchemis::{Hops, Spread, StatisticsSummary, Xr};
///
/// let ttl = Spread { min: 60, max: 64, mean: 63, deviation: 1 };
/// let packet = Xr::builder()
///     .add_block(StatisticsSummary::builder().ssrc(7).begin(10).end(20).lost(0).hops(Hops::Ttl(ttl)))
///     .careful()?;
/// let summary = Xr::parse(&packet)?.block(0)?.parse_into::<StatisticsSummary>()?.summary();
/// assert_eq!(summary.lost, Some(0));
/// assert_eq!(summary.duplicates, None);
/// assert_eq!(summary.jitter, None);
/// assert_eq!(summary.hops.numbers().map(|x| x.max), Some(64));
/// # Ok::<(), giunchemis::Refusal>(())
/// ```
#[derive(Clone, Copy, Debug, PartialEq, Eq)]
pub struct StatisticsSummary<'a> {
    block: XrBlock<'a>,
    summary: Summary,
}

impl XrBlockStaticType for StatisticsSummary<'_> {
    const BLOCK_TYPE: u8 = sys::SUMMARY;
}

impl<'a> XrBlockParser<'a> for StatisticsSummary<'a> {
    fn from_block(block: XrBlock<'a>) -> Result<Self, Refusal> {
        let summary = ask::summary_view(block.reading(), block.data())?;
        Ok(Self { block, summary })
    }
}

impl<'a> StatisticsSummary<'a> {
    of_its_block!();

    /// What it shows.
    pub fn summary(&self) -> Summary {
        self.summary
    }

    /// A builder of such blocks.
    pub fn builder() -> StatisticsSummaryBuilder {
        StatisticsSummaryBuilder::default()
    }
}
