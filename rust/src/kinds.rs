//! The small types that the questions speak of.
use crate::sys;

/// Which of the two readings of a packet is asked.
#[derive(Clone, Copy, Debug, PartialEq, Eq, Hash)]
pub enum Reading {
    /// RFC 3611, as docs/RULES.md states it.
    Standard,
    /// What the Rust crate rtcp-types 0.3.0 answers.
    Crate,
}

impl Reading {
    pub(crate) fn number(self) -> u8 {
        match self {
            Reading::Standard => sys::STANDARD,
            Reading::Crate => sys::CRATE,
        }
    }
}

/// A clock time of 32 bits of seconds and 32 of their fraction, as a block of type 4 has it.
///
/// The three kinds of time are never taken for each other:
///
/// ```compile_fail,E0308
/// use giunchemis::{LongTime, PacketReceiptTimes};
/// PacketReceiptTimes::builder().add_time(LongTime(1));
/// ```
#[derive(Clone, Copy, Debug, Default, PartialEq, Eq, PartialOrd, Ord, Hash)]
#[repr(transparent)]
pub struct LongTime(pub u64);

/// The middle 32 bits of such a time, 16 before and 16 after the point, as the entries of a block of type 5 have it.
///
/// ```compile_fail,E0308
/// use giunchemis::{ReceiverReferenceTime, ShortTime};
/// ReceiverReferenceTime::builder().ntp_timestamp(ShortTime(1));
/// ```
#[derive(Clone, Copy, Debug, Default, PartialEq, Eq, PartialOrd, Ord, Hash)]
#[repr(transparent)]
pub struct ShortTime(pub u32);

/// A time in the media stream's own clock, as a block of type 3 has it.
///
/// ```compile_fail,E0308
/// use giunchemis::{DelaySinceLastReceiverReportBlock, ReceiptTime};
/// DelaySinceLastReceiverReportBlock::builder().last_receiver_report(ReceiptTime(1));
/// ```
#[derive(Clone, Copy, Debug, Default, PartialEq, Eq, PartialOrd, Ord, Hash)]
#[repr(transparent)]
pub struct ReceiptTime(pub u32);

/// What blocks of types 1, 2 and 3 begin with.
#[derive(Clone, Copy, Debug, PartialEq, Eq, Hash)]
pub struct Fields {
    /// The SSRC of the media that is reported on.
    pub media_ssrc: u32,
    /// The first sequence number of the range.
    pub begin: u16,
    /// The first sequence number behind the range.
    pub end: u16,
    /// The sequence numbers that are 0 mod 2^thinning are reported on: 0 to 15.
    pub thinning: u8,
}

/// Four numbers of a [`Summary`].
#[derive(Clone, Copy, Debug, Default, PartialEq, Eq, Hash)]
pub struct Spread<T> {
    /// The least.
    pub min: T,
    /// The greatest.
    pub max: T,
    /// The mean.
    pub mean: T,
    /// The standard deviation.
    pub deviation: T,
}

/// What a [`Summary`] says of the packets' TTL or hop limit: the two bits ToH, and the four numbers, where they say whose.
#[derive(Clone, Copy, Debug, Default, PartialEq, Eq, Hash)]
pub enum Hops {
    /// ToH 0: nothing.
    #[default]
    Absent,
    /// ToH 1: of TTL (IPv4).
    Ttl(Spread<u8>),
    /// ToH 2: of the hop limit (IPv6).
    HopLimit(Spread<u8>),
    /// ToH 3, which RFC 3611 gives no meaning.
    Unknown,
}

impl Hops {
    /// The two bits, 0 to 3.
    pub fn toh(self) -> u8 {
        match self {
            Hops::Absent => 0,
            Hops::Ttl(_) => 1,
            Hops::HopLimit(_) => 2,
            Hops::Unknown => 3,
        }
    }

    /// The four numbers, where they are there.
    pub fn numbers(self) -> Option<Spread<u8>> {
        match self {
            Hops::Ttl(x) | Hops::HopLimit(x) => Some(x),
            Hops::Absent | Hops::Unknown => None,
        }
    }
}

/// What a block of type 6 shows. A number whose flag is clear is `None`, which is another answer than 0.
#[derive(Clone, Copy, Debug, PartialEq, Eq, Hash)]
pub struct Summary {
    /// The SSRC of the media that is reported on.
    pub media_ssrc: u32,
    /// The first sequence number of the range.
    pub begin: u16,
    /// The first sequence number behind the range.
    pub end: u16,
    /// How many packets were lost.
    pub lost: Option<u32>,
    /// How many packets were duplicates.
    pub duplicates: Option<u32>,
    /// The jitter, in the stream's own clock.
    pub jitter: Option<Spread<u32>>,
    /// TTL or hop limit.
    pub hops: Hops,
}

/// A summary's flags, as in the block's specific byte, and all its numbers.
pub(crate) struct Sums {
    pub(crate) flags: u8,
    pub(crate) media_ssrc: u32,
    pub(crate) begin: u16,
    pub(crate) end: u16,
    pub(crate) lost: u32,
    pub(crate) duplicates: u32,
    pub(crate) jitter: Spread<u32>,
    pub(crate) hops: Spread<u8>,
}

impl Sums {
    /// What is shown of them.
    pub(crate) fn shown(self) -> Summary {
        let has = |bit: u8| self.flags & bit != 0;
        Summary {
            media_ssrc: self.media_ssrc,
            begin: self.begin,
            end: self.end,
            lost: has(sys::HAS_LOST).then_some(self.lost),
            duplicates: has(sys::HAS_DUPLICATES).then_some(self.duplicates),
            jitter: has(sys::HAS_JITTER).then_some(self.jitter),
            hops: match (has(sys::HOPS), has(sys::TTL)) {
                (false, false) => Hops::Absent,
                (false, true) => Hops::Ttl(self.hops),
                (true, false) => Hops::HopLimit(self.hops),
                (true, true) => Hops::Unknown,
            },
        }
    }
}

/// What stands at a place of a packet ([`ask::block_at`](crate::ask::block_at)).
#[derive(Clone, Copy, Debug, PartialEq, Eq, Hash)]
pub struct BlockAt {
    /// Where the next block begins.
    pub next: usize,
    /// How many bytes the block's view has, from the place on.
    pub size: usize,
    /// The block's own length in bytes, by its header.
    pub length: usize,
    /// The block's type.
    pub block_type: u8,
    /// The byte whose meaning depends on the type.
    pub type_specific_byte: u8,
}

/// A place in the chunk words of a block: which word, which place of it, and the position that it stands for.
///
/// `Cursor::default()` is the start.
#[derive(Clone, Copy, Debug, Default, PartialEq, Eq, Hash)]
pub struct Cursor {
    /// The word's index.
    pub word: usize,
    /// The place in the word.
    pub place: usize,
    /// The position, 0 to 65,536.
    pub position: usize,
}

/// What a call of the number cursor did.
#[derive(Clone, Copy, Debug, PartialEq, Eq, Hash)]
pub struct Stretch {
    /// Where the next call goes on.
    pub next: Cursor,
    /// How many steps it took; fewer than the budget at the end.
    pub taken: usize,
    /// How many numbers it stored.
    pub listed: usize,
}

/// What a chunk word is.
///
/// ```
/// use giunchemis::{ask, RleChunk};
///
/// assert_eq!(ask::chunk_of(0x4005), RleChunk::RunLength(5));
/// let mut bytes = [0; 2];
/// assert_eq!(ask::chunk(RleChunk::BitVector(1), &mut bytes), Ok(2));
/// assert_eq!(bytes, [0x80, 0x01]);
/// assert_eq!(ask::chunk(RleChunk::RunLength(16_384), &mut bytes).unwrap_err().number(), 13);
/// assert_eq!(ask::chunk(RleChunk::RunLength(0), &mut bytes).unwrap_err().number(), 13);
/// ```
#[derive(Clone, Copy, Debug, PartialEq, Eq, Hash)]
pub enum RleChunk {
    /// A run of ones, and its length, at most 16,383. One of length 0 can be read, in the crate's reading, and is not
    /// made.
    RunLength(u16),
    /// A run of zeros, and its length, at most 16,383.
    SkipLength(u16),
    /// 15 bits, the most significant first: at most 32,767.
    BitVector(u16),
    /// The word 0, which covers nothing.
    Null,
}
