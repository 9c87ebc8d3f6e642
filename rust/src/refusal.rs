use std::fmt;

/// Why a question is refused: one case for each row of the rules' table (docs/RULES.md, "Refusal numbers"), with its
/// number and its two values.
///
/// A refused call leaves all memory that was lent to it as it was.
///
/// ```
/// use giunchemis::{Refusal, Xr};
///
/// let refusal = Xr::parse(&[0x80, 0xcf]).unwrap_err();
/// assert_eq!(refusal, Refusal::TooShort { least: 8, actual: 2 });
/// assert_eq!((refusal.number(), refusal.values()), (1, (8, 2)));
/// assert_eq!(refusal.to_string(), "refused 1 (8, 2): the packet has 2 bytes, and needs at least 8");
/// ```
#[derive(Clone, Copy, Debug, PartialEq, Eq, Hash)]
pub enum Refusal {
    /// 1: the packet has fewer bytes than any packet has in this reading.
    TooShort {
        /// the fewest bytes that a packet has: 8, and 12 in the crate's reading
        least: usize,
        /// the bytes given
        actual: usize,
    },
    /// 2: the version is not 2.
    WrongVersion,
    /// 3: the packet type is not 207.
    WrongPacketType,
    /// 4: the packet has another length than its header says.
    WrongLength {
        /// the length that the header says
        announced: usize,
        /// the bytes given
        actual: usize,
    },
    /// 5: the padding count is 0, no multiple of 4, or over the packet's length less 8.
    BadPadding {
        /// the count
        count: usize,
    },
    /// 6: a block is longer than what is left for blocks.
    BlockTooLong {
        /// the block's length
        length: usize,
        /// what is left for blocks
        left: usize,
    },
    /// 9: there is no block of that index.
    NoBlock {
        /// how many blocks there are
        count: usize,
    },
    /// 10: the block is not of the asked type, or the question does not serve that type.
    OtherType {
        /// the block's own type
        block_type: u8,
    },
    /// 7: the block's length does not fit its type; or, in the standard reading of types 1 and 2, a chunk word is a run
    /// of ones of no length (word 16384), with an expected length of 12.
    BadBlockLength {
        /// the length that would fit
        expected: usize,
        /// the length that it has
        actual: usize,
    },
    /// 8: in the crate's reading, a block of receipt times whose fields are not all in the packet.
    NoFields {
        /// how many bytes are left, of the 12 that are needed
        left: usize,
    },
    /// 16: a cursor names no place of the block.
    NoPlace,
    /// 11: the lent memory is too small.
    NoRoom {
        /// how many items are needed (bytes, for a packet)
        needed: usize,
        /// how many were lent
        lent: usize,
    },
    /// 13: a run over 16,383, a run of ones of length 0, or a vector over 32,767.
    ValueTooLarge {
        /// the value
        value: usize,
    },
    /// 12: a job list is malformed.
    BadRecord {
        /// the index of the first bad record, the header record being 0
        index: usize,
    },
    /// 14: over 31 blocks, over 262,144 bytes, or over 65,536 marks.
    TooMany {
        /// how many were found
        found: usize,
        /// the limit
        limit: usize,
    },
    /// 15: careful writing, where a reader that keeps the crate's reading would be misled all the same.
    Misleads {
        /// the first block that would mislead, counted from 0
        index: usize,
    },
    /// 17: a mark is neither 0 nor 1.
    BadMark {
        /// the index of the first such mark
        index: usize,
    },
    /// 18: a packet in portions has padding, whose count comes last.
    Padded,
    /// 19: more bytes of a packet in portions were given than its header says.
    PastEnd {
        /// the length that the header says
        announced: usize,
        /// the bytes given in all
        given: usize,
    },
}

impl Refusal {
    /// The number that the rules give it.
    pub fn number(&self) -> u32 {
        match self {
            Refusal::TooShort { .. } => 1,
            Refusal::WrongVersion => 2,
            Refusal::WrongPacketType => 3,
            Refusal::WrongLength { .. } => 4,
            Refusal::BadPadding { .. } => 5,
            Refusal::BlockTooLong { .. } => 6,
            Refusal::NoBlock { .. } => 9,
            Refusal::OtherType { .. } => 10,
            Refusal::BadBlockLength { .. } => 7,
            Refusal::NoFields { .. } => 8,
            Refusal::NoPlace => 16,
            Refusal::NoRoom { .. } => 11,
            Refusal::ValueTooLarge { .. } => 13,
            Refusal::BadRecord { .. } => 12,
            Refusal::TooMany { .. } => 14,
            Refusal::Misleads { .. } => 15,
            Refusal::BadMark { .. } => 17,
            Refusal::Padded => 18,
            Refusal::PastEnd { .. } => 19,
        }
    }

    /// The two values that the rules return with it, 0 where it has fewer.
    pub fn values(&self) -> (usize, usize) {
        match *self {
            Refusal::TooShort { least, actual } => (least, actual),
            Refusal::WrongVersion | Refusal::WrongPacketType | Refusal::NoPlace | Refusal::Padded => (0, 0),
            Refusal::WrongLength { announced, actual } => (announced, actual),
            Refusal::BadPadding { count } => (count, 0),
            Refusal::BlockTooLong { length, left } => (length, left),
            Refusal::NoBlock { count } => (count, 0),
            Refusal::OtherType { block_type } => (usize::from(block_type), 0),
            Refusal::BadBlockLength { expected, actual } => (expected, actual),
            Refusal::NoFields { left } => (12, left),
            Refusal::NoRoom { needed, lent } => (needed, lent),
            Refusal::ValueTooLarge { value } => (value, 0),
            Refusal::BadRecord { index } | Refusal::Misleads { index } | Refusal::BadMark { index } => (index, 0),
            Refusal::TooMany { found, limit } => (found, limit),
            Refusal::PastEnd { announced, given } => (announced, given),
        }
    }

    /// The refusal of a number and two values, as the library answers; it answers with no other number.
    pub(crate) fn from_numbers(code: u32, first: u64, second: u64) -> Refusal {
        let (a, b) = (first as usize, second as usize);
        match code {
            1 => Refusal::TooShort { least: a, actual: b },
            2 => Refusal::WrongVersion,
            3 => Refusal::WrongPacketType,
            4 => Refusal::WrongLength { announced: a, actual: b },
            5 => Refusal::BadPadding { count: a },
            6 => Refusal::BlockTooLong { length: a, left: b },
            7 => Refusal::BadBlockLength { expected: a, actual: b },
            8 => Refusal::NoFields { left: b },
            9 => Refusal::NoBlock { count: a },
            10 => Refusal::OtherType { block_type: a as u8 },
            11 => Refusal::NoRoom { needed: a, lent: b },
            12 => Refusal::BadRecord { index: a },
            13 => Refusal::ValueTooLarge { value: a },
            14 => Refusal::TooMany { found: a, limit: b },
            15 => Refusal::Misleads { index: a },
            16 => Refusal::NoPlace,
            17 => Refusal::BadMark { index: a },
            18 => Refusal::Padded,
            19 => Refusal::PastEnd { announced: a, given: b },
            _ => unreachable!("libxport.a answered with the number {}, which its contract does not allow", code),
        }
    }
}

impl fmt::Display for Refusal {
    fn fmt(&self, f: &mut fmt::Formatter<'_>) -> fmt::Result {
        let (first, second) = self.values();
        write!(f, "refused {} ({}, {}): ", self.number(), first, second)?;
        match *self {
            Refusal::TooShort { least, actual } => {
                write!(f, "the packet has {} bytes, and needs at least {}", actual, least)
            }
            Refusal::WrongVersion => write!(f, "the version is not 2"),
            Refusal::WrongPacketType => write!(f, "the packet type is not 207"),
            Refusal::WrongLength { announced, actual } => {
                write!(f, "the packet has {} bytes, and its header says {}", actual, announced)
            }
            Refusal::BadPadding { count } => write!(f, "a padding of {} bytes is none", count),
            Refusal::BlockTooLong { length, left } => {
                write!(f, "a block has {} bytes, where {} are left for blocks", length, left)
            }
            Refusal::NoBlock { count } => write!(f, "there is no such block: the packet has {}", count),
            Refusal::OtherType { block_type } => {
                write!(f, "the block is of type {}, which was not asked or is not served", block_type)
            }
            Refusal::BadBlockLength { expected: 12, actual } if actual >= 12 => {
                write!(f, "the block has {} bytes, and a clock needs 12; or, in a loss or duplicate block, ", actual)?;
                write!(f, "a chunk word is a run of ones of no length")
            }
            Refusal::BadBlockLength { expected, actual } => {
                write!(f, "the block has {} bytes, and its type needs {}", actual, expected)
            }
            Refusal::NoFields { left } => write!(f, "{} bytes are left, and the fields need 12", left),
            Refusal::NoPlace => write!(f, "the cursor names no place of the block"),
            Refusal::NoRoom { needed, lent } => {
                write!(f, "{} items are needed, and room for {} was lent", needed, lent)
            }
            Refusal::ValueTooLarge { value } => write!(f, "no chunk word of its kind has the value {}", value),
            Refusal::BadRecord { index } => write!(f, "record {} of the job list is malformed", index),
            Refusal::TooMany { found, limit } => write!(f, "there are {}, and {} are allowed", found, limit),
            Refusal::Misleads { index } => write!(f, "block {} would mislead a reader of the old kind", index),
            Refusal::BadMark { index } => write!(f, "mark {} is neither 0 nor 1", index),
            Refusal::Padded => write!(f, "the packet has padding, and cannot be read in portions"),
            Refusal::PastEnd { announced, given } => {
                write!(f, "{} bytes were given in all, and the header says {}", given, announced)
            }
        }
    }
}

impl std::error::Error for Refusal {}
