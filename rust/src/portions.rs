//! A packet that comes in portions, some bytes at a time.
use crate::ask::{self, PortionState};
use crate::kinds::Sums;
use crate::{DelaySinceLastReceiverReportBlock, Fields, LongTime, ReceiptTime, Refusal, ShortTime, Spread, Summary};

/// What a packet that comes in portions shows, each at the byte that completes it.
#[derive(Clone, Copy, Debug, PartialEq, Eq)]
pub enum Event {
    /// The packet's header.
    Header {
        /// the packet's length, as its header says
        length: usize,
        /// the SSRC of its sender
        sender_ssrc: u32,
    },
    /// A block begins.
    Start {
        /// its type
        block_type: u8,
        /// its length in bytes
        length: usize,
        /// of types 1 to 3, its fields
        fields: Option<Fields>,
    },
    /// A sequence number that a block of type 1 or 2 lists.
    Number(u16),
    /// A sequence number that a block of type 3 lists, and its time.
    Pair(u16, ReceiptTime),
    /// An entry of a block of type 5.
    Entry(DelaySinceLastReceiverReportBlock),
    /// The time of a block of type 4.
    Time(LongTime),
    /// What a block of type 6 shows.
    Summary(Summary),
    /// The packet's last byte has come.
    End,
}

impl Event {
    /// The event of a tag, a number, a value and three numbers of the last list, as [`ask::follow`] stores them; a tag
    /// that is none is an end.
    pub fn from_parts(tag: u64, number: u16, value: u64, sums: [u64; 3]) -> Event {
        let start = |fields| Event::Start { block_type: (tag >> 8) as u8, length: (tag >> 16 & 0xff_ffff) as usize, fields };
        match tag & 255 {
            1 => Event::Header { length: (tag >> 8) as u32 as usize, sender_ssrc: value as u32 },
            2 => start(None),
            3 => start(Some(Fields {
                media_ssrc: (value >> 32) as u32,
                begin: (value >> 16) as u16,
                end: value as u16,
                thinning: (tag >> 40) as u8,
            })),
            4 => Event::Number(number),
            5 => Event::Pair(number, ReceiptTime(value as u32)),
            6 => Event::Entry(DelaySinceLastReceiverReportBlock {
                ssrc: (tag >> 8) as u32,
                last_receiver_report: ShortTime((value >> 32) as u32),
                delay_since_last_receiver_report_timestamp: ShortTime(value as u32),
            }),
            7 => Event::Time(LongTime(value)),
            9 => Event::Summary(
                Sums {
                    flags: (tag >> 8) as u8,
                    media_ssrc: (value >> 32) as u32,
                    begin: (value >> 16) as u16,
                    end: value as u16,
                    lost: (sums[0] >> 32) as u32,
                    duplicates: sums[0] as u32,
                    jitter: Spread {
                        min: (sums[1] >> 32) as u32,
                        max: sums[1] as u32,
                        mean: (sums[2] >> 32) as u32,
                        deviation: sums[2] as u32,
                    },
                    hops: Spread {
                        min: (tag >> 40) as u8,
                        max: (tag >> 32) as u8,
                        mean: (tag >> 24) as u8,
                        deviation: (tag >> 16) as u8,
                    },
                }
                .shown(),
            ),
            _ => Event::End,
        }
    }
}

/// The most events that one byte has: a run of 16,383 numbers and the packet's end.
pub const MOST_EVENTS: usize = 16384;

/// A packet that comes in portions, some bytes at a time, sometimes none: the standard reading of it, without keeping
/// the packet. It holds a state of 96 bytes, and lists for 16,384 events, whatever the packet.
///
/// ```
/// use giunchemis::{Event, Portions};
///
/// let packet = [
///     0x80, 0xcf, 0x00, 0x05, 0x00, 0x00, 0x00, 0x01, 0x01, 0x00, 0x00, 0x03,
///     0x00, 0x00, 0x00, 0x07, 0x00, 0x0a, 0x00, 0x0e, 0x40, 0x02, 0x40, 0x02,
/// ];
/// let mut portions = Portions::new();
/// let mut heard = Vec::new();
/// for bytes in packet.chunks(5) {
///     for event in portions.feed(bytes) {
///         match event? {
///             Event::Number(n) => heard.push(n),
///             Event::End => assert_eq!(heard, [10, 11, 12, 13]),
///             _ => {}
///         }
///     }
/// }
/// # assert_eq!(heard.len(), 4);
/// # Ok::<(), giunchemis::Refusal>(())
/// ```
#[derive(Clone, Debug)]
pub struct Portions {
    state: PortionState,
    tags: Vec<u64>,
    numbers: Vec<u16>,
    values: Vec<u64>,
    sums: Vec<u64>,
}

impl Default for Portions {
    fn default() -> Portions {
        Portions::new()
    }
}

impl Portions {
    /// Before the packet's first byte.
    pub fn new() -> Portions {
        Portions {
            state: ask::portions_start(),
            tags: vec![0; MOST_EVENTS],
            numbers: vec![0; MOST_EVENTS],
            values: vec![0; MOST_EVENTS],
            sums: vec![0; 3 * MOST_EVENTS],
        }
    }

    /// Before the first byte of another packet, with the same lists.
    pub fn begin(&mut self) {
        self.state = ask::portions_start();
    }

    /// Takes the next bytes, or none, and hands out the events that they complete, in order; behind them, where the
    /// packet is refused, the refusal: 1, 2, 3, 18, 6, 7. Such a refusal stays: it comes again from every later call, and
    /// nothing else does. 19, where there are more bytes than the header says, comes alone: none of the bytes is taken
    /// then, and the call may be made again with fewer.
    ///
    /// The bytes are taken even where the events are not all looked at.
    pub fn feed<'a>(&'a mut self, bytes: &'a [u8]) -> Events<'a> {
        let mut events =
            Events { portions: self, bytes, size: bytes.len(), at: 0, upto: 0, refusal: None, is_over: false };
        events.fill();
        events
    }
}

/// The events of one [`Portions::feed`].
#[derive(Debug)]
pub struct Events<'a> {
    portions: &'a mut Portions,
    bytes: &'a [u8],
    // how many bytes are given at a time: fewer where their events have no room
    size: usize,
    // the events that are stored and not handed out
    at: usize,
    upto: usize,
    refusal: Option<Refusal>,
    is_over: bool,
}

impl Events<'_> {
    /// The events of the next bytes, as many as have room. 19 is judged in the first call, which has all the bytes; from
    /// then on they are given in smaller parts only where their events have no room, and one byte's always have.
    fn fill(&mut self) {
        while self.at == self.upto && !self.is_over {
            let size = self.size.min(self.bytes.len());
            let p = &mut *self.portions;
            let given = &self.bytes[..size];
            let a = ask::follow(p.state, given, &mut p.tags, &mut p.numbers, &mut p.values, &mut p.sums);
            if let Some(Refusal::NoRoom { .. }) = a.refusal {
                self.size = (size / 2).max(1);
                continue;
            }
            p.state = a.state;
            self.bytes = &self.bytes[a.taken..];
            self.at = 0;
            self.upto = a.events;
            self.size = self.size.saturating_mul(2);
            self.refusal = a.refusal;
            self.is_over = a.refusal.is_some() || self.bytes.is_empty();
        }
    }
}

impl Iterator for Events<'_> {
    type Item = Result<Event, Refusal>;

    fn next(&mut self) -> Option<Self::Item> {
        self.fill();
        if self.at == self.upto {
            return self.refusal.take().map(Err);
        }
        let (i, p) = (self.at, &self.portions);
        self.at += 1;
        let sums = [p.sums[3 * i], p.sums[3 * i + 1], p.sums[3 * i + 2]];
        Some(Ok(Event::from_parts(p.tags[i], p.numbers[i], p.values[i], sums)))
    }
}

impl Drop for Events<'_> {
    /// Takes the bytes that are left.
    fn drop(&mut self) {
        while !self.is_over {
            self.at = self.upto;
            self.fill();
        }
    }
}
