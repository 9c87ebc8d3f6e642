//! The proved functions, one for each, with Rust's own types.
//!
//! Nothing here decides anything: slices go in, and what the library answers comes out as a `Result`. Each call is one
//! call of libxport.a. A question by a packet and a block's index `k` walks the whole packet; the same question by a
//! view (`.._view`) looks at that block alone. A `block_type` that a question does not serve is refused as 10 with the
//! block's own type.
//!
//! ```
//! use giunchemis::{ask, Reading};
//!
//! let packet = [
//!     0x80, 0xcf, 0x00, 0x05, 0x00, 0x00, 0x00, 0x01, 0x01, 0x00, 0x00, 0x03,
//!     0x00, 0x00, 0x00, 0x07, 0x00, 0x0a, 0x00, 0x0e, 0x40, 0x02, 0x40, 0x02,
//! ];
//! let mut numbers = [0; 4];
//! assert_eq!(ask::numbers(Reading::Standard, &packet, 0, 1, &mut numbers), Ok(4));
//! assert_eq!(numbers, [10, 11, 12, 13]);
//! assert_eq!(ask::numbers(Reading::Crate, &packet, 0, 1, &mut numbers), Ok(2));
//! ```
use crate::kinds::Sums;
use crate::sys;
use crate::{
    BlockAt, Cursor, Fields, LongTime, Reading, ReceiptTime, Refusal, RleChunk, ShortTime, Spread, Stretch, Summary,
};
use std::ops::Range;

// Every `unsafe` of the crate stands in this file. The library asks of a caller only that each pointer and length is a
// slice that is alive for the call and, where it is written, lent to nobody else: no exported function has a
// `requires`. A Rust slice is that. The times are #[repr(transparent)], so a slice of them is a slice of their numbers.

/// Code 0 and two values, or a refusal.
fn found(a: sys::Flat) -> Result<(u64, u64), Refusal> {
    match a.code {
        0 => Ok((a.first, a.second)),
        code => Err(Refusal::from_numbers(code, a.first, a.second)),
    }
}

fn count_of(a: sys::Flat) -> Result<usize, Refusal> {
    found(a).map(|(n, _)| n as usize)
}

fn fields_of(a: sys::FlatFields) -> Result<Fields, Refusal> {
    match a.code {
        0 => Ok(Fields { media_ssrc: a.ssrc, begin: a.begin, end: a.end, thinning: a.thinning }),
        code => Err(Refusal::from_numbers(code, a.first, a.second)),
    }
}

fn summary_of(a: sys::FlatSummary) -> Result<Summary, Refusal> {
    match a.code {
        0 => Ok(Sums {
            flags: a.flags,
            media_ssrc: a.ssrc,
            begin: a.begin,
            end: a.end,
            lost: a.lost,
            duplicates: a.duplicates,
            jitter: Spread {
                min: a.jitter_min,
                max: a.jitter_max,
                mean: a.jitter_mean,
                deviation: a.jitter_deviation,
            },
            hops: Spread { min: a.hops_min, max: a.hops_max, mean: a.hops_mean, deviation: a.hops_deviation },
        }
        .shown()),
        code => Err(Refusal::from_numbers(code, a.first, a.second)),
    }
}

fn stretch_of(a: sys::FlatStretch) -> Result<Stretch, Refusal> {
    match a.code {
        0 => Ok(Stretch {
            next: Cursor { word: a.word as usize, place: a.place as usize, position: a.position as usize },
            taken: a.taken as usize,
            listed: a.listed as usize,
        }),
        code => Err(Refusal::from_numbers(code, a.first, a.second)),
    }
}

/// How many blocks the packet has: 1 to 6.
pub fn count(reading: Reading, packet: &[u8]) -> Result<usize, Refusal> {
    count_of(unsafe { sys::xr_count(reading.number(), packet.as_ptr(), packet.len()) })
}

/// How many blocks the packet has, and its sender's SSRC: 1 to 6.
pub fn parse(reading: Reading, packet: &[u8]) -> Result<(usize, u32), Refusal> {
    let a = unsafe { sys::xr_parse(reading.number(), packet.as_ptr(), packet.len()) };
    found(a).map(|(blocks, ssrc)| (blocks as usize, ssrc as u32))
}

/// Where block `k`'s view lies in the packet: 1 to 6, 9.
pub fn locate(reading: Reading, packet: &[u8], k: usize) -> Result<Range<usize>, Refusal> {
    let a = unsafe { sys::xr_locate(reading.number(), packet.as_ptr(), packet.len(), k) };
    found(a).map(|(at, size)| at as usize..at as usize + size as usize)
}

/// What stands at a place of the packet. From place 8 on, as often as [`count`] says and each time at the `next`
/// before, these are the packet's blocks in order. It checks nothing and is never refused: past the end the view is
/// empty, its header bytes count as 0, and `next` is the place itself.
pub fn block_at(reading: Reading, packet: &[u8], at: usize) -> BlockAt {
    let a = unsafe { sys::xr_block_at(reading.number(), packet.as_ptr(), packet.len(), at) };
    BlockAt {
        next: a.next as usize,
        size: a.size as usize,
        length: a.length as usize,
        block_type: a.kind,
        type_specific_byte: a.specific,
    }
}

/// The fields of block `k`, asked as type 1, 2 or 3: 1 to 6, 9, 10, 7, 8.
pub fn fields(reading: Reading, packet: &[u8], k: usize, block_type: u8) -> Result<Fields, Refusal> {
    fields_of(unsafe { sys::xr_fields(reading.number(), packet.as_ptr(), packet.len(), k, block_type) })
}

/// The time of block `k`, of type 4: 1 to 6, 9, 10, 7.
pub fn time(reading: Reading, packet: &[u8], k: usize) -> Result<LongTime, Refusal> {
    found(unsafe { sys::xr_time(reading.number(), packet.as_ptr(), packet.len(), k) }).map(|(t, _)| LongTime(t))
}

/// What block `k`, of type 6, shows: 1 to 6, 9, 10, 7. The crate's reading has no such question: there it is 10.
pub fn summary(reading: Reading, packet: &[u8], k: usize) -> Result<Summary, Refusal> {
    summary_of(unsafe { sys::xr_summary(reading.number(), packet.as_ptr(), packet.len(), k) })
}

/// The sequence numbers that block `k` lists, asked as type 1 or 2, and how many: 1 to 6, 9, 10, 7, 11.
pub fn numbers(reading: Reading, packet: &[u8], k: usize, block_type: u8, out: &mut [u16]) -> Result<usize, Refusal> {
    count_of(unsafe {
        sys::xr_numbers(reading.number(), packet.as_ptr(), packet.len(), k, block_type, out.as_mut_ptr(), out.len())
    })
}

/// The chunk words of block `k`, asked as type 1 or 2, and how many: 1 to 6, 9, 10, 7, 11.
pub fn words(reading: Reading, packet: &[u8], k: usize, block_type: u8, out: &mut [u16]) -> Result<usize, Refusal> {
    count_of(unsafe {
        sys::xr_words(reading.number(), packet.as_ptr(), packet.len(), k, block_type, out.as_mut_ptr(), out.len())
    })
}

/// The sequence numbers of block `k`, of type 3, beside them their times, and how many: 1 to 6, 9, 10, 7, 11.
pub fn pairs(
    reading: Reading,
    packet: &[u8],
    k: usize,
    numbers: &mut [u16],
    times: &mut [ReceiptTime],
) -> Result<usize, Refusal> {
    count_of(unsafe {
        sys::xr_pairs(
            reading.number(),
            packet.as_ptr(),
            packet.len(),
            k,
            numbers.as_mut_ptr(),
            numbers.len(),
            times.as_mut_ptr().cast(),
            times.len(),
        )
    })
}

/// The entries of block `k`, of type 5, into three lists side by side, and how many: 1 to 6, 9, 10, 7, 11.
pub fn entries(
    reading: Reading,
    packet: &[u8],
    k: usize,
    ssrcs: &mut [u32],
    lasts: &mut [ShortTime],
    delays: &mut [ShortTime],
) -> Result<usize, Refusal> {
    count_of(unsafe {
        sys::xr_entries(
            reading.number(),
            packet.as_ptr(),
            packet.len(),
            k,
            ssrcs.as_mut_ptr(),
            ssrcs.len(),
            lasts.as_mut_ptr().cast(),
            lasts.len(),
            delays.as_mut_ptr().cast(),
            delays.len(),
        )
    })
}

/// At most `budget` steps through the standard list of block `k`, asked as type 1 or 2, from a cursor on; the list
/// needs room for the budget: 1 to 6, 9, 10, 7, 16, 11.
///
/// Each call goes over all of the block's words before its first step, for a run of ones of no length, which is 7. That
/// is quick, but it is the whole block: take as many steps at a time as the block has words, or more.
pub fn cursor(
    packet: &[u8],
    k: usize,
    block_type: u8,
    cursor: Cursor,
    budget: usize,
    out: &mut [u16],
) -> Result<Stretch, Refusal> {
    stretch_of(unsafe {
        sys::xr_cursor(
            packet.as_ptr(),
            packet.len(),
            k,
            block_type,
            cursor.word,
            cursor.place,
            cursor.position,
            budget,
            out.as_mut_ptr(),
            out.len(),
        )
    })
}

/// As [`fields`], of a view: 10, 7, 8.
pub fn fields_view(reading: Reading, block_type: u8, view: &[u8]) -> Result<Fields, Refusal> {
    fields_of(unsafe { sys::xr_fields_view(reading.number(), block_type, view.as_ptr(), view.len()) })
}

/// As [`time`], of a view: 10, 7.
pub fn time_view(reading: Reading, view: &[u8]) -> Result<LongTime, Refusal> {
    found(unsafe { sys::xr_time_view(reading.number(), view.as_ptr(), view.len()) }).map(|(t, _)| LongTime(t))
}

/// As [`summary`], of a view: 10, 7.
pub fn summary_view(reading: Reading, view: &[u8]) -> Result<Summary, Refusal> {
    summary_of(unsafe { sys::xr_summary_view(reading.number(), view.as_ptr(), view.len()) })
}

/// As [`numbers`], of a view: 10, 7, 11.
pub fn numbers_view(reading: Reading, block_type: u8, view: &[u8], out: &mut [u16]) -> Result<usize, Refusal> {
    count_of(unsafe {
        sys::xr_numbers_view(reading.number(), block_type, view.as_ptr(), view.len(), out.as_mut_ptr(), out.len())
    })
}

/// As [`words`], of a view: 10, 7, 11.
pub fn words_view(reading: Reading, block_type: u8, view: &[u8], out: &mut [u16]) -> Result<usize, Refusal> {
    count_of(unsafe {
        sys::xr_words_view(reading.number(), block_type, view.as_ptr(), view.len(), out.as_mut_ptr(), out.len())
    })
}

/// As [`pairs`], of a view: 10, 7, 11.
pub fn pairs_view(
    reading: Reading,
    view: &[u8],
    numbers: &mut [u16],
    times: &mut [ReceiptTime],
) -> Result<usize, Refusal> {
    count_of(unsafe {
        sys::xr_pairs_view(
            reading.number(),
            view.as_ptr(),
            view.len(),
            numbers.as_mut_ptr(),
            numbers.len(),
            times.as_mut_ptr().cast(),
            times.len(),
        )
    })
}

/// As [`entries`], of a view: 10, 7, 11.
pub fn entries_view(
    reading: Reading,
    view: &[u8],
    ssrcs: &mut [u32],
    lasts: &mut [ShortTime],
    delays: &mut [ShortTime],
) -> Result<usize, Refusal> {
    count_of(unsafe {
        sys::xr_entries_view(
            reading.number(),
            view.as_ptr(),
            view.len(),
            ssrcs.as_mut_ptr(),
            ssrcs.len(),
            lasts.as_mut_ptr().cast(),
            lasts.len(),
            delays.as_mut_ptr().cast(),
            delays.len(),
        )
    })
}

/// As [`cursor`], of a view: 10, 7, 16, 11.
pub fn cursor_view(
    block_type: u8,
    view: &[u8],
    cursor: Cursor,
    budget: usize,
    out: &mut [u16],
) -> Result<Stretch, Refusal> {
    stretch_of(unsafe {
        sys::xr_cursor_view(
            block_type,
            view.as_ptr(),
            view.len(),
            cursor.word,
            cursor.place,
            cursor.position,
            budget,
            out.as_mut_ptr(),
            out.len(),
        )
    })
}

/// What a chunk word is.
pub fn chunk_of(word: u16) -> RleChunk {
    let a = unsafe { sys::xr_chunk_of(word) };
    let value = a.second as u16;
    match a.first as u8 {
        sys::NULL => RleChunk::Null,
        sys::ZEROS => RleChunk::SkipLength(value),
        sys::ONES => RleChunk::RunLength(value),
        _ => RleChunk::BitVector(value),
    }
}

/// Makes one chunk word and stores its two bytes, big-endian: 13, 11. A run of ones of length 0 is 13.
pub fn chunk(chunk: RleChunk, out: &mut [u8]) -> Result<usize, Refusal> {
    let (kind, value) = match chunk {
        RleChunk::Null => (sys::NULL, 0),
        RleChunk::SkipLength(n) => (sys::ZEROS, n),
        RleChunk::RunLength(n) => (sys::ONES, n),
        RleChunk::BitVector(v) => (sys::VECTOR, v),
    };
    count_of(unsafe { sys::xr_chunk(kind, u32::from(value), out.as_mut_ptr(), out.len()) })
}

/// Makes the chunk words of marks, one byte for each position, 1 heard and 0 not, and says how many: 14, 17, 11.
pub fn words_from_marks(marks: &[u8], out: &mut [u16]) -> Result<usize, Refusal> {
    count_of(unsafe { sys::xr_words_from_marks(marks.as_ptr(), marks.len(), out.as_mut_ptr(), out.len()) })
}

/// Writes the packet of a job list (docs/RULES.md, "Job lists and writing") as rtcp-types' builders write it, and says
/// its length: 12, 14, 11.
pub fn write_plain(list: &[u8], out: &mut [u8]) -> Result<usize, Refusal> {
    count_of(unsafe { sys::xr_write_plain(list.as_ptr(), list.len(), out.as_mut_ptr(), out.len()) })
}

/// Writes it so that a reader which keeps the crate's reading is not misled, or refuses where that cannot be: 12, 14,
/// 15, 11.
pub fn write_careful(list: &[u8], out: &mut [u8]) -> Result<usize, Refusal> {
    count_of(unsafe { sys::xr_write_careful(list.as_ptr(), list.len(), out.as_mut_ptr(), out.len()) })
}

/// Where a packet that comes in portions stands: 96 bytes, whatever the packet. A copy is a state of its own.
#[derive(Clone, Copy, Debug, PartialEq, Eq, Hash)]
pub struct PortionState(sys::Portions);

/// What [`follow`] gives.
#[derive(Clone, Copy, Debug, PartialEq, Eq)]
pub struct Followed {
    /// for the next call
    pub state: PortionState,
    /// how many of the call's bytes were taken: all, or none
    pub taken: usize,
    /// how many events were listed
    pub events: usize,
    /// why the call, or the packet, is refused
    pub refusal: Option<Refusal>,
}

/// The state before the first byte of a packet that comes in portions.
pub fn portions_start() -> PortionState {
    PortionState(unsafe { sys::xr_portions_start() })
}

/// Takes some bytes of such a packet, or none, and lists the events that they complete, in the standard reading:
/// 1, 2, 3, 18, 19, 11, 6, 7. The event at an index is in the lists' items there, three of the last list
/// ([`crate::Event::from_parts`]); what an event does not have is left as it was. Unlike elsewhere, events are listed and bytes are taken also where
/// the packet is refused as 1, 2, 3, 18, 6 or 7: those before the refusal, which then stays. 19 and 11 take nothing.
/// Room for 16,384 events is enough for one byte, whatever it is. [`crate::Portions`] does this with lists of its own.
pub fn follow(
    state: PortionState,
    bytes: &[u8],
    tags: &mut [u64],
    numbers: &mut [u16],
    values: &mut [u64],
    sums: &mut [u64],
) -> Followed {
    let a = unsafe {
        sys::xr_follow(
            state.0,
            bytes.as_ptr(),
            bytes.len(),
            tags.as_mut_ptr(),
            tags.len(),
            numbers.as_mut_ptr(),
            numbers.len(),
            values.as_mut_ptr(),
            values.len(),
            sums.as_mut_ptr(),
            sums.len(),
        )
    };
    Followed {
        state: PortionState(a.state),
        taken: a.taken as usize,
        events: a.events as usize,
        refusal: match a.code {
            0 => None,
            code => Some(Refusal::from_numbers(code, a.first, a.second)),
        },
    }
}
