// The same questions answered by the Rust original, from the same bytes: parse the packet, go to the
// block, parse it as the asked type, run its iterator. Every list goes into a vector that has room for
// it from the start and is cleared before (its length set to 0), so nothing is allocated in a timed call.

use rtcp_types::prelude::*;
use rtcp_types::{
    DelaySinceLastReceiverReport, DelaySinceLastReceiverReportBlock, DuplicateRle, LossRle,
    PacketReceiptTimes, ReceiverReferenceTime, RleChunk, RtcpParseError, Xr, XrBlock,
};

/// Why the Rust does not answer.
#[derive(Debug, PartialEq, Eq)]
pub enum No {
    Parse(RtcpParseError),
    NoBlock(usize),
    OtherType(u8),
    Length(RtcpParseError),
}

pub type Reply<T> = Result<T, No>;

#[inline]
pub fn parse(s: &[u8]) -> Reply<Xr<'_>> {
    Xr::parse(s).map_err(No::Parse)
}

#[inline]
pub fn count(s: &[u8]) -> Reply<usize> {
    let xr = parse(s)?;
    let n = xr.block_iter().count();
    Ok(n)
}

#[inline]
fn with_block<T>(s: &[u8], k: usize, f: impl FnOnce(XrBlock<'_>) -> Reply<T>) -> Reply<T> {
    let xr = parse(s)?;
    let r = match xr.block_iter().nth(k) {
        Some(block) => f(block),
        None => Err(No::NoBlock(xr.block_iter().count())),
    };
    r
}

#[inline]
fn parsed<'a, T: XrBlockParser<'a> + XrBlockStaticType>(block: &XrBlock<'a>) -> Reply<T> {
    block.parse_into::<T>().map_err(|e| match e {
        RtcpParseError::WrongImplementation => No::OtherType(block.block_type()),
        e => No::Length(e),
    })
}

/// Type and length of block k.
#[inline]
pub fn locate(s: &[u8], k: usize) -> Reply<(u8, usize)> {
    with_block(s, k, |b| Ok((b.block_type(), b.length())))
}

#[inline]
pub fn fields(s: &[u8], k: usize) -> Reply<(u32, u16, u16, u8)> {
    with_block(s, k, |b| {
        let l = parsed::<LossRle>(&b)?;
        Ok((l.media_ssrc(), l.begin(), l.end(), l.thinning()))
    })
}

#[inline]
pub fn time(s: &[u8], k: usize) -> Reply<u64> {
    with_block(s, k, |b| Ok(parsed::<ReceiverReferenceTime>(&b)?.ntp_timestamp()))
}

#[inline]
pub fn numbers(s: &[u8], k: usize, out: &mut Vec<u16>) -> Reply<usize> {
    with_block(s, k, |b| numbers_view(&b, out))
}

/// The numbers of a block that is at hand.
#[inline]
pub fn numbers_view(b: &XrBlock<'_>, out: &mut Vec<u16>) -> Reply<usize> {
    let l = parsed::<LossRle>(b)?;
    out.clear();
    out.extend(l.sequence_iter());
    Ok(out.len())
}

/// The same into a slice, item by item: what a caller without a vector would write. It says how many there are, also
/// where they do not fit.
#[inline]
pub fn numbers_into(s: &[u8], k: usize, out: &mut [u16]) -> Reply<usize> {
    with_block(s, k, |b| {
        let l = parsed::<LossRle>(&b)?;
        let mut n = 0;
        for x in l.sequence_iter() {
            if let Some(slot) = out.get_mut(n) {
                *slot = x;
            }
            n += 1;
        }
        Ok(n)
    })
}

#[inline]
pub fn duplicates(s: &[u8], k: usize, out: &mut Vec<u16>) -> Reply<usize> {
    with_block(s, k, |b| {
        let l = parsed::<DuplicateRle>(&b)?;
        out.clear();
        out.extend(l.sequence_iter());
        Ok(out.len())
    })
}

/// How many numbers there are: what the Rust has for a list that does not fit.
#[inline]
pub fn numbers_count(s: &[u8], k: usize) -> Reply<usize> {
    with_block(s, k, |b| Ok(parsed::<LossRle>(&b)?.sequence_iter().count()))
}

#[inline]
pub fn words(s: &[u8], k: usize, out: &mut Vec<RleChunk>) -> Reply<usize> {
    with_block(s, k, |b| {
        let l = parsed::<LossRle>(&b)?;
        out.clear();
        out.extend(l.chunk_iter());
        Ok(out.len())
    })
}

/// A chunk as the word that it was read from.
pub fn word_of(c: &RleChunk) -> u16 {
    match *c {
        RleChunk::Null => 0,
        RleChunk::SkipLength(n) => n,
        RleChunk::RunLength(n) => 0x4000 | n,
        RleChunk::BitVector(v) => 0x8000 | v,
    }
}

/// Pairs into two vectors, as ours go into two lists.
#[inline]
pub fn pairs(s: &[u8], k: usize, numbers: &mut Vec<u16>, times: &mut Vec<u32>) -> Reply<usize> {
    with_block(s, k, |b| {
        let l = parsed::<PacketReceiptTimes>(&b)?;
        numbers.clear();
        times.clear();
        for (n, t) in l.sequence_iter() {
            numbers.push(n);
            times.push(t);
        }
        Ok(numbers.len())
    })
}

/// Pairs into one vector, as the iterator hands them out.
#[inline]
pub fn pairs_together(s: &[u8], k: usize, out: &mut Vec<(u16, u32)>) -> Reply<usize> {
    with_block(s, k, |b| {
        let l = parsed::<PacketReceiptTimes>(&b)?;
        out.clear();
        out.extend(l.sequence_iter());
        Ok(out.len())
    })
}

/// Entries into three vectors, as ours go into three lists.
#[inline]
pub fn entries(
    s: &[u8], k: usize, ssrcs: &mut Vec<u32>, lasts: &mut Vec<u32>, delays: &mut Vec<u32>,
) -> Reply<usize> {
    with_block(s, k, |b| {
        let l = parsed::<DelaySinceLastReceiverReport>(&b)?;
        ssrcs.clear();
        lasts.clear();
        delays.clear();
        for e in l.block_iter() {
            ssrcs.push(e.ssrc());
            lasts.push(e.last_receiver_report());
            delays.push(e.delay_since_last_receiver_report_timestamp());
        }
        Ok(ssrcs.len())
    })
}

/// Entries into one vector, as the iterator hands them out.
#[inline]
pub fn entries_together(
    s: &[u8], k: usize, out: &mut Vec<DelaySinceLastReceiverReportBlock>,
) -> Reply<usize> {
    with_block(s, k, |b| {
        let l = parsed::<DelaySinceLastReceiverReport>(&b)?;
        out.clear();
        out.extend(l.block_iter());
        Ok(out.len())
    })
}
