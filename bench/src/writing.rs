// Packets to write, as job lists and as the Rust's builders: the same records on both sides.

use rtcp_types::prelude::*;
use rtcp_types::{
    DelaySinceLastReceiverReport, DelaySinceLastReceiverReportBlock, DuplicateRle, LossRle, PacketReceiptTimes,
    ReceiverReferenceTime, RleChunk, RtcpWriteError, Xr, XrBuilder,
};

/// A record of a job list: body length (4), kind (2), body, all little-endian.
pub fn record(kind: u16, body: &[u8]) -> Vec<u8> {
    let mut r = (body.len() as u32).to_le_bytes().to_vec();
    r.extend_from_slice(&kind.to_le_bytes());
    r.extend_from_slice(body);
    r
}

/// The header record: sender 1, so many bytes of padding.
pub fn header(padding: u16) -> Vec<u8> {
    let mut body = vec![1, 0, 0, 0];
    body.extend_from_slice(&padding.to_le_bytes());
    record(0, &body)
}

/// SSRC 7, begin, end, thinning 0.
fn fields(begin: u16, end: u16) -> Vec<u8> {
    let mut body = vec![7, 0, 0, 0];
    for x in [begin, end, 0] {
        body.extend_from_slice(&x.to_le_bytes());
    }
    body
}

pub fn words(kind: u16, words: &[u16]) -> Vec<u8> {
    words_of(kind, 10, 65000, words)
}

pub fn words_of(kind: u16, begin: u16, end: u16, words: &[u16]) -> Vec<u8> {
    let mut body = fields(begin, end);
    words.iter().for_each(|w| body.extend_from_slice(&w.to_le_bytes()));
    record(kind, &body)
}

pub fn times(times: &[u32]) -> Vec<u8> {
    times_of(10, 65000, times)
}

fn times_of(begin: u16, end: u16, times: &[u32]) -> Vec<u8> {
    let mut body = fields(begin, end);
    times.iter().for_each(|t| body.extend_from_slice(&t.to_le_bytes()));
    record(3, &body)
}

pub fn clock() -> Vec<u8> {
    record(4, &0x0102_0304_0506_0708u64.to_le_bytes())
}

pub fn echoes(n: usize) -> Vec<u8> {
    record(5, &vec![9; 12 * n])
}

/// A list of records behind a header record.
pub fn list(records: &[Vec<u8>]) -> Vec<u8> {
    let mut l = header(0);
    records.iter().for_each(|r| l.extend_from_slice(r));
    l
}

/// Ten small blocks of every kind.
pub fn ten() -> Vec<Vec<u8>> {
    (0..2)
        .flat_map(|_| [words(1, &[16386, 32770]), words(2, &[3, 16385, 49152]), times(&[1, 2]), clock(), echoes(1)])
        .collect()
}

/// Ten small blocks of every kind that mislead no old reader: times that fill their range, and entries that the crate
/// refuses.
pub fn ten_careful() -> Vec<Vec<u8>> {
    (0..2)
        .flat_map(|_| {
            [words(1, &[16386, 32770]), words(2, &[3, 16385, 49152]), times_of(10, 12, &[1, 2]), clock(), echoes(2)]
        })
        .collect()
}

/// The records as the careful layout has them: an even count of words whose last is not 0 with two zero words more.
/// (An odd count's one is the builder's own.)
pub fn as_careful(records: &[Vec<u8>]) -> Vec<Vec<u8>> {
    let made = |r: &Vec<u8>| match u16_at(r, 4) {
        1 | 2 if r.len() > 16 && (r.len() - 16) % 4 == 0 && u16_at(r, r.len() - 2) != 0 => {
            record(u16_at(r, 4), &[&r[6..], &[0; 4]].concat())
        }
        _ => r.clone(),
    };
    records.iter().map(made).collect()
}

fn u16_at(s: &[u8], at: usize) -> u16 {
    u16::from_le_bytes([s[at], s[at + 1]])
}

fn u32_at(s: &[u8], at: usize) -> u32 {
    u32::from_le_bytes([s[at], s[at + 1], s[at + 2], s[at + 3]])
}

fn chunk(w: u16) -> RleChunk {
    match w {
        0 => RleChunk::Null,
        w if w & 0x8000 != 0 => RleChunk::BitVector(w & 0x7fff),
        w if w & 0x4000 != 0 => RleChunk::RunLength(w & 0x3fff),
        w => RleChunk::SkipLength(w),
    }
}

/// The Rust's builder for a list of good records; None at the first that is none.
pub fn builder(mut rest: &[u8]) -> Option<XrBuilder> {
    let mut b = Xr::builder();
    while !rest.is_empty() {
        let size = u32_at(rest, 0) as usize;
        let body = rest.get(6..6 + size)?;
        b = add(b, u16_at(rest, 4), body)?;
        rest = &rest[6 + size..];
    }
    Some(b)
}

fn add(b: XrBuilder, kind: u16, body: &[u8]) -> Option<XrBuilder> {
    match kind {
        0 => Some(b.sender_ssrc(u32_at(body, 0))),
        1 => {
            let block = LossRle::builder().ssrc(u32_at(body, 0)).begin(u16_at(body, 4)).end(u16_at(body, 6));
            let block = block.thinning(body[8]);
            Some(b.add_block(body[10..].chunks_exact(2).fold(block, |x, w| x.add_chunk(chunk(u16_at(w, 0))))))
        }
        2 => {
            let block = DuplicateRle::builder().ssrc(u32_at(body, 0)).begin(u16_at(body, 4)).end(u16_at(body, 6));
            let block = block.thinning(body[8]);
            Some(b.add_block(body[10..].chunks_exact(2).fold(block, |x, w| x.add_chunk(chunk(u16_at(w, 0))))))
        }
        3 => {
            let block = PacketReceiptTimes::builder().ssrc(u32_at(body, 0)).begin(u16_at(body, 4)).end(u16_at(body, 6));
            let block = block.thinning(body[8]);
            Some(b.add_block(body[10..].chunks_exact(4).fold(block, |x, t| x.add_time(u32_at(t, 0)))))
        }
        4 => {
            let time = u64::from(u32_at(body, 4)) << 32 | u64::from(u32_at(body, 0));
            Some(b.add_block(ReceiverReferenceTime::builder().ntp_timestamp(time)))
        }
        5 => Some(b.add_block(body.chunks_exact(12).fold(DelaySinceLastReceiverReport::builder(), |x, e| {
            x.add_block(
                DelaySinceLastReceiverReportBlock::builder()
                    .ssrc(u32_at(e, 0))
                    .last_receiver_report(u32_at(e, 4))
                    .delay_since_last_receiver_report_timestamp(u32_at(e, 8)),
            )
        }))),
        _ => None,
    }
}

/// A ready builder, written.
#[inline]
pub fn written(b: &XrBuilder, out: &mut [u8]) -> Result<usize, RtcpWriteError> {
    b.write_into(out)
}

/// The builder made from the list, and written; None where the list is bad.
#[inline]
pub fn made_and_written(list: &[u8], out: &mut [u8]) -> Option<usize> {
    builder(list)?.write_into(out).ok()
}
