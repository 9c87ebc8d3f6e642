//! A packet from a job list (document 01, "Job lists and writing"), by the original's builders.
//!
//! The answer is `packet HEX`; `error padding N` where the original refuses; `panic` where it panics;
//! `error job I` where record I cannot be said to the builders at all (cut, a wrong kind or length, a
//! number too large for the builder's u8). What document 01 refuses and the builders can be told (a
//! padding of 3, a thinning of 16) is told to them.

use crate::answer::{hex, line};
use rtcp_types::{prelude::*, *};

pub fn write(list: &[u8]) -> String {
    line(|| match built(list) {
        Err(record) => format!("error job {record}\n"),
        Ok(builder) => match sized(&builder) {
            Ok(packet) => format!("packet {}\n", hex(&packet)),
            Err(RtcpWriteError::InvalidPadding { padding }) => format!("error padding {padding}\n"),
            Err(RtcpWriteError::OutputTooSmall(size)) => format!("error small {size}\n"),
        },
    })
}

/// One chunk (kind null, zeros, ones or vector) as a loss block of it alone is written: `word HHHH`;
/// `error value` for a value that the original's u16 cannot hold.
pub fn word(kind: &str, value: u64) -> String {
    let Ok(value) = u16::try_from(value) else { return "error value\n".to_string() };
    let chunk = match kind {
        "null" => RleChunk::Null,
        "zeros" => RleChunk::SkipLength(value),
        "ones" => RleChunk::RunLength(value),
        "vector" => RleChunk::BitVector(value),
        _ => return "error kind\n".to_string(),
    };
    let packet = sized(&Xr::builder().add_block(LossRle::builder().add_chunk(chunk))).unwrap();
    format!("word {}\n", hex(&packet[20..22]))
}

/// `write_into` a buffer of just the size that the builder asks for. The buffer is filled with a
/// pattern first, so that a byte left unwritten shows.
fn sized(builder: &XrBuilder) -> Result<Vec<u8>, RtcpWriteError> {
    let mut buf = vec![0xee; builder.calculate_size()?];
    let written = builder.write_into(&mut buf)?;
    assert_eq!(written, buf.len());
    Ok(buf)
}

fn built(list: &[u8]) -> Result<XrBuilder, usize> {
    let (mut rest, mut index) = (list, 0);
    let mut builder = Xr::builder();
    while index == 0 || !rest.is_empty() {
        let (kind, body, behind) = record(rest).ok_or(index)?;
        builder = add(builder, index, kind, body).ok_or(index)?;
        (rest, index) = (behind, index + 1);
    }
    Ok(builder)
}

/// The first record's kind and body, and what stands behind it.
fn record(list: &[u8]) -> Option<(u16, &[u8], &[u8])> {
    let length = u32(list.get(..4)?) as usize;
    let kind = u16(list.get(4..6)?);
    let rest = &list[6..];
    Some((kind, rest.get(..length)?, &rest[length..]))
}

fn add(builder: XrBuilder, index: usize, kind: u16, body: &[u8]) -> Option<XrBuilder> {
    if (kind == 0) != (index == 0) {
        return None;
    }
    match kind {
        0 if body.len() == 6 => {
            let padding = u8::try_from(u16(&body[4..])).ok()?;
            Some(builder.sender_ssrc(u32(body)).padding(padding))
        }
        1 | 2 if body.len() >= 10 && body.len() % 2 == 0 => {
            let (ssrc, begin, end, thinning) = fields(body)?;
            let words = body[10..].chunks(2).map(|w| chunk_of(u16(w)));
            Some(if kind == 1 {
                let block = LossRle::builder().ssrc(ssrc).begin(begin).end(end).thinning(thinning);
                builder.add_block(words.fold(block, |b, c| b.add_chunk(c)))
            } else {
                let block =
                    DuplicateRle::builder().ssrc(ssrc).begin(begin).end(end).thinning(thinning);
                builder.add_block(words.fold(block, |b, c| b.add_chunk(c)))
            })
        }
        3 if body.len() >= 10 && body.len() % 4 == 2 => {
            let (ssrc, begin, end, thinning) = fields(body)?;
            let block =
                PacketReceiptTimes::builder().ssrc(ssrc).begin(begin).end(end).thinning(thinning);
            Some(builder.add_block(body[10..].chunks(4).fold(block, |b, t| b.add_time(u32(t)))))
        }
        4 if body.len() == 8 => {
            let time = u64::from_le_bytes(body.try_into().unwrap());
            Some(builder.add_block(ReceiverReferenceTime::builder().ntp_timestamp(time)))
        }
        5 if body.len() % 12 == 0 => {
            let block = DelaySinceLastReceiverReport::builder();
            Some(builder.add_block(body.chunks(12).fold(block, |b, e| {
                b.add_block(
                    DelaySinceLastReceiverReportBlock::builder()
                        .ssrc(u32(e))
                        .last_receiver_report(u32(&e[4..]))
                        .delay_since_last_receiver_report_timestamp(u32(&e[8..])),
                )
            })))
        }
        _ => None,
    }
}

fn fields(body: &[u8]) -> Option<(u32, u16, u16, u8)> {
    let thinning = u8::try_from(u16(&body[8..])).ok()?;
    Some((u32(body), u16(&body[4..]), u16(&body[6..]), thinning))
}

fn chunk_of(word: u16) -> RleChunk {
    match word {
        0 => RleChunk::Null,
        w if w & 0x8000 != 0 => RleChunk::BitVector(w & 0x7fff),
        w if w & 0x4000 != 0 => RleChunk::RunLength(w & 0x3fff),
        w => RleChunk::SkipLength(w),
    }
}

fn u16(bytes: &[u8]) -> u16 {
    u16::from_le_bytes(bytes[..2].try_into().unwrap())
}

fn u32(bytes: &[u8]) -> u32 {
    u32::from_le_bytes(bytes[..4].try_into().unwrap())
}
