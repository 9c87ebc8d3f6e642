//! Packets built and written, in both layouts: read back by the second implementation they show what was asked; every
//! refusal of the writers; and lent memory.
#[path = "support/second.rs"]
mod second;
#[path = "support/mod.rs"]
mod support;

use giunchemis::*;
use support::{good_word, numbers_of, range, Random};

/// What a block is asked to show.
#[derive(Debug, PartialEq)]
enum Asked {
    Words(u8, (u32, u16, u16, u8), Vec<u16>),
    Times((u32, u16, u16, u8), Vec<u32>),
    Clock(u64),
    Echoes(Vec<(u32, u32, u32)>),
}

fn asked(random: &mut Random) -> Asked {
    let (begin, end, thinning) = range(random);
    let fields = (random.next() as u32, begin, end, thinning);
    match random.below(6) {
        0 | 1 => Asked::Words(1, fields, (0..random.below(7)).map(|_| good_word(random)).collect()),
        2 => Asked::Words(2, fields, (0..random.below(7)).map(|_| good_word(random)).collect()),
        3 => Asked::Times(fields, (0..random.below(6)).map(|_| random.next() as u32).collect()),
        4 => Asked::Clock(random.next() << 16 | random.next() & 0xffff),
        _ => Asked::Echoes(
            (0..random.below(6)).map(|_| (random.next() as u32, random.next() as u32, random.next() as u32)).collect(),
        ),
    }
}

fn add(builder: XrBuilder, asked: &Asked) -> XrBuilder {
    match asked {
        Asked::Words(1, (ssrc, begin, end, thinning), words) => {
            let block = LossRle::builder().ssrc(*ssrc).begin(*begin).end(*end).thinning(*thinning);
            builder.add_block(words.iter().fold(block, |b, w| b.add_chunk(ask::chunk_of(*w))))
        }
        Asked::Words(_, (ssrc, begin, end, thinning), words) => builder.add_block(
            DuplicateRle::builder().ssrc(*ssrc).begin(*begin).end(*end).thinning(*thinning).add_words(words),
        ),
        Asked::Times((ssrc, begin, end, thinning), times) => {
            let block = PacketReceiptTimes::builder().ssrc(*ssrc).begin(*begin).end(*end).thinning(*thinning);
            builder.add_block(times.iter().fold(block, |b, t| b.add_time(ReceiptTime(*t))))
        }
        Asked::Clock(time) => builder.add_block(ReceiverReferenceTime::builder().ntp_timestamp(LongTime(*time))),
        Asked::Echoes(entries) => {
            let block = DelaySinceLastReceiverReport::builder();
            builder.add_block(entries.iter().fold(block, |b, (ssrc, last, delay)| {
                b.add_block(
                    DelaySinceLastReceiverReportBlock::builder()
                        .ssrc(*ssrc)
                        .last_receiver_report(ShortTime(*last))
                        .delay_since_last_receiver_report_timestamp(ShortTime(*delay)),
                )
            }))
        }
    }
}

/// A block of a written packet shows what was asked, by the second implementation.
fn shows(block: &[u8], asked: &Asked) {
    match asked {
        Asked::Words(t, fields, words) => {
            assert_eq!(second::fields(block, *t).unwrap(), *fields);
            let written = second::words(block, *t).unwrap();
            assert_eq!(&written[..words.len()], &words[..]);
            assert!(written[words.len()..].iter().all(|w| *w == 0) && written.len() <= words.len() + 2);
        }
        Asked::Times(fields, times) => {
            assert_eq!(second::fields(block, 3).unwrap(), *fields);
            let written: Vec<u32> =
                block[12..].chunks(4).map(|t| u32::from_be_bytes([t[0], t[1], t[2], t[3]])).collect();
            assert_eq!(written, *times);
        }
        Asked::Clock(time) => assert_eq!(second::time(block).unwrap(), *time),
        Asked::Echoes(entries) => assert_eq!(second::entries(block).unwrap(), *entries),
    }
}

#[test]
fn what_was_asked_is_written() {
    let mut random = Random::new(4);
    let (mut careful_ones, mut misled) = (0, 0);
    for _ in 0..3000 {
        let all: Vec<Asked> = (0..random.below(5)).map(|_| asked(&mut random)).collect();
        let (sender, padding) = (random.next() as u32, random.of(&[0, 0, 0, 4, 8, 252]));
        let start = Xr::builder().sender_ssrc(sender).padding(padding);
        let builder = all.iter().fold(start, add);
        let list = builder.job_list().unwrap();
        for careful in [false, true] {
            let packet = if careful { builder.careful() } else { builder.plain() };
            let packet = match packet {
                Ok(packet) => packet,
                Err(refusal) => {
                    // only careful writing refuses such a list, and only as 15, for a block that there is
                    assert!(careful && padding == 0);
                    assert!(matches!(refusal, Refusal::Misleads { index } if index < all.len()), "{}", refusal);
                    let mut kept = [7; 600];
                    assert_eq!(ask::write_careful(&list, &mut kept), Err(refusal));
                    assert_eq!(builder.write_careful(&mut []), Err(refusal));
                    assert!(kept.iter().all(|b| *b == 7));
                    misled += 1;
                    continue;
                }
            };
            careful_ones += usize::from(careful);
            let blocks = second::blocks(&packet).unwrap();
            assert_eq!((blocks.len(), second::sender(&packet)), (all.len(), sender));
            for ((at, length), asked) in blocks.iter().zip(&all) {
                shows(&packet[*at..at + length], asked);
            }
            assert_eq!(Xr::parse(&packet).unwrap().padding(), if padding == 0 { None } else { Some(padding) });
            // rooms: one byte short, just enough, more
            let write = |out: &mut [u8]| if careful { builder.write_careful(out) } else { builder.write_plain(out) };
            support::holds_for_rooms("writing", &Ok(packet.clone()), 7, write);
            support::holds_for_rooms("writing a list", &Ok(packet.clone()), 7, |out| {
                if careful {
                    ask::write_careful(&list, out)
                } else {
                    ask::write_plain(&list, out)
                }
            });
            if !careful {
                assert_eq!(builder.calculate_size(), Ok(packet.len()));
                let mut out = vec![0; packet.len()];
                assert_eq!((builder.write_into(&mut out), &out), (Ok(packet.len()), &packet));
            }
        }
    }
    assert!(careful_ones > 1000 && misled > 100, "{} {}", careful_ones, misled);
}

#[test]
fn what_cannot_be_written() {
    let of = |builder: &XrBuilder| {
        let plain = builder.plain().map_err(numbers_of).unwrap_err();
        let mut kept = [7; 64];
        assert_eq!(builder.write_plain(&mut kept).map_err(numbers_of), Err(plain));
        assert_eq!(builder.write_careful(&mut kept).map_err(numbers_of), Err(plain));
        assert_eq!(builder.write_into(&mut kept).map_err(numbers_of), Err(plain));
        assert_eq!(builder.calculate_size().map_err(numbers_of), Err(plain));
        assert!(kept.iter().all(|b| *b == 7));
        plain
    };
    let clock = ReceiverReferenceTime::builder;
    assert_eq!(of(&Xr::builder().padding(3)), (12, 0, 0));
    assert_eq!(of(&Xr::builder().add_block(clock()).add_block(LossRle::builder().thinning(16))), (12, 2, 0));
    assert_eq!(of(&Xr::builder().add_block(PacketReceiptTimes::builder().thinning(255))), (12, 1, 0));
    let many = |n| (0..n).fold(Xr::builder(), |b, _| b.add_block(clock()));
    assert_eq!(of(&many(32)), (14, 32, 31));
    assert_eq!(many(31).plain().unwrap().len(), 8 + 31 * 12);
    assert_eq!(of(&Xr::builder().add_block(LossRle::builder().add_words(&vec![1; 131_063]))), (14, 262_148, 262_144));
    // a chunk that no word can hold is 13, before the list is judged; the first of them is told
    let block = DuplicateRle::builder().add_chunk(RleChunk::BitVector(40_000)).add_chunk(RleChunk::RunLength(20_000));
    assert_eq!(of(&Xr::builder().padding(3).add_block(block.clone())), (13, 40_000, 0));
    assert_eq!(Xr::builder().add_block(block).job_list().unwrap_err().number(), 13);
    // a run of ones of no length: as a chunk 13, as a word 12 with the record's index; as a time it is fine
    let block = LossRle::builder().add_chunk(RleChunk::SkipLength(0)).add_chunk(RleChunk::RunLength(0));
    assert_eq!(of(&Xr::builder().padding(3).add_block(block)), (13, 0, 0));
    for words in [&[0x4000][..], &[0x4001, 0x4000], &[0x4000, 0, 0], &[5, 0x4000, 5]] {
        let loss = Xr::builder().add_block(clock()).add_block(LossRle::builder().add_words(words));
        assert_eq!(of(&loss), (12, 2, 0));
        let duplicate = Xr::builder().add_block(DuplicateRle::builder().add_words(words));
        assert_eq!(of(&duplicate.add_block(LossRle::builder().add_words(words))), (12, 1, 0));
    }
    let times = PacketReceiptTimes::builder().add_time(ReceiptTime(0x4000)).add_time(ReceiptTime(0x4000_4000));
    assert_eq!(Xr::builder().add_block(times).plain().unwrap().len(), 28);
    // 15: one entry, then a clock, is read as two entries by an old reader; in the other order it is not
    let echo = || DelaySinceLastReceiverReport::builder().add_block(DelaySinceLastReceiverReportBlock::builder());
    let both = Xr::builder().add_block(echo()).add_block(clock());
    assert_eq!((both.plain().unwrap().len(), both.careful()), (36, Err(Refusal::Misleads { index: 0 })));
    assert_eq!(Xr::builder().add_block(clock()).add_block(echo()).careful().unwrap().len(), 36);
    // a kind that there is not, by a builder of one's own
    struct Odd;
    impl XrBlockBuilder for Odd {
        fn kind(&self) -> u16 {
            6
        }
        fn body(&self) -> Result<Vec<u8>, Refusal> {
            Ok(vec![0; 8])
        }
    }
    assert_eq!(of(&Xr::builder().add_block(clock()).add_block(Odd)), (12, 2, 0));
}

#[test]
fn job_lists_that_are_none() {
    let good = Xr::builder().add_block(ReceiverReferenceTime::builder()).job_list().unwrap();
    let mut out = [7; 64];
    for (list, index) in [
        (&[][..], 0),
        (&good[..5], 0),
        (&good[..13], 1),
        (&good[..good.len() - 1], 1),
        (&good[12..], 0),
        (&[0xff, 0xff, 0xff, 0xff, 0, 0, 1, 2, 3][..], 0),
    ] {
        for write in [ask::write_plain, ask::write_careful] {
            assert_eq!(write(list, &mut out), Err(Refusal::BadRecord { index }));
        }
    }
    let mut twice = good.clone();
    twice.extend_from_slice(&good);
    assert_eq!(ask::write_plain(&twice, &mut out), Err(Refusal::BadRecord { index: 2 }));
    assert!(out.iter().all(|b| *b == 7));
    let mut random = Random::new(5);
    for _ in 0..4000 {
        let mut list = good.clone();
        let at = random.below(list.len());
        list[at] = random.next() as u8;
        let cut = random.below(good.len());
        list.truncate(random.of(&[good.len(), cut]));
        for write in [ask::write_plain, ask::write_careful] {
            let mut out = [7; 512];
            match write(&list, &mut out) {
                Ok(n) => {
                    assert!(second::blocks(&out[..n]).is_ok() && out[n..].iter().all(|b| *b == 7));
                }
                Err(_) => assert!(out.iter().all(|b| *b == 7)),
            }
        }
    }
}
