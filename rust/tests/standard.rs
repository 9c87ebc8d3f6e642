//! The standard reading, on thousands of seeded packets, against the second implementation: every question, by index
//! and by view, in rooms that are too small, enough and too large; and the records built on them.
#[path = "support/second.rs"]
mod second;
#[path = "support/mod.rs"]
mod support;

use giunchemis::*;
use support::{holds_for_rooms, numbers_of, packet, Random};

const S: Reading = Reading::Standard;

#[test]
fn every_question_of_seeded_packets() {
    let mut random = Random::new(1);
    let (mut accepted, mut listed, mut refused) = (0, 0, [0; 18]);
    for _ in 0..8000 {
        let packet = packet(&mut random);
        let blocks = second::blocks(&packet);
        match &blocks {
            Ok(_) => accepted += 1,
            Err(no) => refused[no.0 as usize] += 1,
        }
        let count = blocks.as_ref().map(|b| b.len()).map_err(|no| *no);
        assert_eq!(ask::count(S, &packet).map_err(numbers_of), count);
        let parsed = ask::parse(S, &packet).map_err(numbers_of);
        assert_eq!(parsed, count.map(|n| (n, second::sender(&packet))));
        for k in 0..count.unwrap_or(0) + 2 {
            let block = second::block(&packet, k);
            match &block {
                Ok(block) => {
                    for t in 0..7 {
                        by_type(&packet, k, Ok(block), t, &mut random);
                    }
                    listed += second::numbers(block, block[0]).map_or(0, |l| l.len());
                    for no in [second::fields(block, block[0]).err(), second::entries(block).err()].iter().flatten() {
                        refused[no.0 as usize] += 1;
                    }
                    views(&packet, k, block);
                }
                Err(no) => {
                    refused[no.0 as usize] += 1;
                    by_type(&packet, k, Err(*no), random.below(256) as u8, &mut random);
                    assert_eq!(ask::locate(S, &packet, k).map_err(numbers_of).unwrap_err(), *no);
                }
            }
        }
        records(&packet, &blocks);
    }
    assert!(accepted > 2000 && listed > 10_000, "{} {}", accepted, listed);
    for number in [1, 2, 3, 4, 5, 6, 7, 9, 10] {
        assert!(refused[number] > 10, "refusal {} came {} times", number, refused[number]);
    }
}

type Block<'a> = Result<&'a [u8], second::No>;

/// The questions that take a type by a number, and the others once.
fn by_type(packet: &[u8], k: usize, block: Block, t: u8, random: &mut Random) {
    let fields = block.and_then(|b| second::fields(b, t));
    let laid = |f: Result<Fields, Refusal>| f.map(|f| (f.media_ssrc, f.begin, f.end, f.thinning)).map_err(numbers_of);
    assert_eq!(laid(ask::fields(S, packet, k, t)), fields);
    let numbers = block.and_then(|b| second::numbers(b, t));
    holds_for_rooms("numbers", &numbers, 0xbeef, |out| ask::numbers(S, packet, k, t, out));
    let words = block.and_then(|b| second::words(b, t));
    holds_for_rooms("words", &words, 0xbeef, |out| ask::words(S, packet, k, t, out));
    if let Ok(view) = block {
        assert_eq!(laid(ask::fields_view(S, t, view)), fields);
        holds_for_rooms("numbers", &numbers, 0xbeef, |out| ask::numbers_view(S, t, view, out));
        holds_for_rooms("words", &words, 0xbeef, |out| ask::words_view(S, t, view, out));
    }
    let words = words.map_or(2, |w| w.len());
    for _ in 0..2 {
        let place = random.below(20);
        let from = (random.below(words + 2), random.of(&[0, 0, place]), random.of(&[0, 5, 65_536, 65_537]));
        let (budget, room) = (random.below(40), random.of(&[0, 39, 64]));
        cursor(packet, k, block, t, from, budget, room);
    }
}

fn cursor(packet: &[u8], k: usize, block: Block, t: u8, from: (usize, usize, usize), budget: usize, room: usize) {
    let expected = block.and_then(|b| second::cursor(b, t, from, budget, room));
    let start = Cursor { word: from.0, place: from.1, position: from.2 };
    let check = |call: &dyn Fn(&mut [u16]) -> Result<Stretch, Refusal>| {
        let mut lent = vec![0xbeef; room];
        let answer = call(&mut lent).map_err(numbers_of);
        let listed = expected.as_ref().map_or(&[][..], |(_, _, listed)| listed);
        assert_eq!(
            answer.map(|s| ((s.next.word, s.next.place, s.next.position), s.taken, s.listed)),
            expected.as_ref().map(|(next, taken, l)| (*next, *taken, l.len())).map_err(|no| *no)
        );
        assert_eq!(&lent[..listed.len()], listed);
        assert!(lent[listed.len()..].iter().all(|x| *x == 0xbeef));
    };
    check(&|out| ask::cursor(packet, k, t, start, budget, out));
    if let Ok(view) = block {
        check(&|out| ask::cursor_view(t, view, start, budget, out));
    }
}

/// Time, pairs and entries, into lists of unlike rooms.
fn views(packet: &[u8], k: usize, block: &[u8]) {
    let view = ask::locate(S, packet, k).unwrap();
    assert_eq!(&packet[view.clone()], block);
    let here = ask::block_at(S, packet, view.start);
    assert_eq!((here.next, here.size, here.length), (view.end, block.len(), block.len()));
    assert_eq!((here.block_type, here.type_specific_byte), (block[0], block[1]));

    let time = second::time(block);
    assert_eq!(ask::time(S, packet, k).map(|t| t.0).map_err(numbers_of), time);
    assert_eq!(ask::time_view(S, block).map(|t| t.0).map_err(numbers_of), time);

    let pairs = second::pairs(block);
    let pattern = (0xbeef, 0xdead_beef);
    let lists = |pairs: &[(u16, u32)]| -> (Vec<u16>, Vec<ReceiptTime>) {
        (pairs.iter().map(|p| p.0).collect(), pairs.iter().map(|p| ReceiptTime(p.1)).collect())
    };
    for more in [(0, 0), (0, 2), (2, 0)] {
        for of_view in [false, true] {
            holds_for_rooms("pairs", &pairs, pattern, |out| {
                let (mut ns, mut ts) = lists(out);
                ns.resize(ns.len() + more.0, 0xbeef);
                ts.resize(ts.len() + more.1, ReceiptTime(0xdead_beef));
                let answer = match of_view {
                    false => ask::pairs(S, packet, k, &mut ns, &mut ts),
                    true => ask::pairs_view(S, block, &mut ns, &mut ts),
                };
                assert!(ns[out.len()..].iter().all(|n| *n == 0xbeef));
                assert!(ts[out.len()..].iter().all(|t| t.0 == 0xdead_beef));
                for (i, item) in out.iter_mut().enumerate() {
                    *item = (ns[i], ts[i].0);
                }
                answer
            });
        }
    }
    let entries = second::entries(block);
    for more in [(0, 0, 0), (1, 0, 2), (0, 3, 1), (2, 1, 0)] {
        for of_view in [false, true] {
            holds_for_rooms("entries", &entries, (7, 8, 9), |out| {
                let mut ss: Vec<u32> = out.iter().map(|e| e.0).chain(vec![7; more.0]).collect();
                let mut ls: Vec<ShortTime> = out.iter().map(|e| e.1).chain(vec![8; more.1]).map(ShortTime).collect();
                let mut ds: Vec<ShortTime> = out.iter().map(|e| e.2).chain(vec![9; more.2]).map(ShortTime).collect();
                let answer = match of_view {
                    false => ask::entries(S, packet, k, &mut ss, &mut ls, &mut ds),
                    true => ask::entries_view(S, block, &mut ss, &mut ls, &mut ds),
                };
                assert!(ss[out.len()..].iter().all(|x| *x == 7) && ls[out.len()..].iter().all(|x| x.0 == 8));
                assert!(ds[out.len()..].iter().all(|x| x.0 == 9));
                for (i, item) in out.iter_mut().enumerate() {
                    *item = (ss[i], ls[i].0, ds[i].0);
                }
                answer
            });
        }
    }
}

/// The packet by `Xr` and the records.
fn records(packet: &[u8], blocks: &Result<Vec<(usize, usize)>, second::No>) {
    let (xr, blocks) = match (Xr::parse(packet), blocks) {
        (Ok(xr), Ok(blocks)) => (xr, blocks),
        (answer, blocks) => return assert_eq!(answer.map_err(numbers_of).unwrap_err(), blocks.clone().unwrap_err()),
    };
    assert_eq!((xr.reading(), xr.data(), xr.length(), xr.block_count()), (S, packet, packet.len(), blocks.len()));
    assert_eq!(xr.sender_ssrc(), second::sender(packet));
    assert_eq!(xr.header_data()[..], packet[..4]);
    assert_eq!(xr.padding(), if packet[0] & 32 == 0 { None } else { Some(packet[packet.len() - 1]) });
    assert_eq!(xr.block(blocks.len()).unwrap_err(), Refusal::NoBlock { count: blocks.len() });
    let found: Vec<XrBlock> = xr.block_iter().collect();
    assert_eq!((found.len(), xr.block_iter().len()), (blocks.len(), blocks.len()));
    for (k, (block, (at, length))) in found.iter().zip(blocks).enumerate() {
        let bytes = &packet[*at..at + length];
        assert_eq!(xr.block(k), Ok(*block));
        assert_eq!((block.data(), block.data().as_ptr()), (bytes, bytes.as_ptr()));
        assert_eq!((block.reading(), block.length(), block.block_type()), (S, *length, bytes[0]));
        assert_eq!((block.type_specific_byte(), &block.header_data()[..]), (bytes[1], &bytes[..4]));
        record(block, bytes);
    }
}

/// What every record answers of its block.
macro_rules! of_its_block {
    ($record:expr, $block:expr) => {
        assert_eq!($record.block(), *$block);
        assert_eq!($record.header_data(), $block.header_data());
        assert_eq!($record.block_type(), $block.block_type());
        assert_eq!($record.type_specific_byte(), $block.type_specific_byte());
        assert_eq!($record.length(), $block.length());
    };
}

fn record(block: &XrBlock, bytes: &[u8]) {
    macro_rules! run_lengths {
        ($type:ident, $t:expr) => {
            match block.parse_into::<$type>() {
                Err(refusal) => assert_eq!(numbers_of(refusal), second::fields(bytes, $t).unwrap_err()),
                Ok(r) => {
                    let fields = second::fields(bytes, $t).unwrap();
                    assert_eq!((r.media_ssrc(), r.begin(), r.end(), r.thinning()), fields);
                    of_its_block!(r, block);
                    let numbers = second::numbers(bytes, $t).unwrap();
                    assert_eq!(r.sequence_iter().collect::<Vec<_>>(), numbers);
                    assert_eq!((r.sequences().unwrap(), r.sequence_count()), (numbers.clone(), numbers.len()));
                    holds_for_rooms("sequences", &Ok(numbers), 0xbeef, |out| r.sequences_into(out));
                    let words = second::words(bytes, $t).unwrap();
                    assert_eq!(r.chunk_iter().len(), words.len());
                    for (chunk, word) in r.chunk_iter().zip(words) {
                        let mut made = [0; 2];
                        assert_eq!(ask::chunk(chunk, &mut made), Ok(2));
                        assert_eq!((u16::from_be_bytes(made), ask::chunk_of(word)), (word, chunk));
                    }
                }
            }
        };
    }
    run_lengths!(LossRle, 1);
    run_lengths!(DuplicateRle, 2);
    match block.parse_into::<PacketReceiptTimes>() {
        Err(refusal) => assert_eq!(numbers_of(refusal), second::fields(bytes, 3).unwrap_err()),
        Ok(r) => {
            assert_eq!((r.media_ssrc(), r.begin(), r.end(), r.thinning()), second::fields(bytes, 3).unwrap());
            of_its_block!(r, block);
            let pairs: Vec<_> = r.sequence_iter().map(|(n, t)| (n, t.0)).collect();
            assert_eq!(pairs, second::pairs(bytes).unwrap());
        }
    }
    match block.parse_into::<ReceiverReferenceTime>() {
        Err(refusal) => assert_eq!(numbers_of(refusal), second::time(bytes).unwrap_err()),
        Ok(r) => {
            of_its_block!(r, block);
            assert_eq!(r.ntp_timestamp().0, second::time(bytes).unwrap());
        }
    }
    match block.parse_into::<DelaySinceLastReceiverReport>() {
        Err(refusal) => assert_eq!(numbers_of(refusal), second::entries(bytes).unwrap_err()),
        Ok(r) => {
            let of = |e: DelaySinceLastReceiverReportBlock| {
                (e.ssrc(), e.last_receiver_report().0, e.delay_since_last_receiver_report_timestamp().0)
            };
            assert_eq!(r.block_iter().map(of).collect::<Vec<_>>(), second::entries(bytes).unwrap());
            of_its_block!(r, block);
        }
    }
}

/// The number iterator over long lists, which take many stretches of the cursor, and over words that cover nothing.
#[test]
fn numbers_by_the_cursor() {
    let mut random = Random::new(2);
    for _ in 0..60 {
        let (begin, end, thinning) = support::range(&mut random);
        let words: Vec<u16> = (0..random.below(300))
            .map(|_| match random.below(6) {
                0 => 0x4001 + random.below(400) as u16,
                1 | 2 => 0,
                3 => random.below(200) as u16,
                _ => support::good_word(&mut random),
            })
            .collect();
        let builder = LossRle::builder().begin(begin).end(end).thinning(thinning).add_words(&words);
        let packet = Xr::builder().add_block(builder).plain().unwrap();
        let loss = Xr::parse(&packet).unwrap().block(0).unwrap().parse_into::<LossRle>().unwrap();
        let expected = second::numbers(loss.block().data(), 1).unwrap();
        assert_eq!(loss.sequence_iter().collect::<Vec<_>>(), expected);
        let mut iter = loss.sequence_iter();
        assert_eq!(iter.by_ref().count(), expected.len());
        assert_eq!((iter.next(), iter.next()), (None, None));
    }
}

/// The packet with the most blocks. (An iterator that asked each block by its index would walk the packet 65,534 times.)
#[test]
fn the_most_blocks() {
    let mut packet = vec![0x80, 207, 0xff, 0xff, 0, 0, 0, 1];
    (0..65_534u32).for_each(|_| packet.extend_from_slice(&[6, 0, 0, 0]));
    for reading in [Reading::Standard, Reading::Crate] {
        let xr = Xr::parse_as(reading, &packet).unwrap();
        assert_eq!(xr.block_iter().filter(|b| b.block_type() == 6 && b.length() == 4).count(), 65_534);
        for block in xr.block_iter() {
            assert_eq!(block.parse_into::<LossRle>(), Err(Refusal::OtherType { block_type: 6 }));
        }
        assert_eq!(xr.block(65_534).unwrap_err(), Refusal::NoBlock { count: 65_534 });
    }
}
