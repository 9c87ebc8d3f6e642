//! Each function once more by hand: the dump's packet, the twelve examples' hard ones, boundaries, and every refusal.
#[path = "support/mod.rs"]
mod support;

use giunchemis::*;
use support::numbers_of;

const S: Reading = Reading::Standard;
const C: Reading = Reading::Crate;

/// The 24 bytes of the dump in docs/RULES.md.
const SAMPLE: [u8; 24] = [
    0x80, 0xcf, 0x00, 0x05, 0x00, 0x00, 0x00, 0x01, 0x01, 0x00, 0x00, 0x03, 0x00, 0x00, 0x00, 0x07, 0x00, 0x0a, 0x00,
    0x0e, 0x40, 0x02, 0x40, 0x02,
];

fn hex(text: &str) -> Vec<u8> {
    let digits: Vec<u8> = text.bytes().filter(|b| !b.is_ascii_whitespace()).collect();
    digits.chunks(2).map(|d| u8::from_str_radix(std::str::from_utf8(d).unwrap(), 16).unwrap()).collect()
}

fn refused<T: std::fmt::Debug>(answer: Result<T, Refusal>) -> (u32, usize, usize) {
    numbers_of(answer.unwrap_err())
}

#[test]
fn the_sample_in_both_readings() {
    for (reading, size, words, numbers) in
        [(S, 16, vec![0x4002, 0x4002], vec![10, 11, 12, 13]), (C, 16, vec![0x4002], vec![10, 11])]
    {
        assert_eq!(ask::count(reading, &SAMPLE), Ok(1));
        assert_eq!(ask::parse(reading, &SAMPLE), Ok((1, 1)));
        assert_eq!(ask::locate(reading, &SAMPLE, 0), Ok(8..8 + size));
        let here = BlockAt { next: 24, size, length: 16, block_type: 1, type_specific_byte: 0 };
        assert_eq!(ask::block_at(reading, &SAMPLE, 8), here);
        let fields = Fields { media_ssrc: 7, begin: 10, end: 14, thinning: 0 };
        assert_eq!(ask::fields(reading, &SAMPLE, 0, 1), Ok(fields));
        assert_eq!(ask::fields_view(reading, 1, &SAMPLE[8..]), Ok(fields));
        let xr = Xr::parse_as(reading, &SAMPLE).unwrap();
        let loss = xr.block(0).unwrap().parse_into::<LossRle>().unwrap();
        assert_eq!(loss.sequences().unwrap(), numbers);
        let chunks: Vec<RleChunk> = words.into_iter().map(ask::chunk_of).collect();
        assert_eq!(loss.chunk_iter().collect::<Vec<_>>(), chunks);
    }
}

/// The numbers of a packet of one loss block, in a reading.
fn numbers(reading: Reading, begin: u16, end: u16, thinning: u8, words: &[u16]) -> Vec<u16> {
    let loss = LossRle::builder().begin(begin).end(end).thinning(thinning).add_words(words);
    let packet = Xr::builder().add_block(loss).plain().unwrap();
    let loss = Xr::parse_as(reading, &packet).unwrap().block(0).unwrap().parse_into::<LossRle>().unwrap();
    assert_eq!(loss.sequence_iter().collect::<Vec<_>>(), loss.sequences().unwrap());
    loss.sequences().unwrap()
}

/// Examples 3 to 12 of the project's paper, in both readings.
#[test]
fn the_worked_examples() {
    for reading in [S, C] {
        assert_eq!(numbers(reading, 65_534, 2, 0, &[16_388, 0]), [65_534, 65_535, 0, 1]);
    }
    assert_eq!(numbers(S, 10, 14, 0, &[16_386, 16_386]), [10, 11, 12, 13]);
    assert_eq!(numbers(C, 10, 14, 0, &[16_386, 16_386]), [10, 11]);
    assert_eq!(numbers(S, 10, 12, 0, &[16_386, 16_387, 16_385, 0]), [10, 11]);
    assert_eq!(numbers(C, 10, 12, 0, &[16_386, 16_387, 16_385, 0]), [10, 11, 12, 13, 14, 15]);
    assert_eq!(numbers(S, 0, 0, 15, &[16_387, 0]), [0, 32_768]);
    assert_eq!(numbers(C, 0, 0, 15, &[16_387, 0]), [0, 32_768, 0]);

    // two times, and a clock behind them, which the crate takes for times
    let pairs = |reading, end| {
        let times = PacketReceiptTimes::builder().begin(5).end(end).add_time(ReceiptTime(1)).add_time(ReceiptTime(2));
        let clock = ReceiverReferenceTime::builder().ntp_timestamp(LongTime(0x0102_0304_0506_0708));
        let packet = Xr::builder().add_block(times).add_block(clock).plain().unwrap();
        let times = Xr::parse_as(reading, &packet).unwrap().block(0).unwrap().parse_into::<PacketReceiptTimes>();
        times.unwrap().sequence_iter().map(|(n, t)| (n, t.0)).collect::<Vec<_>>()
    };
    assert_eq!(pairs(S, 9), [(5, 1), (6, 2)]);
    assert_eq!(pairs(C, 9), [(5, 1), (6, 2), (7, 67_108_866), (8, 0x0102_0304)]);
    assert_eq!((pairs(S, 7), pairs(C, 7)), (vec![(5, 1), (6, 2)], vec![(5, 1), (6, 2)]));

    // two entries, the last block
    let entry = |n| {
        let entry = DelaySinceLastReceiverReportBlock::builder().ssrc(n).last_receiver_report(ShortTime(n + 1));
        entry.delay_since_last_receiver_report_timestamp(ShortTime(n + 2))
    };
    let two = DelaySinceLastReceiverReport::builder().add_block(entry(10)).add_block(entry(20));
    let packet = Xr::builder().add_block(two).plain().unwrap();
    let block = |reading| Xr::parse_as(reading, &packet).unwrap().block(0).unwrap();
    let found: Vec<_> =
        block(S).parse_into::<DelaySinceLastReceiverReport>().unwrap().block_iter().map(|e| e.ssrc()).collect();
    assert_eq!(found, [10, 20]);
    assert_eq!(refused(block(C).parse_into::<DelaySinceLastReceiverReport>()), (7, 40, 28));

    // one entry, and a clock behind it, which the crate takes for an entry
    let one = DelaySinceLastReceiverReport::builder().add_block(entry(10));
    let builder = Xr::builder().add_block(one).add_block(ReceiverReferenceTime::builder());
    assert_eq!(builder.careful(), Err(Refusal::Misleads { index: 0 }));
    let packet = builder.plain().unwrap();
    let count = |reading| {
        let block = Xr::parse_as(reading, &packet).unwrap().block(0).unwrap();
        assert_eq!(block.data().len(), if reading == S { 16 } else { 28 });
        block.parse_into::<DelaySinceLastReceiverReport>().unwrap().block_iter().len()
    };
    assert_eq!((count(S), count(C)), (1, 2));

    let loss = LossRle::builder().begin(10).end(14).add_words(&[16_386, 16_386]);
    let packet = Xr::builder().add_block(loss).careful().unwrap();
    assert_eq!(Xr::parse(&packet).unwrap().block(0).unwrap().length(), 20);
    let least = Xr::builder().careful().unwrap();
    assert_eq!(Xr::parse(&least).unwrap().block_count(), 0);
    assert_eq!(refused(Xr::parse_as(C, &least)), (1, 12, 8));
}

#[test]
fn every_refusal_has_its_number_and_values() {
    let all = [
        (Refusal::TooShort { least: 8, actual: 7 }, (1, 8, 7)),
        (Refusal::WrongVersion, (2, 0, 0)),
        (Refusal::WrongPacketType, (3, 0, 0)),
        (Refusal::WrongLength { announced: 24, actual: 20 }, (4, 24, 20)),
        (Refusal::BadPadding { count: 3 }, (5, 3, 0)),
        (Refusal::BlockTooLong { length: 8, left: 4 }, (6, 8, 4)),
        (Refusal::BadBlockLength { expected: 12, actual: 8 }, (7, 12, 8)),
        (Refusal::NoFields { left: 8 }, (8, 12, 8)),
        (Refusal::NoBlock { count: 1 }, (9, 1, 0)),
        (Refusal::OtherType { block_type: 4 }, (10, 4, 0)),
        (Refusal::NoRoom { needed: 2, lent: 1 }, (11, 2, 1)),
        (Refusal::BadRecord { index: 1 }, (12, 1, 0)),
        (Refusal::ValueTooLarge { value: 16_384 }, (13, 16_384, 0)),
        (Refusal::TooMany { found: 32, limit: 31 }, (14, 32, 31)),
        (Refusal::Misleads { index: 2 }, (15, 2, 0)),
        (Refusal::NoPlace, (16, 0, 0)),
        (Refusal::BadMark { index: 5 }, (17, 5, 0)),
        (Refusal::Padded, (18, 0, 0)),
        (Refusal::PastEnd { announced: 8, given: 9 }, (19, 8, 9)),
    ];
    for (refusal, numbers) in all {
        assert_eq!(numbers_of(refusal), numbers);
        let words = format!("refused {} ({}, {}): ", numbers.0, numbers.1, numbers.2);
        assert!(refusal.to_string().starts_with(&words) && refusal.to_string().len() > words.len());
        let error: &dyn std::error::Error = &refusal;
        assert!(error.source().is_none());
    }
}

#[test]
fn packets_that_are_none() {
    for (bytes, standard, old) in [
        ("", (1, 8, 0), (1, 12, 0)),
        ("80cf0001000000", (1, 8, 7), (1, 12, 7)),
        ("40cf000100000001", (2, 0, 0), (1, 12, 8)),
        ("80ce000100000001", (3, 0, 0), (1, 12, 8)),
        ("80cf000200000001", (4, 12, 8), (1, 12, 8)),
        ("40cf0002 00000001 06000000", (2, 0, 0), (2, 0, 0)),
        ("80cf0001 00000001 06000000", (4, 8, 12), (4, 8, 12)),
        ("a0cf000100000000", (5, 0, 0), (1, 12, 8)),
        ("a0cf0002 00000001 00000001", (5, 1, 0), (5, 1, 0)),
        ("a0cf0003 00000001 00000001 00000001", (5, 1, 0), (5, 1, 0)),
        ("80cf0002 00000001 06000001", (6, 8, 4), (6, 8, 4)),
    ] {
        let packet = hex(bytes);
        for (reading, no) in [(S, standard), (C, old)] {
            assert_eq!(refused(ask::count(reading, &packet)), no, "{} {:?}", bytes, reading);
            assert_eq!(refused(ask::parse(reading, &packet)), no);
            assert_eq!(refused(ask::locate(reading, &packet, 0)), no);
            assert_eq!(refused(ask::fields(reading, &packet, 0, 1)), no);
            assert_eq!(refused(ask::time(reading, &packet, 0)), no);
            assert_eq!(refused(Xr::parse_as(reading, &packet)), no);
            let (mut ns, mut ws, mut ts) = ([7; 2], [7; 2], [ReceiptTime(7); 2]);
            let (mut ss, mut ls, mut ds) = ([7; 2], [ShortTime(7); 2], [ShortTime(7); 2]);
            assert_eq!(refused(ask::numbers(reading, &packet, 0, 1, &mut ns)), no);
            assert_eq!(refused(ask::words(reading, &packet, 0, 1, &mut ws)), no);
            assert_eq!(refused(ask::pairs(reading, &packet, 0, &mut ns, &mut ts)), no);
            assert_eq!(refused(ask::entries(reading, &packet, 0, &mut ss, &mut ls, &mut ds)), no);
            assert_eq!((ns, ws, ts, ss), ([7; 2], [7; 2], [ReceiptTime(7); 2], [7; 2]));
            assert_eq!((ls, ds), ([ShortTime(7); 2], [ShortTime(7); 2]));
        }
        let mut ns = [7; 2];
        assert_eq!(refused(ask::cursor(&packet, 0, 1, Cursor::default(), 2, &mut ns)), standard);
        assert_eq!(ns, [7; 2]);
    }
    // eight bytes: the standard has no blocks
    let least = hex("80cf000100000001");
    assert_eq!(ask::parse(S, &least), Ok((0, 1)));
    assert_eq!(Xr::parse(&least).unwrap().block_iter().next(), None);
    // padding: the standard takes it off, the crate walks it
    let padded = hex("a0cf0003 00000001 00000001 00000004");
    assert_eq!(refused(ask::count(S, &padded)), (6, 8, 4));
    assert_eq!(ask::count(C, &padded), Ok(1));
}

#[test]
fn places_past_the_end() {
    for reading in [S, C] {
        for at in [24, 25, 1000, usize::MAX] {
            let past = BlockAt { next: at, size: 0, length: 4, block_type: 0, type_specific_byte: 0 };
            assert_eq!(ask::block_at(reading, &SAMPLE, at), past);
            assert_eq!(ask::block_at(reading, &[], at), past);
        }
        // a place with fewer than four bytes behind it: those that are missing count as 0
        let here = ask::block_at(reading, &SAMPLE, 23);
        assert_eq!((here.next, here.size, here.block_type, here.length), (27, 1, 2, 4));
    }
}

#[test]
fn views_of_any_bytes() {
    for reading in [S, C] {
        // an empty view has type 0
        assert_eq!(refused(ask::fields_view(reading, 1, &[])), (10, 0, 0));
        assert_eq!(refused(ask::time_view(reading, &[])), (10, 0, 0));
        assert_eq!(refused(ask::numbers_view(reading, 1, &[], &mut [])), (10, 0, 0));
        assert_eq!(refused(ask::words_view(reading, 2, &[], &mut [])), (10, 0, 0));
        assert_eq!(refused(ask::pairs_view(reading, &[], &mut [], &mut [])), (10, 0, 0));
        assert_eq!(refused(ask::entries_view(reading, &[], &mut [], &mut [], &mut [])), (10, 0, 0));
        // types that a question does not serve, asked of a block of that very type
        for t in [0, 4, 5, 6, 255] {
            let view = [t, 0, 0, 2, 0, 0, 0, 1, 0, 0, 0, 2];
            assert_eq!(refused(ask::fields_view(reading, t, &view)), (10, usize::from(t), 0));
            assert_eq!(refused(ask::numbers_view(reading, t, &view, &mut [])), (10, usize::from(t), 0));
            assert_eq!(refused(ask::words_view(reading, t, &view, &mut [])), (10, usize::from(t), 0));
        }
    }
    assert_eq!(refused(ask::cursor_view(1, &[], Cursor::default(), 0, &mut [])), (10, 0, 0));
    // crate, type 3 with 4 or 8 bytes left: the fields are refused as 8, the list is empty
    for left in [4, 8] {
        let view = &[3, 0, 0, 0, 0, 0, 0, 0][..left];
        assert_eq!(refused(ask::fields_view(C, 3, view)), (8, 12, left));
        assert_eq!(ask::pairs_view(C, view, &mut [], &mut []), Ok(0));
    }
    let packet = hex("80cf0002 00000001 03000000");
    let block = Xr::parse_as(C, &packet).unwrap().block(0).unwrap();
    assert_eq!(block.parse_into::<PacketReceiptTimes>(), Err(Refusal::NoFields { left: 4 }));
    // crate, type 5: L + L mod 16 with what is left
    let packet = hex("80cf0006 00000001 05000000 04000002 00000000 00000000 00000000");
    let mut kept = ([7], [ShortTime(7)], [ShortTime(7)]);
    let no = refused(ask::entries(C, &packet, 0, &mut kept.0, &mut kept.1, &mut kept.2));
    assert_eq!((no, kept), ((7, 8, 20), ([7], [ShortTime(7)], [ShortTime(7)])));
}

#[test]
fn cursors() {
    let view = &SAMPLE[8..];
    let at = |word, place, position| Cursor { word, place, position };
    let mut out = [7; 4];
    let stretch = ask::cursor_view(1, view, at(0, 0, 0), 3, &mut out).unwrap();
    assert_eq!((stretch, out), (Stretch { next: at(1, 1, 3), taken: 3, listed: 3 }, [10, 11, 12, 7]));
    let stretch = ask::cursor(&SAMPLE, 0, 1, stretch.next, 3, &mut out).unwrap();
    assert_eq!((stretch, out), (Stretch { next: at(2, 0, 4), taken: 1, listed: 1 }, [13, 11, 12, 7]));
    for end in [at(2, 0, 0), at(2, 0, 65_536)] {
        assert_eq!(ask::cursor_view(1, view, end, 4, &mut out), Ok(Stretch { next: end, taken: 0, listed: 0 }));
    }
    for none in [at(2, 1, 0), at(3, 0, 0), at(0, 2, 0), at(0, 0, 65_537), at(usize::MAX, 0, 0), at(0, usize::MAX, 0)] {
        assert_eq!(ask::cursor_view(1, view, none, 0, &mut out), Err(Refusal::NoPlace));
        // 16 before 11
        assert_eq!(ask::cursor(&SAMPLE, 0, 1, none, 9, &mut out), Err(Refusal::NoPlace));
    }
    let no = ask::cursor_view(1, view, at(0, 0, 0), usize::MAX, &mut out);
    assert_eq!(no, Err(Refusal::NoRoom { needed: usize::MAX, lent: 4 }));
    assert_eq!(ask::cursor_view(1, view, at(1, 1, 9), 0, &mut []).unwrap().next, at(1, 1, 9));
    assert_eq!(refused(ask::cursor(&SAMPLE, 0, 2, at(0, 0, 0), 0, &mut [])), (10, 1, 0));
    assert_eq!(refused(ask::cursor(&SAMPLE, 1, 1, at(9, 9, 9), 9, &mut [])), (9, 1, 0));
    assert_eq!(out, [13, 11, 12, 7]);
}

#[test]
fn every_chunk_word_there_and_back() {
    for word in 0..=u16::MAX {
        let chunk = ask::chunk_of(word);
        let mut bytes = [9; 3];
        if word == 0x4000 {
            // a run of ones of no length is not made
            assert_eq!((refused(ask::chunk(chunk, &mut bytes)), bytes), ((13, 0, 0), [9; 3]));
        } else {
            assert_eq!((ask::chunk(chunk, &mut bytes), bytes), (Ok(2), [(word >> 8) as u8, word as u8, 9]));
        }
        let expected = match word {
            0 => RleChunk::Null,
            1..=0x3fff => RleChunk::SkipLength(word),
            0x4000..=0x7fff => RleChunk::RunLength(word - 0x4000),
            _ => RleChunk::BitVector(word - 0x8000),
        };
        assert_eq!(chunk, expected);
    }
    let mut bytes = [9; 2];
    for (chunk, no) in [
        (RleChunk::RunLength(16_384), (13, 16_384, 0)),
        (RleChunk::SkipLength(65_535), (13, 65_535, 0)),
        (RleChunk::BitVector(32_768), (13, 32_768, 0)),
        (RleChunk::RunLength(0), (13, 0, 0)),
    ] {
        assert_eq!(refused(ask::chunk(chunk, &mut bytes)), no);
        // 13 before 11
        assert_eq!(refused(ask::chunk(chunk, &mut [])), no);
    }
    assert_eq!(refused(ask::chunk(RleChunk::Null, &mut bytes[..1])), (11, 2, 1));
    assert_eq!(bytes, [9; 2]);
    // a run of no zeros is the word 0, and so reads back as Null
    assert_eq!(ask::chunk(RleChunk::SkipLength(0), &mut bytes), Ok(2));
    assert_eq!((bytes, ask::chunk_of(0)), ([0; 2], RleChunk::Null));
}

#[test]
fn marks() {
    assert_eq!(words_from_marks(&[]).unwrap(), []);
    assert_eq!(words_from_marks(&[1; 15]).unwrap(), [16_399]);
    assert_eq!(words_from_marks(&[1; 14]).unwrap(), [65_534]);
    assert_eq!(words_from_marks(&[1; 16_384]).unwrap(), [32_767, 49_152]);
    assert_eq!(words_from_marks(&[0; 3]).unwrap(), [32_768]);
    assert_eq!(words_from_marks(&vec![1; 65_536]).unwrap().len(), 5);
    assert_eq!(words_from_marks(&vec![2; 65_537]), Err(Refusal::TooMany { found: 65_537, limit: 65_536 }));
    let mut out = [7; 1];
    assert_eq!(ask::words_from_marks(&[0, 1, 2, 3], &mut out), Err(Refusal::BadMark { index: 2 }));
    assert_eq!(ask::words_from_marks(&[1; 16_384], &mut out), Err(Refusal::NoRoom { needed: 2, lent: 1 }));
    assert_eq!(out, [7]);
    // a report of marks reads back as the numbers heard, by both readings of the careful packet
    let mut random = support::Random::new(3);
    for _ in 0..300 {
        let mut marks = Vec::new();
        for _ in 0..random.below(6) {
            let mark = random.below(2) as u8;
            marks.resize(marks.len() + random.below(40), mark);
        }
        let begin = random.next() as u16;
        let heard: Vec<u16> =
            (0..marks.len()).filter(|p| marks[*p] == 1).map(|p| begin.wrapping_add(p as u16)).collect();
        let words = words_from_marks(&marks).unwrap();
        let loss = LossRle::builder().begin(begin).end(begin.wrapping_add(marks.len() as u16)).add_words(&words);
        let packet = Xr::builder().add_block(loss).careful().unwrap();
        for reading in [S, C] {
            let loss = Xr::parse_as(reading, &packet).unwrap().block(0).unwrap().parse_into::<LossRle>().unwrap();
            assert_eq!(loss.sequence_iter().collect::<Vec<_>>(), heard);
        }
    }
}

/// A block thinned by T reports on the multiples of 2^T, wherever it begins; the original counts from begin.
#[test]
fn a_begin_off_the_grid() {
    for (begin, end, thinning, standard) in [
        (5, 20, 2, vec![8, 12, 16]),
        (7, 20, 2, vec![8, 12, 16]),
        (8, 20, 2, vec![8, 12, 16]),
        (9, 20, 2, vec![12, 16]),
        (5, 9, 2, vec![8]),
        (5, 8, 2, vec![]),
        (65_533, 10, 2, vec![0, 4, 8]),
        (32_769, 32_769, 15, vec![0, 32_768]),
        (32_769, 0, 15, vec![]),
        (1, 5, 0, vec![1, 2, 3, 4]),
    ] {
        assert_eq!(numbers(S, begin, end, thinning, &[16_392, 0]), standard);
        let times = PacketReceiptTimes::builder().begin(begin).end(end).thinning(thinning);
        let times = (0..8).fold(times, |t, n| t.add_time(ReceiptTime(n)));
        let packet = Xr::builder().add_block(times).plain().unwrap();
        let times = Xr::parse(&packet).unwrap().block(0).unwrap().parse_into::<PacketReceiptTimes>().unwrap();
        assert_eq!(times.sequence_iter().map(|(n, _)| n).collect::<Vec<_>>(), standard);
    }
    assert_eq!(numbers(C, 5, 20, 2, &[16_388, 0]), [5, 9, 13, 17]);
    // begin = end: the last position inside is 16,383
    assert_eq!(numbers(S, 5, 5, 2, &[16_383, 16_386]), [4]);

    // careful writing: the original would list other numbers, unless it lists none; begin can be moved up to the grid
    let loss = |begin, words: &[u16]| {
        Xr::builder().add_block(LossRle::builder().begin(begin).end(20).thinning(2).add_words(words)).careful()
    };
    assert_eq!(loss(5, &[16_385]), Err(Refusal::Misleads { index: 0 }));
    assert_eq!(loss(5, &[3]).unwrap().len(), 24);
    assert_eq!(loss(5, &[]).unwrap().len(), 20);
    let packet = loss(8, &[16_387]).unwrap();
    for reading in [S, C] {
        let loss = Xr::parse_as(reading, &packet).unwrap().block(0).unwrap().parse_into::<LossRle>().unwrap();
        assert_eq!(loss.sequences().unwrap(), [8, 12, 16]);
    }
}

/// A packet of one block, of type 1 or 2, with these words.
fn block_of(block_type: u8, end: u16, words: &[u16]) -> Vec<u8> {
    let length = words.len() / 2 + 2;
    let mut packet = vec![0x80, 207, 0, 0, 0, 0, 0, 1, block_type, 0, (length >> 8) as u8, length as u8];
    packet.extend_from_slice(&[0, 0, 0, 7, 0, 0, (end >> 8) as u8, end as u8]);
    words.iter().for_each(|w| packet.extend_from_slice(&w.to_be_bytes()));
    let all = ((packet.len() / 4 - 1) as u16).to_be_bytes();
    packet[2..4].copy_from_slice(&all);
    packet
}

/// A run of ones of no length among good words, wherever it stands: the standard refuses the block for every question,
/// nothing is stored, and the walk and the crate's reading go on.
#[test]
fn a_run_of_no_length() {
    // as many words as a packet can have; 16,384 positions are inside
    let many: Vec<u16> = (0..131_062u32).map(|i| [0x4001, 0x8001, 3, 0][i as usize % 4]).collect();
    for (good, place) in [(&many, 0), (&many, 131_061), (&many, 65_000), (&vec![0x4004, 9], 1), (&vec![0x4004, 9], 0)] {
        for block_type in [1, 2] {
            let mut words = good.clone();
            let fine = block_of(block_type, 16_384, &words);
            assert!(ask::numbers(S, &fine, 0, block_type, &mut [0; 16_384]).is_ok());
            words[place] = 0x4000;
            let packet = block_of(block_type, 16_384, &words);
            let no = (7, 12, packet.len() - 8);
            assert_eq!(ask::locate(S, &packet, 0), Ok(8..packet.len()));
            let view = &packet[8..];
            assert_eq!(refused(ask::fields(S, &packet, 0, block_type)), no);
            assert_eq!(refused(ask::fields_view(S, block_type, view)), no);
            for room in [0, 1, 16_384, 140_000] {
                let mut out = vec![7; room];
                assert_eq!(refused(ask::numbers(S, &packet, 0, block_type, &mut out)), no);
                assert_eq!(refused(ask::numbers_view(S, block_type, view, &mut out)), no);
                assert_eq!(refused(ask::words(S, &packet, 0, block_type, &mut out)), no);
                // before 16 and 11
                for (word, budget) in [(0, 0), (0, room), (0, room + 1), (usize::MAX, 1)] {
                    let cursor = Cursor { word, place: 0, position: 0 };
                    assert_eq!(refused(ask::cursor(&packet, 0, block_type, cursor, budget, &mut out)), no);
                    assert_eq!(refused(ask::cursor_view(block_type, view, cursor, budget, &mut out)), no);
                }
                assert!(out.iter().all(|x| *x == 7));
            }
            // 10 comes first; the crate takes the word
            assert_eq!(refused(ask::fields(S, &packet, 0, 3 - block_type)), (10, usize::from(block_type), 0));
            assert!(ask::fields(C, &packet, 0, block_type).is_ok());
            let mut out = vec![7; 140_000];
            assert_eq!(ask::words(C, &packet, 0, block_type, &mut out), Ok(words.len() - 1));
            assert_eq!(out[..words.len() - 1], words[..words.len() - 1]);
            assert!(Xr::parse(&packet).unwrap().block(0).unwrap().parse_into::<LossRle>().is_err());
        }
    }
    // as a time, in the fields and across two words it is none
    assert!(ask::fields(S, &hex("80cf0005 00000001 03000003 40004000 40004000 40004000"), 0, 3).is_ok());
    assert!(ask::fields(S, &hex("80cf0005 00000001 01000003 40004000 40004000 01400001"), 0, 1).is_ok());
    let text = Refusal::BadBlockLength { expected: 12, actual: 16 }.to_string();
    assert!(text.contains("run of ones of no length"), "{}", text);
}

/// The longest list: counting it costs what its words cost.
#[test]
fn two_thousand_million_numbers() {
    let words = vec![32_767; 131_062];
    let builder = Xr::builder().add_block(LossRle::builder().end(65_535).thinning(15).add_words(&words));
    let packet = builder.plain().unwrap();
    assert_eq!(packet.len(), 262_144);
    let loss = Xr::parse_as(C, &packet).unwrap().block(0).unwrap().parse_into::<LossRle>().unwrap();
    assert_eq!(loss.sequence_count(), 2_147_172_363);
    let mut out = [7; 2];
    assert_eq!(loss.sequences_into(&mut out), Err(Refusal::NoRoom { needed: 2_147_172_363, lent: 2 }));
    assert_eq!(out, [7; 2]);
    let loss = Xr::parse(&packet).unwrap().block(0).unwrap().parse_into::<LossRle>().unwrap();
    assert_eq!(loss.sequence_count(), 2);
    assert_eq!(loss.sequence_iter().collect::<Vec<_>>(), [0, 32_768]);
    assert_eq!(builder.careful().unwrap_err(), Refusal::TooMany { found: 262_148, limit: 262_144 });
}
