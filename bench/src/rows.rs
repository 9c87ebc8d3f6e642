// The rows. A row's bar is 1.0, and 0.5 where numbers come from runs; rows of the standard reading have none,
// since the Rust has no such reading: it is timed on blocks where both list the same.

use crate::agree::{self, Room};
use crate::marks;
use crate::ours::{self, CRATE, STANDARD};
use crate::packets::{self as make, careful, mixed, runs, some_runs, vectors};
use crate::portions::{self, Lists};
use crate::theirs;
use crate::timing::{bb, harder, once, pair, Pair, Table};
use crate::writing::{self as jobs, list};
use rtcp_types::prelude::*;

/// Keeps an answer from being thrown away unmade.
fn go<T>(answer: T) {
    bb(answer);
}

const BAR: f64 = 1.0;
const RUNS: f64 = 0.5;

fn loss(words: Vec<u16>) -> Vec<u8> {
    make::packet(&[make::rle(1, 0, 65535, 0, &words)])
}

/// The header's checks and the walk.
pub fn packet(t: &mut Table) {
    t.heading("packet");
    let s = make::packet(&make::small_blocks(10));
    agree::everything(&s, &mut Room::new(1000));
    let p = pair(|| go(ours::count(CRATE, bb(&s))), || go(theirs::parse(bb(&s)).is_ok()));
    t.row("walk of 10 blocks, against Xr::parse alone", p, BAR);
    t.row("count of 10 blocks, against parse and block_iter", walk(&s), BAR);
    assert_eq!(ours::count(STANDARD, &s), ours::count(CRATE, &s));
    let p = pair(
        || go(ours::count(STANDARD, bb(&s))),
        || go(theirs::parse(bb(&s)).is_ok()),
    );
    t.note("walk of 10 blocks, standard, against Xr::parse alone", p);
    let p = pair(|| go(ours::locate(CRATE, bb(&s), 9)), || go(theirs::locate(bb(&s), 9)));
    t.row("the last of 10 blocks", p, BAR);
    let p = pair(|| go(ours::fields(CRATE, bb(&s), 5, 1)), || go(theirs::fields(bb(&s), 5)));
    t.row("fields of block 5 of 10", p, BAR);
    let p = pair(|| go(ours::time(CRATE, bb(&s), 6)), || go(theirs::time(bb(&s), 6)));
    t.row("time of block 6 of 10", p, BAR);
}

fn walk(s: &[u8]) -> Pair {
    agree::count(s);
    pair(|| go(ours::count(CRATE, bb(s))), || go(theirs::count(bb(s))))
}

/// Numbers of the packet's block 0: header, walk, checks and list, on both sides.
fn listed(reading: u8, s: &[u8]) -> Pair {
    let mut room = Room::new(15 * s.len() + 70_000);
    agree::numbers(s, 0, &mut room);
    let n = room.list.len();
    let Room { mut out, mut list } = Room::new(n);
    if reading == STANDARD {
        let a = ours::numbers(STANDARD, s, 0, 1, &mut out);
        assert_eq!((a.code, a.first as usize), (0, n));
        assert_eq!(out[..], room.list[..], "both readings list the same here");
    }
    let vector = pair(
        || go(ours::numbers(reading, bb(s), 0, 1, bb(&mut out))),
        || go(theirs::numbers(bb(s), 0, bb(&mut list))),
    );
    let mut lent = vec![0; n];
    let slice = pair(
        || go(ours::numbers(reading, bb(s), 0, 1, bb(&mut out))),
        || go(theirs::numbers_into(bb(s), 0, bb(&mut lent))),
    );
    assert_eq!(lent, out);
    harder(vector, slice)
}

/// The same of a block that is at hand: no header, no walk.
fn viewed(s: &[u8]) -> Pair {
    use rtcp_types::prelude::*;
    let mut room = Room::new(15 * s.len() + 70_000);
    let view = &s[8..];
    let block = rtcp_types::XrBlock::parse(view).unwrap();
    agree::view(view, &block, &mut room);
    let Room { mut out, mut list } = Room::new(room.list.len());
    pair(
        || go(ours::numbers_view(CRATE, 1, bb(view), bb(&mut out))),
        || go(theirs::numbers_view(bb(&block), bb(&mut list))),
    )
}

pub fn numbers(t: &mut Table) {
    t.heading("numbers of 100 words");
    let kinds = [
        ("mixed words", mixed(100), BAR),
        ("runs of 1 to 200", some_runs(100), RUNS),
        ("runs of 1", runs(100, 1, 0), RUNS),
        ("runs of 8", runs(100, 8, 0), RUNS),
        ("runs of 8 and gaps of 8", runs(100, 8, 8), RUNS),
        ("runs of 100", runs(100, 100, 0), RUNS),
        ("vectors", vectors(100), BAR),
        ("vectors of ones", vec![0xFFFF; 100], BAR),
        ("vectors of one bit", (0..100).map(|i| 0x8000 | 1 << (i * 7 % 15)).collect(), BAR),
        ("vectors of zeros", vec![0x8000; 100], BAR),
        ("runs of zeros", vec![5; 100], BAR),
    ];
    for (name, words, bar) in &kinds {
        t.row(&format!("{name}: crate reading"), listed(CRATE, &loss(careful(words.clone()))), *bar);
    }
    for (name, words, bar) in &kinds {
        t.row(&format!("{name}: crate reading, block at hand"), viewed(&loss(careful(words.clone()))), *bar);
    }
    for (name, words, _) in &kinds {
        t.note(&format!("{name}: standard reading"), listed(STANDARD, &loss(careful(words.clone()))));
    }
    t.note("mixed words: standard cursor, 256 steps a call", cursor(&loss(careful(mixed(100)))));
    let long = loss(careful(runs(3, 16383, 0)));
    t.row("3 runs of 16383: crate reading", listed(CRATE, &long), RUNS);
    t.note("3 runs of 16383: standard reading", listed(STANDARD, &long));
}

/// The whole list by calls of the number cursor, against the Rust's iterator.
fn cursor(s: &[u8]) -> Pair {
    let mut room = Room::new(70_000);
    agree::numbers(s, 0, &mut room);
    let Room { mut out, mut list } = Room::new(256);
    let all = agree::by_cursor(s, &mut out);
    assert_eq!(all, room.list, "the cursor lists the same");
    pair(
        || {
            let mut c = (0, 0, 0);
            loop {
                let f = ours::cursor(bb(s), 0, 1, c, 256, bb(&mut out));
                if f.taken == 0 {
                    break;
                }
                c = (f.word as usize, f.place as usize, f.position as usize);
            }
        },
        || go(theirs::numbers(bb(s), 0, bb(&mut list))),
    )
}

/// Chunk words, pairs, entries.
pub fn others(t: &mut Table) {
    t.heading("words, pairs, entries");
    for n in [10, 100] {
        t.row(&format!("{n} chunk words"), words(n), BAR);
        t.row(&format!("{n} pairs"), pairs(n, CRATE), BAR);
        t.note(&format!("{n} pairs, standard"), pairs(n, STANDARD));
        t.row(&format!("{n} entries"), entries(n, CRATE), BAR);
        t.note(&format!("{n} entries, standard"), entries(n, STANDARD));
    }
}

fn words(n: usize) -> Pair {
    let s = loss(careful(mixed(n)));
    agree::words(&s, 0, &mut Room::new(n + 2));
    let (mut out, mut list) = (vec![0; n + 2], Vec::with_capacity(n + 2));
    pair(
        || go(ours::words(CRATE, bb(&s), 0, 1, bb(&mut out))),
        || go(theirs::words(bb(&s), 0, bb(&mut list))),
    )
}

fn pairs(n: usize, reading: u8) -> Pair {
    let times: Vec<u32> = (0..n as u32).map(|i| i.wrapping_mul(0x9E3779B9)).collect();
    let s = make::packet(&[make::receipt(7, 7, 0, &times)]);
    agree::pairs(reading, &s, 0);
    let (mut a, mut b) = (vec![0; n], vec![0; n]);
    let (mut x, mut y) = (Vec::with_capacity(n), Vec::with_capacity(n));
    let mut both = Vec::with_capacity(n);
    assert_eq!(ours::pairs(reading, &s, 0, &mut a, &mut b).first as usize, n, "every pair is listed");
    let apart = pair(
        || go(ours::pairs(reading, bb(&s), 0, bb(&mut a), bb(&mut b))),
        || go(theirs::pairs(bb(&s), 0, bb(&mut x), bb(&mut y))),
    );
    let together = pair(
        || go(ours::pairs(reading, bb(&s), 0, bb(&mut a), bb(&mut b))),
        || go(theirs::pairs_together(bb(&s), 0, bb(&mut both))),
    );
    harder(apart, together)
}

/// One block of n entries. The Rust takes DLRR blocks only of lengths that 16 divides, so n is made one more than a multiple of 4.
fn entries(n: usize, reading: u8) -> Pair {
    let n = n / 4 * 4 + 1;
    let s = make::packet(&[make::dlrr(n)]);
    agree::entries(reading, &s, 0);
    let (mut a, mut b, mut c) = (vec![0; n], vec![0; n], vec![0; n]);
    let mut v = [(); 3].map(|_| Vec::with_capacity(n));
    let mut all = Vec::with_capacity(n);
    assert_eq!(ours::entries(reading, &s, 0, &mut a, &mut b, &mut c).first as usize, n, "every entry is listed");
    let [x, y, z] = &mut v;
    let apart = pair(
        || go(ours::entries(reading, bb(&s), 0, bb(&mut a), bb(&mut b), bb(&mut c))),
        || go(theirs::entries(bb(&s), 0, bb(x), bb(y), bb(z))),
    );
    let together = pair(
        || go(ours::entries(reading, bb(&s), 0, bb(&mut a), bb(&mut b), bb(&mut c))),
        || go(theirs::entries_together(bb(&s), 0, bb(&mut all))),
    );
    harder(apart, together)
}

/// Packets of 262,144 bytes, the longest there are.
pub fn longest(t: &mut Table) {
    t.heading("packets of 262,144 bytes");
    let full = 131_062;
    // from even numbers by steps of two no number is 65535, so no number fails
    let one = |begin, end, thinning, words: Vec<u16>| {
        let s = make::packet(&[make::rle(1, begin, end, thinning, &words)]);
        assert_eq!(s.len(), 262_144);
        s
    };
    t.row("131,061 runs of 1", listed(CRATE, &one(0, 0, 0, runs(full, 1, 0))), RUNS);
    t.row("131,061 runs of 8", listed(CRATE, &one(0, 65535, 1, runs(full, 8, 0))), RUNS);
    t.row("131,061 vectors", listed(CRATE, &one(0, 65535, 1, vectors(full))), BAR);
    t.row("131,061 mixed words", listed(CRATE, &one(0, 65535, 1, mixed(full))), BAR);
    t.row("131,061 runs of zeros", listed(CRATE, &one(0, 0, 0, runs(full, 5, 5).iter().map(|w| w & 0x3fff).collect())), BAR);
    let s = make::packet(&vec![make::block(77, 0, &[]); 65_534]);
    assert_eq!(s.len(), 262_144);
    t.row("count of 65,534 blocks", walk(&s), BAR);
    // the list that nobody has room for: 2,147,172,363 numbers
    let s = make::packet(&[make::rle(1, 0, 65535, 15, &vec![32767; full])]);
    let mut out = vec![0; 65_536];
    let p = once(
        || assert_eq!(ours::numbers(CRATE, &s, 0, 1, &mut out).first, 2_147_172_363),
        || assert_eq!(theirs::numbers_count(&s, 0), Ok(2_147_172_363)),
    );
    t.row("11 with 2,147,172,363 numbers, against count()", p, BAR);
}

/// Calls that are refused.
pub fn refusals(t: &mut Table) {
    t.heading("refused calls");
    let good = loss(careful(mixed(100)));
    let ten = make::packet(&make::small_blocks(10));
    let changed = |s: &[u8], at: usize, x: u8| {
        let mut s = s.to_vec();
        s[at] = x;
        s
    };
    let last = ten.len() - make::small_blocks(10)[9].len();
    let short_block = make::packet(&[make::block(1, 0, &[0; 4])]);
    let rows: [(&str, Vec<u8>, usize); 8] = [
        ("1: 8 bytes", good[..8].to_vec(), 0),
        ("2: version", changed(&good, 0, 0x40), 0),
        ("3: packet type", changed(&good, 1, 200), 0),
        ("4: length", changed(&good, 3, 9), 0),
        ("6: the last of 10 blocks is too long", changed(&ten, last + 3, 200), 0),
        ("9: block 10 of 10", ten.clone(), 10),
        ("10: a clock block asked as loss", ten.clone(), 1),
        ("7: a block of 8 bytes", short_block, 0),
    ];
    for (name, s, k) in &rows {
        let mut room = Room::new(70_000);
        agree::numbers(s, *k, &mut room);
        let Room { mut out, mut list } = room;
        let p = pair(
            || go(ours::numbers(CRATE, bb(s), *k, 1, bb(&mut out))),
            || go(theirs::numbers(bb(s), *k, bb(&mut list))),
        );
        t.row(name, p, BAR);
    }
    for (name, words) in [("mixed words", mixed(100)), ("vectors", vectors(100)), ("runs of 100", runs(100, 100, 0))] {
        let s = loss(careful(words));
        let mut room = Room::new(10);
        agree::numbers(&s, 0, &mut room);
        let p = pair(
            || go(ours::numbers(CRATE, bb(&s), 0, 1, bb(&mut room.out))),
            || go(theirs::numbers_count(bb(&s), 0)),
        );
        t.row(&format!("11: 100 {name} into room for 10, against count()"), p, BAR);
    }
}

/// How each cost grows: nanoseconds for each word, pair, entry or block.
pub fn growth(t: &mut Table) {
    t.heading("growth: ns for each word, time, entry or block");
    let rows: [(&str, fn(usize) -> Pair, f64); 8] = [
        ("mixed words", |n| listed(CRATE, &loss(careful(mixed(n)))), BAR),
        ("runs of 60", |n| listed(CRATE, &loss(careful(runs(n, 60, 0)))), RUNS),
        ("vectors", |n| listed(CRATE, &loss(careful(vectors(n)))), BAR),
        ("runs of zeros", |n| listed(CRATE, &loss(careful(runs(n, 5, 5).iter().map(|w| w & 0x3fff).collect()))), BAR),
        ("chunk words", words, BAR),
        ("pairs", |n| pairs(n, CRATE), BAR),
        ("entries", |n| entries(n, CRATE), BAR),
        ("blocks", |n| walk(&make::packet(&make::small_blocks(n))), BAR),
    ];
    for (name, f, bar) in rows {
        for n in [10, 100, 1000] {
            let p = f(n);
            let each = Pair { ours: p.ours / n as f64, theirs: p.theirs / n as f64, ratio: p.ratio };
            t.row(&format!("{n} {name}"), each, bar);
        }
    }
}

/// Bar for making the builder and writing.
const MADE: f64 = 0.3;

/// Plain writing: the same bytes, and then both ways of the Rust.
pub fn writing(t: &mut Table) {
    t.heading("plain writing");
    let long = list(&[jobs::words(1, &vec![16386; 131_062])]);
    let many: Vec<_> = (0..31).map(|_| jobs::words(1, &mixed(100))).collect();
    for (name, l) in [("10 small blocks", list(&jobs::ten())), ("31 blocks of 100 words", list(&many)), ("262,144 bytes", long)] {
        let ready = jobs::builder(&l).unwrap();
        let size = ready.calculate_size().unwrap();
        let (mut out, mut theirs) = (vec![0xee; size], vec![0xee; size]);
        let a = ours::write_plain(&l, &mut out);
        assert_eq!((a.code, a.first as usize), (0, size), "{name}");
        assert_eq!(jobs::written(&ready, &mut theirs).unwrap(), size);
        assert_eq!(out, theirs, "{name}: the same bytes");
        let p = pair(|| go(ours::write_plain(bb(&l), bb(&mut out))), || go(jobs::written(bb(&ready), bb(&mut theirs)).is_ok()));
        t.row(&format!("{name}, against a ready XrBuilder"), p, BAR);
        let p = pair(|| go(ours::write_plain(bb(&l), bb(&mut out))), || go(jobs::made_and_written(bb(&l), bb(&mut theirs))));
        t.row(&format!("{name}, against making it and writing"), p, MADE);
    }
    refused_lists(t, &many);
}

/// Bar for careful writing against making the builder and writing.
const MADE_CAREFULLY: f64 = 0.5;

/// Careful writing: the bytes that the Rust writes of the same records with the careful layout's zero words, against
/// making that builder and writing; and beside it plain writing of the same list.
pub fn careful_writing(t: &mut Table) {
    t.heading("careful writing");
    let many: Vec<_> = (0..31).map(|_| jobs::words(1, &mixed(100))).collect();
    // begin = end = 0: 65,536 positions are inside. Runs of three cross the end within a word, which an old reader
    // refuses; of words without ones all are looked at
    let runs = [jobs::words_of(1, 0, 0, &vec![16387; 131_060])];
    let still = [jobs::words_of(1, 0, 0, &vec![1; 131_060])];
    let times = [jobs::times(&vec![7; 65_000])];
    for (name, records) in [
        ("10 small blocks", &jobs::ten_careful()[..]),
        ("31 blocks of 100 words", &many),
        ("262,144 bytes of runs", &runs),
        ("262,144 bytes of words without ones", &still),
        ("260,020 bytes of times", &times),
    ] {
        let (l, same) = (list(records), list(&jobs::as_careful(records)));
        let ready = jobs::builder(&same).unwrap();
        let size = ready.calculate_size().unwrap();
        let (mut out, mut theirs) = (vec![0xee; size], vec![0xee; size]);
        let a = ours::write_careful(&l, &mut out);
        assert_eq!((a.code, a.first as usize), (0, size), "{name}");
        assert_eq!(jobs::written(&ready, &mut theirs).unwrap(), size);
        assert_eq!(out, theirs, "{name}: the same bytes");
        let p = pair(|| go(ours::write_careful(bb(&l), bb(&mut out))), || go(jobs::made_and_written(bb(&same), bb(&mut theirs))));
        t.row(&format!("{name}, against making an XrBuilder and writing"), p, MADE_CAREFULLY);
        let p = pair(|| go(ours::write_careful(bb(&l), bb(&mut out))), || go(ours::write_plain(bb(&l), bb(&mut theirs))));
        t.note(&format!("{name}, against plain writing"), p);
    }
    // begin 10, end 65000, runs of two: the 32,496th word begins where the range ends, and passes the old test
    let long = list(&[jobs::words(1, &vec![16386; 131_060])]);
    let mut out = vec![0xee; 300_000];
    let mut theirs = out.clone();
    let a = ours::write_careful(&long, &mut out);
    assert_eq!((a.code, a.first), (15, 0));
    assert!(out.iter().all(|&x| x == 0xee), "nothing was written by a refused call");
    let p = pair(|| go(ours::write_careful(bb(&long), bb(&mut out))), || go(ours::write_plain(bb(&long), bb(&mut theirs))));
    t.note("15: 131,060 runs that go on behind the range, against plain writing", p);
}

fn refused_lists(t: &mut Table, many: &[Vec<u8>]) {
    let mut out = vec![0xee; 300_000];
    let mut theirs = out.clone();
    let bad = [&list(many)[..], &jobs::record(6, &[])].concat();
    assert_eq!(ours::write_plain(&bad, &mut out).code, 12);
    assert!(jobs::builder(&bad).is_none());
    let p = pair(|| go(ours::write_plain(bb(&bad), bb(&mut out))), || go(jobs::builder(bb(&bad)).is_none()));
    t.row("12: the last of 32 records is bad, against making the builder", p, MADE);
    let more = list(&(0..32).map(|_| jobs::clock()).collect::<Vec<_>>());
    assert_eq!(ours::write_plain(&more, &mut out).code, 14);
    let p = pair(|| go(ours::write_plain(bb(&more), bb(&mut out))), || go(jobs::made_and_written(bb(&more), bb(&mut theirs))));
    t.row("14: 32 clocks, against making the builder and writing", p, MADE);
    let l = list(many);
    let ready = jobs::builder(&l).unwrap();
    assert_eq!(ours::write_plain(&l, &mut out[..100]).code, 11);
    assert!(jobs::written(&ready, &mut theirs[..100]).is_err());
    let p = pair(|| go(ours::write_plain(bb(&l), bb(&mut out[..100]))), || go(jobs::made_and_written(bb(&l), bb(&mut theirs[..100]))));
    t.row("11: 31 blocks of 100 words into 100 bytes, against making the builder", p, MADE);
    // a ready builder has judged its records when it was made, so this is no like question
    let p = pair(|| go(ours::write_plain(bb(&l), bb(&mut out[..100]))), || go(jobs::written(bb(&ready), bb(&mut theirs[..100])).is_err()));
    t.note("11: the same, against a ready XrBuilder", p);
    assert!(out.iter().all(|&x| x == 0xee), "nothing was written by a refused call");
}

/// Chunk words from marks, against plain Rust (marks.rs), in just the room that they need; and, where so many marks can
/// need more, in room for the most.
pub fn from_marks(t: &mut Table) {
    t.heading("words from 65,536 marks, against plain Rust");
    let n = 65_536;
    let most = (n + 14) / 15;
    let random = marks::random(n);
    for (name, m) in [
        ("all ones", marks::stretches(n, n)),
        ("alternating", marks::stretches(n, 1)),
        ("random", random.clone()),
        ("stretches of 40", marks::stretches(n, 40)),
    ] {
        let need = agree::from_marks(&m, most).first as usize;
        t.row(&format!("{name}: {need} words"), made(&m, need), BAR);
        if need < most {
            t.row(&format!("{name}: {need} words, room for {most}"), made(&m, most), BAR);
        }
    }
    let mut bad = random.clone();
    bad[n - 1] = 2;
    assert_eq!(agree::from_marks(&bad, most).code, 17);
    t.row("17: the last mark is bad", made(&bad, most), BAR);
    let need = agree::from_marks(&random, most).first as usize;
    assert_eq!(agree::from_marks(&random, need - 1).code, 11);
    t.row("11: random, one word too little room", made(&random, need - 1), BAR);
    let more = vec![1; n + 1];
    assert_eq!(agree::from_marks(&more, most).code, 14);
    // one look at the length: what is timed is our call, and of plain Rust not even that
    t.note("14: 65,537 marks", made(&more, most));
}

/// Packets in portions, against the whole reading of the same packet by this library. No bar: the aim is 1.5 in one call.
pub fn in_portions(t: &mut Table) {
    t.heading("in portions, against the whole reading by this library");
    let longest: Vec<Vec<u8>> = (0..60).map(|i| make::rle(1, i, i, 0, &make::mixed(2178))).collect();
    let mut longest = make::packet(&longest);
    let left = 262_144 - longest.len();
    longest.extend_from_slice(&make::block(99, 0, &vec![7; left - 4]));
    longest[2..4].copy_from_slice(&65535u16.to_be_bytes());
    let times: Vec<u32> = (0..1000).collect();
    for (name, s) in [
        ("10 small blocks", make::packet(&make::small_blocks(10))),
        ("1,000 mixed words", make::packet(&[make::rle(1, 0, 0, 0, &make::mixed(1000))])),
        ("262,144 bytes of mixed words in 60 blocks", longest),
        ("262,144 bytes of words in one block", make::packet(&[make::rle(1, 0, 0, 0, &make::mixed(131_062))])),
        ("1,000 runs of 1 to 200", make::packet(&[make::rle(1, 0, 0, 0, &make::some_runs(1000))])),
        ("1,000 times", make::packet(&[make::receipt(0, 0, 0, &times)])),
        ("1,000 entries", make::packet(&[make::dlrr(1000)])),
    ] {
        let (mut a, mut b) = (Lists::new(2_000_000), Lists::new(2_000_000));
        let blocks = ours::parse(ours::STANDARD, &s).first as usize;
        for (how, size) in [("in one call", s.len()), ("in calls of 64 bytes", 64), ("in calls of one byte", 1)] {
            let events = portions::followed(&s, size, &mut a);
            assert_eq!(events, portions::whole(&s, &mut b) + blocks + 2, "{name} {how}");
            let p = pair(|| go(portions::followed(bb(&s), size, &mut a)), || go(portions::whole(bb(&s), &mut b)));
            t.note(&format!("{name}, {how}"), p);
        }
    }
}

/// The bar for the pass over a block's words, as a part of listing them.
const PASS: f64 = 0.2;

/// The pass over a block's words for a run of ones of no length (asked for its fields, a block does nothing else),
/// against listing the same words by this library.
pub fn judging(t: &mut Table) {
    t.heading("the pass over the words, against listing them by this library");
    let full = 131_062;
    for (name, words) in [
        ("4,369 vectors", vectors(4369)),
        ("1,000 mixed words", mixed(1000)),
        ("65,536 runs of 1", runs(65_536, 1, 0)),
    ] {
        let s = make::rle(1, 0, 0, 0, &words);
        let mut out = vec![0; 65_536];
        assert_eq!(ours::fields_view(STANDARD, 1, &s).code, 0);
        assert_eq!(ours::numbers_view(STANDARD, 1, &s, &mut out).code, 0);
        let p = pair(
            || go(ours::fields_view(STANDARD, 1, bb(&s))),
            || go(ours::numbers_view(STANDARD, 1, bb(&s), bb(&mut out))),
        );
        t.row(&format!("{name}: fields, against numbers"), p, PASS);
    }
    let good = make::packet(&[make::rle(1, 0, 0, 0, &mixed(full))]);
    let mut lost = good.clone();
    let at = lost.len() - 2;
    lost[at..].copy_from_slice(&[0x40, 0]);
    assert_eq!((good.len(), ours::numbers(STANDARD, &lost, 0, 1, &mut []).code), (262_144, 7));
    let mut out = vec![0; full];
    let mut list = vec![0; full];
    let fields = |s: &[u8]| go(ours::fields(STANDARD, bb(s), 0, 1));
    let words = |s: &[u8], list: &mut [u16]| go(ours::words(STANDARD, bb(s), 0, 1, bb(list)));
    t.note("262,144 bytes: fields, against chunk words", pair(|| fields(&good), || words(&good, &mut list)));
    t.note(
        "262,144 bytes: one step of the cursor, against numbers",
        pair(
            || go(ours::cursor(bb(&good), 0, 1, (0, 0, 0), 1, bb(&mut out))),
            || go(ours::numbers(STANDARD, bb(&good), 0, 1, bb(&mut list))),
        ),
    );
    for (name, room) in [("room for all", full), ("no room", 0)] {
        let p = pair(
            || go(ours::numbers(STANDARD, bb(&lost), 0, 1, bb(&mut out[..room]))),
            || go(ours::numbers(STANDARD, bb(&good), 0, 1, bb(&mut list[..room]))),
        );
        t.note(&format!("262,144 bytes, 7 by its last word, {name}, against numbers"), p);
    }
}

/// Both ways of plain Rust; the one that is harder to beat.
fn made(m: &[u8], room: usize) -> Pair {
    agree::from_marks(m, room);
    let (mut out, mut theirs) = (vec![0; room], vec![0; room]);
    let iterator = pair(
        || go(ours::words_from_marks(bb(m), bb(&mut out))),
        || go(marks::by_iterator(bb(m), bb(&mut theirs))),
    );
    let loops = pair(
        || go(ours::words_from_marks(bb(m), bb(&mut out))),
        || go(marks::by_loops(bb(m), bb(&mut theirs))),
    );
    harder(iterator, loops)
}
