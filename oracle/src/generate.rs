//! Packets for a comparison at scale. Half of the count, at most, counts through families of short
//! packets; the rest are seeded: mixes of blocks, lengths at their limits, damaged copies.
//!
//! The families are taken whole where the count allows it. Under that, every k-th packet of them is
//! taken, so that a smaller run is a sample of the same.

use crate::make::*;

/// Words at the edges of what a chunk word can say: null, zeros, ones, vectors.
pub const WORDS: [u16; 20] = [
    0, 1, 2, 3, 15, 255, 16383, 16384, 16385, 16386, 16387, 16401, 16511, 32768, 32769, 33023,
    49151, 49152, 49153, 65535,
];
/// Numbers around the wrap and the middle, for begin and end.
const EDGES: [u16; 8] = [0, 1, 2, 5, 32768, 65533, 65534, 65535];
const RANGES: [(u16, u16); 8] =
    [(0, 0), (10, 12), (10, 14), (65534, 2), (65530, 65531), (5, 5), (0, 65535), (0, 40000)];

type Family = fn(&mut Digits) -> Vec<u8>;
const FAMILIES: [Family; 7] =
    [headers, short_blocks, one_word, three_words, receipt_times, dlrr_lengths, mixes];

pub fn packets(seed: u64, count: u64) -> impl Iterator<Item = Vec<u8>> {
    let sizes: Vec<u64> = FAMILIES.iter().map(size).collect();
    let total: u64 = sizes.iter().sum();
    let stride = total.div_ceil((count / 2).max(1)).max(1);
    let listed = (0..total).skip((seed % stride) as usize).step_by(stride as usize);
    let mut rng = Rng(seed);
    let seeded = std::iter::repeat_with(move || seeded(&mut rng));
    listed.map(move |i| nth(&sizes, i)).chain(seeded).take(count as usize)
}

fn size(family: &Family) -> u64 {
    let mut digits = Digits { rest: 0, size: 1 };
    family(&mut digits);
    digits.size
}

fn nth(sizes: &[u64], mut i: u64) -> Vec<u8> {
    let mut family = 0;
    while i >= sizes[family] {
        i -= sizes[family];
        family += 1;
    }
    FAMILIES[family](&mut Digits { rest: i, size: 1 })
}

/// Packets of 0 to 16 bytes: first bytes, types, length fields and last bytes, right and wrong.
fn headers(c: &mut Digits) -> Vec<u8> {
    let mut bytes = vec![0; c.below(17)];
    let head = [c.pick(&[0x80, 0xa0, 0, 0x40, 0xc0, 0xe0, 0x9f, 0xbf]), c.pick(&[207, 206, 208, 0])];
    let field: u16 = c.pick(&[0, 1, 2, 3, 4, 65535]);
    let last = c.pick(&[0, 1, 2, 3, 4, 5, 8, 12, 255]);
    bytes.iter_mut().zip(head).for_each(|(place, byte)| *place = byte);
    set_field(&mut bytes, 0, field);
    if bytes.len() > 8 {
        *bytes.last_mut().unwrap() = last;
    }
    bytes
}

/// One block of each type, each small length field, with 4 to 36 bytes left for it.
fn short_blocks(c: &mut Digits) -> Vec<u8> {
    let (kind, field) = (c.below(8) as u8, c.below(10));
    let left = 4 * (1 + c.below(9));
    let specific = c.pick(&[0, 0x0f, 0xf1]);
    let behind_is_zero = c.below(2) == 1;
    let padding = c.pick(&[None, Some(0), Some(1), Some(4), Some(8), Some(left as u8)]);
    let pattern = [0, 0, 0, 7, 0, 10, 0, 14, 0x40, 2, 0x40, 3, 0xc0, 0, 0x80, 1, 3, 1, 0, 1];
    let mut bytes = vec![kind, specific, 0, field as u8];
    bytes.extend(pattern.iter().cycle().take(left - 4));
    if behind_is_zero {
        bytes.iter_mut().skip(4 * (field + 1)).for_each(|b| *b = 0);
    }
    let mut bytes = packet(&[bytes]);
    if let Some(n) = padding {
        bytes[0] |= 0x20;
        *bytes.last_mut().unwrap() = n;
    }
    bytes
}

/// A loss or duplicate block whose one word is read, behind it a word that the original never reads.
fn one_word(c: &mut Digits) -> Vec<u8> {
    let (thinning, begin, end) = (c.below(16) as u8, c.pick(&EDGES), c.pick(&EDGES));
    let words = [c.pick(&WORDS), c.pick(&[0, 16386])];
    packet(&[rle(1 + thinning % 2, Range(thinning, 7, begin, end), &words)])
}

fn three_words(c: &mut Digits) -> Vec<u8> {
    let (thinning, (begin, end)) = (c.below(16) as u8, c.pick(&RANGES));
    let pool = [0, 2, 16384, 16385, 16387, 32769, 49152, 65535];
    let words = [c.pick(&pool), c.pick(&pool), c.pick(&pool), 16385];
    packet(&[rle(1 + thinning % 2, Range(thinning, 7, begin, end), &words)])
}

/// Receipt times, with nothing or something behind them.
fn receipt_times(c: &mut Digits) -> Vec<u8> {
    let (thinning, begin, end) = (c.below(16) as u8, c.pick(&EDGES), c.pick(&EDGES));
    let own = [1001, 1002, 1003, 1004];
    let block = times(Range(thinning, 7, begin, end), &own[..c.below(4)]);
    let behind = [vec![], reference_time(0x0102_0304_0506_0708), other(6, 0), dlrr(1)];
    packet(&[block, behind[c.below(4)].clone()])
}

/// DLRR blocks of each length, with 0 to 8 words behind, alone or second.
fn dlrr_lengths(c: &mut Digits) -> Vec<u8> {
    let body: Vec<u8> = (0..4 * c.below(18) as u8).collect();
    let behind = vec![0; 4 * c.below(9)];
    let before = [vec![], reference_time(9), dlrr(2)];
    packet(&[before[c.below(3)].clone(), block(5, 0, &body), behind])
}

/// Up to four blocks in every mix, with and without padding.
fn mixes(c: &mut Digits) -> Vec<u8> {
    let pool = [
        vec![],
        rle(1, Range(0, 7, 10, 14), &[16386, 16386]),
        rle(2, Range(1, 8, 65534, 4), &[49153, 3, 16385, 0]),
        times(Range(0, 9, 5, 9), &[1001]),
        times(Range(3, 9, 5, 5), &[1001, 1002]),
        reference_time(0x0102_0304_0506_0708),
        dlrr(0),
        dlrr(1),
        dlrr(2),
        summary(0xe8),
        other(0, 0),
    ];
    let blocks: Vec<_> = (0..4).map(|_| pool[c.below(pool.len())].clone()).collect();
    match c.below(2) {
        0 => packet(&blocks),
        _ => padded(packet(&blocks), 4, 4),
    }
}

/// A seeded packet: now and then a long one, else a mix, as it is or damaged.
pub fn seeded(rng: &mut Rng) -> Vec<u8> {
    if rng.below(40_000) == 0 {
        return longest(rng);
    }
    let runs = rng.below(2_000) == 0;
    let sound = mixed(rng, runs);
    if rng.below(5) < 2 { sound } else { damaged(rng, sound) }
}

/// A sound packet of 0 to 5 blocks; with `runs`, its words may be runs of 16,383.
pub fn mixed(rng: &mut Rng, runs: bool) -> Vec<u8> {
    let count = rng.pick(&[0, 1, 1, 1, 2, 2, 3, 3, 4, 5]);
    let blocks: Vec<_> = (0..count).map(|_| any_block(rng, runs)).collect();
    let bytes = packet(&blocks);
    match rng.below(10) {
        0 => {
            let n = 4 * (1 + rng.pick(&[0, 0, 1, 2, 5, 62]));
            padded(bytes, n, n as u8)
        }
        _ => bytes,
    }
}

fn any_block(rng: &mut Rng, runs: bool) -> Vec<u8> {
    let specific = rng.below(8) == 0;
    let mut bytes = match rng.below(9) {
        0..=3 => {
            let (kind, range) = (1 + rng.below(2) as u8, any_range(rng));
            let count = if runs { rng.below(40) } else { rng.below(8) };
            let words: Vec<u16> = (0..count).map(|_| any_word(rng, runs)).collect();
            rle(kind, range, &words)
        }
        4 | 5 => {
            let (range, count) = (any_range(rng), rng.below(7));
            times(range, &(0..count).map(|_| rng.next() as u32).collect::<Vec<_>>())
        }
        6 => reference_time(rng.next()),
        7 => dlrr(rng.below(7)),
        _ => match (rng.pick(&[0, 6, 7, 8, 207, 255]), rng.below(7)) {
            (6, n) if n < 5 => summary([0, 0x50, 0x78, 0xe8, 0xff][n]),
            (kind, n) => other(kind, n),
        },
    };
    if specific {
        bytes[1] |= rng.pick(&[0x10, 0x80, 0xf0]);
    }
    bytes
}

fn any_range(rng: &mut Rng) -> Range {
    let thinning = if rng.below(2) == 0 { 0 } else { rng.below(16) as u8 };
    let begin = if rng.below(2) == 0 { rng.pick(&EDGES) } else { rng.next() as u16 };
    let end = match rng.below(4) {
        0 => begin,
        1 => rng.pick(&EDGES),
        _ => begin.wrapping_add((rng.below(80) << thinning.min(9)) as u16),
    };
    Range(thinning, rng.next() as u32, begin, end)
}

fn any_word(rng: &mut Rng, runs: bool) -> u16 {
    match rng.below(4) {
        0 if runs => 32767,
        0 => rng.pick(&WORDS),
        1 => 0x8000 | rng.next() as u16,
        2 => 0x4000 | rng.below(40) as u16,
        _ => rng.below(40) as u16,
    }
}

/// One kind of damage: flipped bits (two kinds: anywhere; behind the header), a cut, growth, a cut
/// and growth that the length field follows, a wrong length field of the packet or of the first
/// block, wrong padding. `bytes` has the header's 8 bytes at least.
pub fn damaged(rng: &mut Rng, mut bytes: Vec<u8>) -> Vec<u8> {
    let n = bytes.len();
    let words = 4 * (1 + rng.below(3));
    match rng.below(10) {
        0 => flip(rng, &mut bytes),
        1 | 2 if n > 8 => flip(rng, &mut bytes[8..]),
        1 | 2 => bytes.truncate(rng.below(n)),
        3 => bytes.resize(n + 1 + rng.below(8), 0),
        4 => return relength(bytes[..n.saturating_sub(words).max(8)].to_vec()),
        5 => {
            bytes.resize(n + words, rng.pick(&[0, 1, 4, 255]));
            return relength(bytes);
        }
        6 => set_field(&mut bytes, 0, (n / 4 + 1 - rng.below(4)) as u16),
        7 | 8 => {
            let field = rng.pick(&[0, 1, 2, 3, 4, 6, 7, 8, 65535]);
            set_field(&mut bytes, 8, field);
        }
        _ => {
            let last = rng.pick(&[0, 1, 2, 3, 4, 8, 12, 16, 252, 255, n as u8, (n - 8) as u8]);
            bytes[0] |= 0x20;
            bytes[n - 1] = last;
        }
    }
    bytes
}

fn flip(rng: &mut Rng, bytes: &mut [u8]) {
    for _ in 0..1 + rng.below(3) {
        bytes[rng.below(bytes.len())] ^= 1 << rng.below(8);
    }
}

/// A packet of 65,536 or 262,144 bytes, or a word under: one long block, or blocks of four bytes.
fn longest(rng: &mut Rng) -> Vec<u8> {
    let room = rng.pick(&[65_536, 65_532, 262_144, 262_140]) - 8;
    let body = match rng.below(4) {
        0 => vec![0; room],
        1 => rle(1, Range(0, 7, 0, 0), &vec![16385; (room - 12) / 2]),
        2 => rle(2, Range(15, 7, 0, 65535), &vec![16511; (room - 12) / 2]),
        _ => times(Range(2, 7, 3, 2), &vec![77; (room - 12) / 4]),
    };
    packet(&[body])
}
