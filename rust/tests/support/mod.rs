//! What the tests share: seeded packets, good and damaged, and lent memory with a pattern in it.
#![allow(dead_code)]
use giunchemis::Refusal;

/// A small xorshift generator: the same seed gives the same cases on every machine.
pub struct Random(u64);

impl Random {
    pub fn new(seed: u64) -> Self {
        Random(seed.wrapping_mul(0x9e37_79b9_7f4a_7c15) | 1)
    }

    pub fn next(&mut self) -> u64 {
        self.0 ^= self.0 << 13;
        self.0 ^= self.0 >> 7;
        self.0 ^= self.0 << 17;
        self.0.wrapping_mul(0x2545_f491_4f6c_dd1d) >> 16
    }

    /// A number under a limit.
    pub fn below(&mut self, limit: usize) -> usize {
        (self.next() % limit as u64) as usize
    }

    pub fn one_in(&mut self, n: usize) -> bool {
        self.below(n) == 0
    }

    pub fn of<T: Copy>(&mut self, items: &[T]) -> T {
        items[self.below(items.len())]
    }
}

/// A chunk word: runs short and long, vectors, and the words that cover nothing.
pub fn word(random: &mut Random) -> u16 {
    match random.below(8) {
        0 => random.of(&[0, 1, 3, 0x4000, 0x4001, 0x7fff, 0x8000, 0xffff, 0xc000, 0x8001]),
        1 => random.next() as u16,
        2 | 3 => 0x8000 | (random.next() as u16 & 0x7fff),
        4 => random.below(20) as u16,
        _ => 0x4000 | random.below(20) as u16,
    }
}

/// The same without the word that no writer takes, a run of ones of no length.
pub fn good_word(random: &mut Random) -> u16 {
    match word(random) {
        0x4000 => 0x4001,
        other => other,
    }
}

/// Begin, end and thinning: ranges that wrap, are full, are short; begin on the multiples of 2 to the thinning, right
/// beside one, or anywhere.
pub fn range(random: &mut Random) -> (u16, u16, u8) {
    let thinning = if random.one_in(2) { 0 } else { random.below(16) as u8 };
    let any = random.next() as u16;
    let grid = any >> thinning << thinning;
    let begin = random.of(&[0, 1, 10, 65_530, 65_535, any, grid, grid.wrapping_sub(1), grid.wrapping_add(1)]);
    let end = match random.below(6) {
        0 => begin,
        1 => random.next() as u16,
        2 => begin.wrapping_add((random.below(12) << thinning) as u16),
        _ => begin.wrapping_add(random.below(60) as u16),
    };
    (begin, end, thinning)
}

fn block(random: &mut Random) -> Vec<u8> {
    let kind = random.of(&[1u8, 1, 2, 2, 3, 3, 4, 5, 5, 6, 6, 0, 255]);
    let mut body = Vec::new();
    let (begin, end, thinning) = range(random);
    if kind <= 3 {
        body.extend_from_slice(&(random.next() as u32).to_be_bytes());
        body.extend_from_slice(&begin.to_be_bytes());
        body.extend_from_slice(&end.to_be_bytes());
    }
    match kind {
        1 | 2 => (0..2 * random.below(5)).for_each(|_| body.extend_from_slice(&word(random).to_be_bytes())),
        3 => (0..random.below(6)).for_each(|_| body.extend_from_slice(&(random.next() as u32).to_be_bytes())),
        4 => body.extend_from_slice(&random.next().to_be_bytes()),
        5 => (0..3 * random.below(6)).for_each(|_| body.extend_from_slice(&(random.next() as u32).to_be_bytes())),
        6 => (0..9).for_each(|_| body.extend_from_slice(&(random.next() as u32).to_be_bytes())),
        _ => (0..random.below(4)).for_each(|_| body.extend_from_slice(&[kind; 4])),
    }
    if random.one_in(8) {
        // a length that its type does not have
        match random.below(3) {
            0 => body.truncate(4 * random.below(body.len() / 4 + 1)),
            1 => body.extend_from_slice(&[0x40, 2, 0x40, 2]),
            _ => body.clear(),
        }
    }
    let specific = if kind == 6 || random.one_in(4) { random.next() as u8 } else { thinning };
    let mut out = vec![kind, specific];
    out.extend_from_slice(&((body.len() / 4) as u16).to_be_bytes());
    out.extend_from_slice(&body);
    out
}

/// A packet of some blocks, with or without padding; one in three of them damaged.
pub fn packet(random: &mut Random) -> Vec<u8> {
    let mut out = vec![0x80, 207, 0, 0];
    out.extend_from_slice(&(random.next() as u32).to_be_bytes());
    for _ in 0..random.below(6) {
        out.extend_from_slice(&block(random));
    }
    if random.one_in(4) {
        let padding = 4 * (1 + random.below(3));
        out[0] |= 0x20;
        out.resize(out.len() + padding - 1, 0);
        out.push(padding as u8);
    }
    let words = (out.len() / 4 - 1) as u16;
    out[2..4].copy_from_slice(&words.to_be_bytes());
    if random.one_in(3) {
        damage(random, &mut out);
    }
    out
}

fn damage(random: &mut Random, packet: &mut Vec<u8>) {
    match random.below(7) {
        0 => packet.truncate(random.below(packet.len() + 1)),
        1 => packet.push(random.next() as u8),
        2 => packet[0] ^= 1 << random.below(8),
        3 => packet[1] = random.next() as u8,
        4 => packet[3] ^= 1 << random.below(3),
        5 => *packet.last_mut().unwrap() = random.next() as u8,
        _ => {
            let at = random.below(packet.len());
            let any = random.next() as u8;
            packet[at] = random.of(&[0, 1, 4, 255, any]);
        }
    }
}

/// A refusal as its number and its two values.
pub fn numbers_of(refusal: Refusal) -> (u32, usize, usize) {
    let (first, second) = refusal.values();
    (refusal.number(), first, second)
}

/// What a listing call must answer, and leave behind, for rooms that are too small, just enough and too large.
pub fn holds_for_rooms<T: Copy + PartialEq + std::fmt::Debug>(
    what: &str,
    expected: &Result<Vec<T>, (u32, usize, usize)>,
    pattern: T,
    call: impl Fn(&mut [T]) -> Result<usize, Refusal>,
) {
    let needed = expected.as_ref().map_or(2, |list| list.len());
    for room in [0, needed.saturating_sub(1), needed, needed + 3] {
        let mut lent = vec![pattern; room];
        let answer = call(&mut lent).map_err(numbers_of);
        let kept = match expected {
            Err(refused) => {
                assert_eq!(answer, Err(*refused), "{} in a room of {}", what, room);
                0
            }
            Ok(list) if list.len() > room => {
                assert_eq!(answer, Err((11, list.len(), room)), "{}", what);
                0
            }
            Ok(list) => {
                assert_eq!(answer, Ok(list.len()), "{} in a room of {}", what, room);
                assert_eq!(lent[..list.len()], list[..], "{}", what);
                list.len()
            }
        };
        assert!(lent[kept..].iter().all(|x| *x == pattern), "{}: lent memory was touched: {:?}", what, lent);
    }
}
