// Packets to read. Every one is the same on each run: random ones come from a seed.

/// A small generator (xorshift), so that nothing outside the standard library is needed.
pub struct Seed(pub u64);

impl Seed {
    pub fn next(&mut self) -> u64 {
        self.0 ^= self.0 << 13;
        self.0 ^= self.0 >> 7;
        self.0 ^= self.0 << 17;
        self.0
    }

    pub fn below(&mut self, n: u64) -> u64 {
        (self.next() >> 11) % n
    }
}

/// A packet of blocks (RFC 3611, 2).
pub fn packet(blocks: &[Vec<u8>]) -> Vec<u8> {
    let mut s = vec![0x80, 207, 0, 0, 0, 0, 0, 1];
    for b in blocks {
        s.extend_from_slice(b);
    }
    let field = (s.len() / 4 - 1) as u16;
    s[2..4].copy_from_slice(&field.to_be_bytes());
    s
}

/// A block whose body has whole 32-bit words (RFC 3611, 3).
pub fn block(kind: u8, specific: u8, body: &[u8]) -> Vec<u8> {
    assert!(body.len() % 4 == 0 && body.len() / 4 <= 65535);
    let mut b = vec![kind, specific];
    b.extend_from_slice(&((body.len() / 4) as u16).to_be_bytes());
    b.extend_from_slice(body);
    b
}

/// A loss or duplicate block (RFC 3611, 4.1 and 4.2). An odd count of words gains a zero word.
pub fn rle(kind: u8, begin: u16, end: u16, thinning: u8, words: &[u16]) -> Vec<u8> {
    let mut body = vec![0, 0, 0, 7];
    body.extend_from_slice(&begin.to_be_bytes());
    body.extend_from_slice(&end.to_be_bytes());
    for w in words {
        body.extend_from_slice(&w.to_be_bytes());
    }
    if words.len() % 2 == 1 {
        body.extend_from_slice(&[0, 0]);
    }
    block(kind, thinning, &body)
}

/// A receipt times block (RFC 3611, 4.3).
pub fn receipt(begin: u16, end: u16, thinning: u8, times: &[u32]) -> Vec<u8> {
    let mut body = vec![0, 0, 0, 7];
    body.extend_from_slice(&begin.to_be_bytes());
    body.extend_from_slice(&end.to_be_bytes());
    for t in times {
        body.extend_from_slice(&t.to_be_bytes());
    }
    block(3, thinning, &body)
}

/// A reference time block (RFC 3611, 4.4).
pub fn clock(time: u64) -> Vec<u8> {
    block(4, 0, &time.to_be_bytes())
}

/// A DLRR block of n entries (RFC 3611, 4.5).
pub fn dlrr(n: usize) -> Vec<u8> {
    let mut body = Vec::new();
    for i in 0..3 * n as u32 {
        body.extend_from_slice(&(i.wrapping_mul(0x9E3779B9)).to_be_bytes());
    }
    block(5, 0, &body)
}

/// Runs of ones of a length, each after a run of zeros as long as `gap`, where that is not 0.
pub fn runs(n: usize, length: u16, gap: u16) -> Vec<u16> {
    (0..n)
        .map(|i| if gap != 0 && i % 2 == 0 { gap } else { 0x4000 | length })
        .collect()
}

/// Runs of ones of 1 to 200, in no order.
pub fn some_runs(n: usize) -> Vec<u16> {
    let mut seed = Seed(0x853C49E6748FEA9B);
    (0..n).map(|_| 0x4001 + seed.below(200) as u16).collect()
}

/// Vectors of random bits.
pub fn vectors(n: usize) -> Vec<u16> {
    let mut seed = Seed(0x2545F4914F6CDD1D);
    (0..n).map(|_| 0x8000 | seed.below(32768) as u16).collect()
}

/// Every kind of word, in no order: half vectors, a quarter runs of ones, a quarter runs of zeros, and a
/// null word in 16. Runs are of 1 to 32 places.
pub fn mixed(n: usize) -> Vec<u16> {
    let mut seed = Seed(0x9E3779B97F4A7C15);
    (0..n)
        .map(|_| match seed.below(16) {
            0 => 0,
            1..=3 => 1 + seed.below(32) as u16,
            4..=7 => 0x4001 + seed.below(32) as u16,
            _ => 0x8000 | seed.below(32768) as u16,
        })
        .collect()
}

/// A zero word or two behind the words, so that the crate's reading sees every one (the careful layout).
pub fn careful(mut words: Vec<u16>) -> Vec<u16> {
    words.push(0);
    if words.len() % 2 == 1 {
        words.push(0);
    }
    words
}

/// Small blocks of every type, and one that nobody knows.
pub fn small_blocks(n: usize) -> Vec<Vec<u8>> {
    (0..n)
        .map(|i| match i % 5 {
            0 => rle(1, 0, 100, 0, &[0x4003, 0]),
            1 => clock(i as u64),
            2 => dlrr(1),
            3 => rle(2, 0, 100, 0, &[0x4003, 0xFFFF, 0x4003, 0]),
            _ => block(77, 0, &[0; 8]),
        })
        .collect()
}

/// A random packet whose header is right: blocks of every type, with fields, words and lengths at random,
/// and now and then a block that says a wrong length.
pub fn random(seed: &mut Seed) -> Vec<u8> {
    let n = 1 + seed.below(4) as usize;
    let blocks: Vec<Vec<u8>> = (0..n).map(|_| random_block(seed)).collect();
    let mut s = packet(&blocks);
    if seed.below(16) == 0 {
        s[11] = s[11].wrapping_add(seed.below(3) as u8);
    }
    s
}

fn random_block(seed: &mut Seed) -> Vec<u8> {
    let kind = 1 + seed.below(6) as u8;
    let words = seed.below(9) as usize;
    let mut body: Vec<u8> = (0..4 * words).map(|_| seed.next() as u8).collect();
    if seed.below(2) == 0 && body.len() >= 8 {
        // a range and words that list something
        let begin = seed.below(65536) as u16;
        let end = begin.wrapping_add(seed.below(64) as u16);
        body[4..6].copy_from_slice(&begin.to_be_bytes());
        body[6..8].copy_from_slice(&end.to_be_bytes());
        for w in body[8..].chunks_mut(2) {
            if seed.below(3) > 0 {
                w.copy_from_slice(&(0x4000 | seed.below(20) as u16).to_be_bytes());
            }
        }
    }
    let thinning = if seed.below(2) == 0 { 0 } else { seed.below(256) as u8 };
    block(kind, thinning, &body)
}
