//! Making packets byte by byte, sound and unsound, and the choices that make them.
//! None of this uses the original's builders: they cannot make a wrong packet.

/// Where the choices come from: `Digits` counts through all of them, `Rng` draws them.
pub trait Choice {
    /// A number under n.
    fn below(&mut self, n: usize) -> usize;

    fn pick<T: Copy>(&mut self, pool: &[T]) -> T {
        pool[self.below(pool.len())]
    }
}

/// The choices number `rest` of an enumeration; `size` ends up as the number of all choices.
pub struct Digits {
    pub rest: u64,
    pub size: u64,
}

impl Choice for Digits {
    fn below(&mut self, n: usize) -> usize {
        let digit = self.rest % n as u64;
        self.rest /= n as u64;
        self.size *= n as u64;
        digit as usize
    }
}

/// splitmix64.
pub struct Rng(pub u64);

impl Rng {
    pub fn next(&mut self) -> u64 {
        self.0 = self.0.wrapping_add(0x9e37_79b9_7f4a_7c15);
        let mut z = self.0;
        z = (z ^ (z >> 30)).wrapping_mul(0xbf58_476d_1ce4_e5b9);
        z = (z ^ (z >> 27)).wrapping_mul(0x94d0_49bb_1331_11eb);
        z ^ (z >> 31)
    }
}

impl Choice for Rng {
    fn below(&mut self, n: usize) -> usize {
        (self.next() % n as u64) as usize
    }
}

/// Thinning, media SSRC, begin, end.
#[derive(Clone, Copy)]
pub struct Range(pub u8, pub u32, pub u16, pub u16);

/// A packet of the right version, type and length around these blocks, sender SSRC 1.
pub fn packet(blocks: &[Vec<u8>]) -> Vec<u8> {
    let mut bytes = vec![0x80, 207, 0, 0, 0, 0, 0, 1];
    bytes.extend(blocks.concat());
    relength(bytes)
}

/// The same bytes with the length field that fits them.
pub fn relength(mut bytes: Vec<u8>) -> Vec<u8> {
    let field = (bytes.len() / 4).wrapping_sub(1) as u16;
    set_field(&mut bytes, 0, field);
    bytes
}

/// Sets the 16-bit length field of the packet (at 0) or of the block at `at`, where it is there.
pub fn set_field(bytes: &mut [u8], at: usize, field: u16) {
    if let Some(place) = bytes.get_mut(at + 2..at + 4) {
        place.copy_from_slice(&field.to_be_bytes());
    }
}

/// The packet with P set and n bytes of padding behind it: zeros, then `last`.
pub fn padded(mut bytes: Vec<u8>, n: usize, last: u8) -> Vec<u8> {
    bytes[0] |= 0x20;
    bytes.resize(bytes.len() + n, 0);
    *bytes.last_mut().unwrap() = last;
    relength(bytes)
}

/// A block whose length field fits its body.
pub fn block(kind: u8, specific: u8, body: &[u8]) -> Vec<u8> {
    let mut bytes = vec![kind, specific, 0, 0];
    bytes.extend(body);
    set_field(&mut bytes, 0, (body.len() / 4) as u16);
    bytes
}

/// Type 1 or 2. An odd word count gains a zero word.
pub fn rle(kind: u8, range: Range, words: &[u16]) -> Vec<u8> {
    let mut body = range_bytes(range);
    body.extend(words.iter().flat_map(|w| w.to_be_bytes()));
    body.resize(8 + words.len().div_ceil(2) * 4, 0);
    block(kind, range.0, &body)
}

pub fn times(range: Range, times: &[u32]) -> Vec<u8> {
    let mut body = range_bytes(range);
    body.extend(times.iter().flat_map(|t| t.to_be_bytes()));
    block(3, range.0, &body)
}

fn range_bytes(Range(_, ssrc, begin, end): Range) -> Vec<u8> {
    let mut body = ssrc.to_be_bytes().to_vec();
    body.extend(begin.to_be_bytes());
    body.extend(end.to_be_bytes());
    body
}

pub fn reference_time(time: u64) -> Vec<u8> {
    block(4, 0, &time.to_be_bytes())
}

/// Entries 100, 101, 102; 103, 104, 105; ..
pub fn dlrr(entries: usize) -> Vec<u8> {
    let body: Vec<u8> = (0..3 * entries as u32).flat_map(|i| (100 + i).to_be_bytes()).collect();
    block(5, 0, &body)
}

/// A block of another type with n words of body.
pub fn other(kind: u8, n: usize) -> Vec<u8> {
    let body: Vec<u8> = (0..4 * n as u8).collect();
    block(kind, 0xa5, &body)
}

/// A Statistics Summary block (type 6) with these flags, every byte behind them another one.
pub fn summary(flags: u8) -> Vec<u8> {
    let body: Vec<u8> = (1..=36).map(|i| 7 * i).collect();
    block(6, flags, &body)
}

/// The bytes of hex digits, spaces aside.
pub fn from_hex(text: &str) -> Vec<u8> {
    let digits: Vec<u8> = text.chars().filter_map(|c| c.to_digit(16)).map(|d| d as u8).collect();
    digits.chunks(2).map(|pair| pair[0] << 4 | pair[1]).collect()
}
