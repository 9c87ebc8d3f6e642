//! A second implementation of the standard reading, written from docs/RULES.md alone and as plainly as can be: slow,
//! and with nothing in common with the library. A refusal is its number and its two values.
#![allow(dead_code)]

pub type No = (u32, usize, usize);

fn be16(s: &[u8], at: usize) -> usize {
    usize::from(s[at]) * 256 + usize::from(s[at + 1])
}

fn be32(s: &[u8], at: usize) -> u32 {
    (be16(s, at) * 65_536 + be16(s, at + 2)) as u32
}

/// Refusals 1 to 6: the blocks of a packet, each where it begins and how long it is.
pub fn blocks(packet: &[u8]) -> Result<Vec<(usize, usize)>, No> {
    let len = packet.len();
    if len < 8 {
        return Err((1, 8, len));
    }
    if packet[0] / 64 != 2 {
        return Err((2, 0, 0));
    }
    if packet[1] != 207 {
        return Err((3, 0, 0));
    }
    let announced = (be16(packet, 2) + 1) * 4;
    if announced != len {
        return Err((4, announced, len));
    }
    let mut stop = len;
    if packet[0] / 32 % 2 == 1 {
        let n = usize::from(packet[len - 1]);
        if n == 0 || n % 4 != 0 || n > len - 8 {
            return Err((5, n, 0));
        }
        stop = len - n;
    }
    let (mut at, mut found) = (8, Vec::new());
    while at < stop {
        let length = (be16(packet, at + 2) + 1) * 4;
        if length > stop - at {
            return Err((6, length, stop - at));
        }
        found.push((at, length));
        at += length;
    }
    Ok(found)
}

pub fn sender(packet: &[u8]) -> u32 {
    be32(packet, 4)
}

/// Block k's own bytes: 1 to 6, 9.
pub fn block(packet: &[u8], k: usize) -> Result<&[u8], No> {
    let all = blocks(packet)?;
    match all.get(k) {
        Some((at, length)) => Ok(&packet[*at..at + length]),
        None => Err((9, all.len(), 0)),
    }
}

/// 10, then 7 by the length, then 7 by the words: a block, asked as a type that the question serves.
fn check(block: &[u8], asked: u8, served: &[u8]) -> Result<(), No> {
    if block[0] != asked || !served.contains(&asked) {
        return Err((10, usize::from(block[0]), 0));
    }
    let length = block.len();
    let expected = match asked {
        1 | 2 | 3 => length.max(12),
        4 => 12,
        6 => 40,
        _ => (length..).find(|l| (l - 4) % 12 == 0).unwrap(),
    };
    if length != expected {
        return Err((7, expected, length));
    }
    if asked <= 2 && block[12..].chunks(2).any(|w| w == [0x40, 0]) {
        // a run of ones of no length
        return Err((7, 12, length));
    }
    Ok(())
}

/// SSRC, begin, end, thinning.
pub fn fields(block: &[u8], asked: u8) -> Result<(u32, u16, u16, u8), No> {
    check(block, asked, &[1, 2, 3])?;
    Ok((be32(block, 4), be16(block, 8) as u16, be16(block, 10) as u16, block[1] % 16))
}

pub fn words(block: &[u8], asked: u8) -> Result<Vec<u16>, No> {
    check(block, asked, &[1, 2])?;
    Ok(block[12..].chunks(2).map(|w| be16(w, 0) as u16).collect())
}

/// The values of a word's positions.
fn values(word: u16) -> Vec<bool> {
    if word >= 32_768 {
        return (0..15).map(|q| word / (1 << (14 - q)) % 2 == 1).collect();
    }
    vec![word / 16_384 % 2 == 1; usize::from(word % 16_384)]
}

/// The number of a position, where it is inside the range: the multiples of 2 to the thinning, from begin on.
fn number(block: &[u8], position: usize) -> Option<u16> {
    let (begin, end) = (be16(block, 8), be16(block, 10));
    let size = if begin == end { 65_536 } else { (end + 65_536 - begin) % 65_536 };
    let step = 1 << (block[1] % 16);
    let first = (begin + step - 1) / step * step;
    let offset = first + position * step - begin;
    if offset < size {
        Some(((begin + offset) % 65_536) as u16)
    } else {
        None
    }
}

pub fn numbers(block: &[u8], asked: u8) -> Result<Vec<u16>, No> {
    let (mut position, mut listed) = (0, Vec::new());
    for word in words(block, asked)? {
        for value in values(word) {
            if value {
                listed.extend(number(block, position));
            }
            position += 1;
        }
    }
    Ok(listed)
}

pub fn pairs(block: &[u8]) -> Result<Vec<(u16, u32)>, No> {
    check(block, 3, &[3])?;
    let times = block[12..].chunks(4).map(|t| be32(t, 0)).enumerate();
    Ok(times.filter_map(|(p, time)| number(block, p).map(|n| (n, time))).collect())
}

pub fn time(block: &[u8]) -> Result<u64, No> {
    check(block, 4, &[4])?;
    Ok(u64::from(be32(block, 4)) << 32 | u64::from(be32(block, 8)))
}

pub fn entries(block: &[u8]) -> Result<Vec<(u32, u32, u32)>, No> {
    check(block, 5, &[5])?;
    Ok(block[4..].chunks(12).map(|e| (be32(e, 0), be32(e, 4), be32(e, 8))).collect())
}

/// Lost, duplicates, jitter and the four bytes, each with whether it is there; and ToH.
pub type Sums = (Option<u32>, Option<u32>, Option<[u32; 4]>, u8, Option<[u8; 4]>);

pub fn sums(block: &[u8]) -> Result<Sums, No> {
    check(block, 6, &[6])?;
    let set = |bit: u8| block[1] & bit == bit;
    let toh = (block[1] & 0x18) >> 3;
    Ok((
        Some(be32(block, 12)).filter(|_| set(0x80)),
        Some(be32(block, 16)).filter(|_| set(0x40)),
        Some([be32(block, 20), be32(block, 24), be32(block, 28), be32(block, 32)]).filter(|_| set(0x20)),
        toh,
        Some([block[36], block[37], block[38], block[39]]).filter(|_| toh == 1 || toh == 2),
    ))
}

/// What a stretch of the cursor comes to: the three of the next cursor, the steps taken, the numbers.
pub type Stretch = ((usize, usize, usize), usize, Vec<u16>);

/// A stretch of the number cursor, step by step: 10, 7, 16, 11.
pub fn cursor(
    block: &[u8],
    asked: u8,
    from: (usize, usize, usize),
    budget: usize,
    room: usize,
) -> Result<Stretch, No> {
    let all: Vec<Vec<bool>> = words(block, asked)?.into_iter().map(values).collect();
    let (mut word, mut place, mut position) = from;
    let is_place = match all.get(word) {
        Some(values) => place < values.len().max(1),
        None => word == all.len() && place == 0,
    };
    if !is_place || position > 65_536 {
        return Err((16, 0, 0));
    }
    if room < budget {
        return Err((11, budget, room));
    }
    let (mut taken, mut listed) = (0, Vec::new());
    while taken < budget && word < all.len() {
        taken += 1;
        if all[word].is_empty() {
            word += 1;
            continue;
        }
        if all[word][place] {
            listed.extend(number(block, position));
        }
        position = (position + 1).min(65_536);
        place += 1;
        if place == all[word].len() {
            word += 1;
            place = 0;
        }
    }
    Ok(((word, place, position), taken, listed))
}
