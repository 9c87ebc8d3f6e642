// Chunk words from heard marks: lists of marks, and plain Rust that makes their words, since the original has no such
// function. It is written twice, as an iterator and by loops. Both judge as the proved one does: 14, 17, 11, and a
// refused call changes nothing.

use crate::packets::Seed;

/// The most marks, the marks of a vector, the longest run.
const MOST: usize = 65_536;
const VECTOR: usize = 15;
const LONGEST: usize = 16_383;

/// Why there are no words.
#[derive(Debug, PartialEq, Eq)]
pub enum No {
    TooMany(usize),
    BadMark(usize),
    NoRoom(usize),
}

/// The words, one after the other, of the marks that are left.
struct Words<'a>(&'a [u8]);

impl Iterator for Words<'_> {
    type Item = u16;

    #[inline]
    fn next(&mut self) -> Option<u16> {
        let first = *self.0.first()?;
        let run = self.0.iter().take(LONGEST).take_while(|&&m| m == first).count();
        let (word, taken) = if run >= VECTOR {
            (u16::from(first) << 14 | run as u16, run)
        } else {
            let taken = self.0.len().min(VECTOR);
            let bits = self.0[..taken].iter().fold(0, |bits, &m| bits << 1 | u16::from(m));
            (0x8000 | bits << (VECTOR - taken), taken)
        };
        self.0 = &self.0[taken..];
        Some(word)
    }
}

/// By the iterator: counted, and then stored.
#[inline]
pub fn by_iterator(marks: &[u8], out: &mut [u16]) -> Result<usize, No> {
    if marks.len() > MOST {
        return Err(No::TooMany(marks.len()));
    }
    if let Some(at) = marks.iter().position(|&m| m > 1) {
        return Err(No::BadMark(at));
    }
    let need = Words(marks).count();
    if out.len() < need {
        return Err(No::NoRoom(need));
    }
    out.iter_mut().zip(Words(marks)).for_each(|(slot, word)| *slot = word);
    Ok(need)
}

/// By loops. All marks are judged at once, which the compiler does many at a time, and the words are counted only where
/// the room might be too little: there is at most one for each 15 marks.
#[inline]
pub fn by_loops(marks: &[u8], out: &mut [u16]) -> Result<usize, No> {
    if marks.len() > MOST {
        return Err(No::TooMany(marks.len()));
    }
    if marks.iter().fold(0, |seen, m| seen | m) > 1 {
        return Err(No::BadMark(marks.iter().take_while(|&&m| m <= 1).count()));
    }
    if out.len() < (marks.len() + VECTOR - 1) / VECTOR {
        let mut need = 0;
        each_word(marks, |_| need += 1);
        if out.len() < need {
            return Err(No::NoRoom(need));
        }
    }
    let mut n = 0;
    each_word(marks, |word| {
        out[n] = word;
        n += 1;
    });
    Ok(n)
}

#[inline]
fn each_word(marks: &[u8], mut take: impl FnMut(u16)) {
    let mut at = 0;
    while at < marks.len() {
        let first = marks[at];
        let stop = marks.len().min(at + LONGEST);
        let mut end = at + 1;
        while end < stop && marks[end] == first {
            end += 1;
        }
        if end - at >= VECTOR {
            take(u16::from(first) << 14 | (end - at) as u16);
            at = end;
            continue;
        }
        let mut bits = 0;
        for p in at..at + VECTOR {
            bits = bits << 1 | if p < marks.len() { u16::from(marks[p]) } else { 0 };
        }
        take(0x8000 | bits);
        at += VECTOR;
    }
}

// Lists of marks

/// Stretches of one length, ones first.
pub fn stretches(n: usize, length: usize) -> Vec<u8> {
    (0..n).map(|p| u8::from(p / length % 2 == 0)).collect()
}

pub fn random(n: usize) -> Vec<u8> {
    let mut seed = Seed(0xD1B54A32D192ED03);
    (0..n).map(|_| seed.below(2) as u8).collect()
}

/// Up to so many marks, in stretches of up to 40 or at random; in one list of eight some byte is no mark.
pub fn any(seed: &mut Seed, most: u64) -> Vec<u8> {
    let n = seed.below(most + 1) as usize;
    let mut marks = Vec::with_capacity(n + 40);
    while marks.len() < n {
        let (length, kind) = (1 + seed.below(40), seed.below(3));
        marks.extend((0..length).map(|_| if kind == 2 { seed.below(2) as u8 } else { kind as u8 }));
    }
    marks.truncate(n);
    if n > 0 && seed.below(8) == 0 {
        marks[seed.below(n as u64) as usize] = 2 + seed.below(254) as u8;
    }
    marks
}
