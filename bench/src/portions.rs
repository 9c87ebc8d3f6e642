// A packet in portions, against the whole reading of the same packet by the same library: the blocks gone through by
// their places, and each asked for all that it lists.

use crate::ours::{self, Flat, FlatBlock, FlatFields, FlatFollowed, Portions, STANDARD};
use crate::timing::bb;

/// Lent lists, used again and again.
pub struct Lists {
    pub tags: Vec<u64>,
    pub numbers: Vec<u16>,
    pub values: Vec<u64>,
    pub sums: Vec<u64>,
    pub words: [Vec<u32>; 3],
}

impl Lists {
    pub fn new(room: usize) -> Lists {
        Lists {
            tags: vec![0; room],
            numbers: vec![0; room],
            values: vec![0; room],
            sums: vec![0; 3 * room],
            words: [vec![0; room], vec![0; room], vec![0; room]],
        }
    }
}

/// The whole reading: how many items are listed in all.
pub fn whole(s: &[u8], l: &mut Lists) -> usize {
    let parsed: Flat = ours::parse(STANDARD, s);
    let (mut at, mut items) = (8, 0);
    for _ in 0..parsed.first {
        let b: FlatBlock = ours::block_at(STANDARD, s, at);
        let view = &s[at..at + b.size as usize];
        items += match b.kind {
            1 | 2 => {
                let f: FlatFields = ours::fields_view(STANDARD, b.kind, view);
                bb(f);
                ours::numbers_view(STANDARD, b.kind, view, &mut l.numbers).first as usize
            }
            3 => {
                bb(ours::fields_view(STANDARD, 3, view));
                ours::pairs_view(STANDARD, view, &mut l.numbers, &mut l.words[0]).first as usize
            }
            4 => {
                bb(ours::time_view(STANDARD, view));
                1
            }
            5 => {
                let [a, b, c] = &mut l.words;
                ours::entries_view(STANDARD, view, a, b, c).first as usize
            }
            _ => 0,
        };
        at = b.next as usize;
    }
    items
}

/// In calls of so many bytes: how many events in all, the header, the starts and the end not counted.
pub fn followed(s: &[u8], size: usize, l: &mut Lists) -> usize {
    let (mut state, mut events): (Portions, usize) = (ours::portions_start(), 0);
    for x in s.chunks(size) {
        let a: FlatFollowed = ours::follow(state, x, &mut l.tags, &mut l.numbers, &mut l.values, &mut l.sums);
        state = a.state;
        events += a.events as usize;
    }
    events
}
