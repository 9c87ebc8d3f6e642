//! The recorded list: packets in groups, each with the original's answer.
//!
//! The groups walk through document 01: each refusal of a reader at its boundary and one past it
//! (record_refusals.rs), then what the blocks show (record_blocks.rs), then seeded packets. What a
//! group is for stands in its name.

use crate::answer::{answer, hex, HASH_FACTOR, SHOWN};
use crate::generate::{damaged, mixed};
use crate::make::*;
use crate::{record_blocks, record_refusals};

pub struct List {
    text: String,
    packets: usize,
}

impl List {
    pub fn group(&mut self, name: &str) {
        self.text += &format!("# group: {name}\n");
    }

    pub fn add(&mut self, packet: Vec<u8>) {
        let hex = hex(&packet);
        self.text += format!("packet {hex}").trim_end();
        self.text += &format!("\n{}.\n", answer(&packet));
        self.packets += 1;
    }
}

pub fn record(seed: u64) -> String {
    let mut list = List { text: String::new(), packets: 0 };
    record_refusals::GROUPS.iter().for_each(|group| group(&mut list));
    record_blocks::GROUPS.iter().for_each(|group| group(&mut list));
    let mut rng = Rng(seed);
    list.group("seeded mixes of blocks");
    (0..450).for_each(|_| list.add(mixed(&mut rng, false)));
    list.group("damaged copies of seeded mixes");
    for _ in 0..700 {
        let sound = mixed(&mut rng, false);
        list.add(damaged(&mut rng, sound));
    }
    head(seed, list.packets) + &list.text
}

fn head(seed: u64, packets: usize) -> String {
    format!(
        "# What the Rust original answers for {packets} packets. Made by `oracle/record` (`oracle record {seed}`)\n\
         # from {}, its utils.rs and xr/*.rs unchanged; sha256 of these files, joined in order of name:\n\
         # {}\n\
         # Each packet is a line `packet HEX`, the answer, a line `.`; lines with # are comments. The answer:\n\
         # parse ok blocks N ssrc S | parse error NAME VALUES; for each block its line, then its lines by type.\n\
         # Lists run to the iterator's first None; one of over {SHOWN} items is shown as `numbers# COUNT HASH`\n\
         # (also words#, pairs#, entries#), HASH being h = 0, then h = (h * {HASH_FACTOR} + x + 1) mod 2^32 for each\n\
         # number x. A pair or an entry is one item. `panic` stands where the original panics.\n",
        rtcp_types::SOURCE,
        rtcp_types::SOURCE_SUM,
    )
}

pub fn flat(words: &[u16]) -> Vec<u8> {
    rle(1, Range(0, 7, 10, 14), words)
}

/// Small blocks, one of each type and length rule.
pub fn kinds() -> Vec<Vec<u8>> {
    vec![
        flat(&[16386, 16386]),
        rle(2, Range(1, 8, 65534, 4), &[49153, 3, 16385, 0]),
        times(Range(0, 9, 5, 9), &[1001, 1002]),
        reference_time(0x0102_0304_0506_0708),
        dlrr(1),
        dlrr(2),
        other(6, 9),
        other(0, 0),
        other(255, 2),
    ]
}
