//! Groups of the recorded list: what blocks show.

use crate::generate::WORDS;
use crate::make::*;
use crate::record::{kinds, List};

pub const GROUPS: [fn(&mut List); 8] =
    [examples, orders, thinnings, words, counts, dlrr_entries, summaries, long_lists];

fn examples(list: &mut List) {
    list.group("the examples of document 01 that are packets (3 to 10, 12)");
    let clock = reference_time(0x0102_0304_0506_0708);
    for (thinning, begin, end, words) in [
        (0, 65534, 2, vec![16388, 0]),
        (0, 10, 14, vec![16386, 16386]),
        (0, 10, 12, vec![16386, 16387, 16385, 0]),
        (15, 0, 0, vec![16387, 0]),
    ] {
        list.add(packet(&[rle(1, Range(thinning, 7, begin, end), &words)]));
    }
    for end in [9, 7] {
        list.add(packet(&[times(Range(0, 7, 5, end), &[1001, 1002]), clock.clone()]));
    }
    list.add(packet(&[dlrr(2)]));
    list.add(packet(&[dlrr(1), clock.clone()]));
    list.add(packet(&[clock, dlrr(1)]));
    list.add(packet(&[]));
}

fn orders(list: &mut List) {
    list.group("every block type alone, then in pairs, then between others");
    let kinds = kinds();
    kinds.iter().for_each(|a| list.add(packet(&[a.clone()])));
    for a in &kinds {
        kinds.iter().for_each(|b| list.add(packet(&[a.clone(), b.clone()])));
    }
    for (a, c) in [(0, 3), (2, 4), (4, 2), (3, 3)] {
        for b in &kinds {
            list.add(packet(&[kinds[a].clone(), b.clone(), kinds[c].clone()]));
        }
    }
}

const RANGES: [(u16, u16); 8] =
    [(10, 14), (65534, 2), (65530, 65531), (5, 5), (0, 0), (0, 65535), (65535, 0), (40000, 300)];

fn thinnings(list: &mut List) {
    list.group("each thinning, ranges plain, wrapping, whole: a run, a vector, receipt times");
    for thinning in 0..16 {
        for (begin, end) in RANGES {
            let range = Range(thinning, 7, begin, end);
            list.add(packet(&[rle(1, range, &[16389, 0])]));
            list.add(packet(&[rle(2, range, &[43690, 3, 16386, 32769])]));
            list.add(packet(&[times(range, &[1001, 1002, 1003, 1004, 1005])]));
        }
    }
}

fn words(list: &mut List) {
    list.group("each word: read alone, as the last word, twice");
    for (thinning, begin, end) in [(0, 10, 30), (0, 65533, 65533), (12, 0, 0), (15, 1, 0)] {
        for word in WORDS {
            let range = Range(thinning, 7, begin, end);
            list.add(packet(&[rle(1, range, &[word, 0])]));
            list.add(packet(&[rle(2, range, &[16385, word])]));
            list.add(packet(&[rle(1, range, &[word, word, 2, word])]));
        }
    }
}

fn counts(list: &mut List) {
    list.group("0 to 9 words (odd counts gain a zero word) and 0 to 9 receipt times");
    for n in 0..10 {
        for (begin, end) in [(10, 12), (10, 30), (65530, 3)] {
            list.add(packet(&[rle(1, Range(0, 7, begin, end), &vec![16386; n])]));
            list.add(packet(&[rle(2, Range(1, 7, begin, end), &vec![40961; n])]));
            let own: Vec<u32> = (0..n as u32).map(|t| 1001 + t).collect();
            list.add(packet(&[times(Range(0, 7, begin, end), &own)]));
        }
    }
}

fn dlrr_entries(list: &mut List) {
    list.group("DLRR of 0 to 5 entries, 0 to 7 words behind; first or second; then other lengths");
    for entries in 0..6 {
        for behind in 0..8 {
            list.add(packet(&[dlrr(entries), vec![0; 4 * behind]]));
        }
        kinds().into_iter().for_each(|kind| list.add(packet(&[kind, dlrr(entries)])));
    }
    for words in 0..20 {
        list.add(packet(&[block(5, 0, &vec![1; 4 * words])]));
        list.add(packet(&[block(5, 0, &vec![1; 4 * words]), vec![0; 12]]));
    }
}

fn summaries(list: &mut List) {
    list.group("statistics summaries: each flag, other lengths, two in a packet, behind each other type");
    (0..=248).step_by(8).for_each(|flags| list.add(packet(&[summary(flags)])));
    [1, 2, 4, 7, 255].into_iter().for_each(|flags| list.add(packet(&[summary(flags)])));
    for words in 0..15 {
        list.add(packet(&[block(6, 0xe8, &vec![1; 4 * words])]));
        list.add(packet(&[block(6, 0xe8, &vec![1; 4 * words]), summary(0x30)]));
    }
    for flags in [0, 0x40, 0xa8, 0xf0] {
        kinds().into_iter().for_each(|kind| list.add(packet(&[kind, summary(flags), summary(!flags)])));
        kinds().into_iter().for_each(|kind| list.add(packet(&[summary(flags), kind])));
        list.add(padded(packet(&[summary(flags)]), 4, 4));
    }
}

fn long_lists(list: &mut List) {
    list.group("lists of over 64 items, and a packet of 8,192 bytes");
    for (thinning, begin, end) in [(0, 0, 0), (0, 5, 60000), (3, 7, 6), (14, 0, 0), (15, 0, 65535)] {
        let range = Range(thinning, 7, begin, end);
        list.add(packet(&[rle(1, range, &[32767, 0])]));
        list.add(packet(&[rle(1, range, &[32767, 16383, 32767, 32767, 32767, 65535])]));
        list.add(packet(&[rle(2, range, &[65535; 12])]));
        list.add(packet(&[times(range, &(0..70).collect::<Vec<_>>())]));
    }
    list.add(packet(&[dlrr(33)]));
    list.add(packet(&[dlrr(65)]));
    list.add(packet(&[dlrr(69)]));
    list.add(packet(&[rle(1, Range(0, 7, 0, 0), &[16385; 4086])]));
}
