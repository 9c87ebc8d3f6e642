//! Groups of the recorded list: the refusals of document 01's readers, and its differences.

use crate::make::*;
use crate::record::{flat, kinds, List};

pub const GROUPS: [fn(&mut List); 8] = [
    differences, lengths, versions_and_types, length_fields, paddings, walks, block_lengths,
    receipt_time_ends,
];

/// The packets that docs/DIFFERENCES.md shows.
const DIFFERENCES: [&str; 38] = [
    "80cf0001 00000001",
    "00cf0002 00000001 00000000",
    "80ce0002 00000001 00000000",
    "80cf0003 00000001 00000000",
    "80cf0001 00000001 00000000",
    "a0cf0002 00000001 00000000",
    "a0cf0002 00000001 00000001",
    "a0cf0003 00000001 00000001 00000001",
    "a0cf0003 00000001 00000001 0000000c",
    "80cf0002 00000001 00000001",
    "80cf0002 00000001 01000000",
    "80cf0002 00000001 04000000",
    "80cf0006 00000001 05000000 04000002 00000000 00000000 00000000",
    "80cf0002 00000001 03000000",
    "80cf0003 00000001 03000001 00000000",
    "80cf0005 00000001 01000003 00000000 00000000 00004001",
    "80cf0006 00000001 01000004 00000000 00000001 00014001 00000000",
    "80cf0005 00000001 01010003 00000000 fffeffff 40020000",
    "80cf0006 00000001 03010004 00000000 fffeffff 000003e9 000003ea",
    "80cf0005 00000001 03000002 00000000 00000000 00000000",
    "80cf0004 00000001 03000000 00000000 00000000",
    "80cf0004 00000001 04000000 00000000 00000000",
    "80cf0003 00000001 04000000 00000000",
    "80cf0002 00000001 05000000",
    "80cf0008 00000001 05000006 00000001 00000002 00000003 00000004 00000005 00000006",
    "80cf0009 00000001 05000007 00000001 00000002 00000003 00000004 00000005 00000006 00000007",
    "80cf0008 00000001 05000003 00000001 00000002 00000003 00000000 00000000 00000000",
    "a0cf0002 00000001 00000004",
    "a0cf0003 00000001 00000001 00000008",
    "a0cf0003 00000001 00000001 00000004",
    "80cf0005 00000001 01000003 00000000 00000000 40000000",
    "80cf0005 00000001 01000003 00000000 00000000 00004000",
    "80cf0005 00000001 01010003 00000000 00010003 40010000",
    "80cf0005 00000001 03010003 00000000 00010003 00000000",
    "80cf0005 00000001 01010003 00000000 00010002 40010000",
    "80cf0005 00000001 010f0003 00000000 00000001 40030000",
    "a0cf0001 00000001",
    "a0cf0004 00000001 04000002 01020304 05060708",
];

fn differences(list: &mut List) {
    list.group("the packets of docs/DIFFERENCES.md");
    DIFFERENCES.iter().for_each(|hex| list.add(from_hex(hex)));
}

fn lengths(list: &mut List) {
    list.group("refusal 1: 0 to 16 bytes, P clear and set; then 12 bytes of each unused bit");
    for first in [0x80, 0xa0] {
        for n in 0..=16 {
            let mut bytes = packet(&[vec![0; 8]])[..n].to_vec();
            bytes.iter_mut().take(1).for_each(|b| *b = first);
            list.add(relength(bytes));
        }
    }
    for unused in [1, 2, 4, 8, 16, 31] {
        let mut bytes = packet(&[vec![0; 4]]);
        bytes[0] |= unused;
        list.add(bytes);
    }
}

fn versions_and_types(list: &mut List) {
    list.group("refusals 2 and 3: versions and packet types, the length right and wrong");
    for first in [0x00, 0x40, 0x80, 0xc0, 0xe0] {
        for kind in [0, 79, 200, 205, 206, 207, 208, 255] {
            for field in [2, 3] {
                let mut bytes = packet(&[vec![0; 4]]);
                (bytes[0], bytes[1]) = (first, kind);
                set_field(&mut bytes, 0, field);
                list.add(bytes);
            }
        }
    }
}

fn length_fields(list: &mut List) {
    list.group("refusal 4: the length field against the slice, both sides of right");
    for words in [1, 2, 4, 8, 16] {
        let sound = packet(&[vec![0; 4 * words]]);
        let field = sound.len() as u16 / 4 - 1;
        for wrong in [0, 1, 2, field - 1, field, field + 1, 255, 256, 65535] {
            let mut bytes = sound.clone();
            set_field(&mut bytes, 0, wrong);
            list.add(bytes);
        }
        for grow in 1..=4 {
            list.add([sound.clone(), vec![0; grow]].concat());
            list.add(sound[..sound.len() - grow].to_vec());
        }
    }
}

fn paddings(list: &mut List) {
    list.group("refusal 5: P set, last byte good and bad, over blocks of four bytes");
    for words in [1, 2, 3, 4, 8] {
        let n = 8 + 4 * words;
        let mut lasts: Vec<usize> = (0..=17).chain([20, 24, 32, 64, 252, 253, 254, 255]).collect();
        lasts.extend([n - 8, n - 4, n, n + 4]);
        lasts.sort();
        lasts.dedup();
        for last in lasts {
            let mut bytes = packet(&[vec![0; 4 * words]]);
            bytes[0] |= 0x20;
            bytes[n - 1] = last as u8;
            list.add(bytes);
        }
    }
    list.group("refusal 5: padding behind blocks: as it should be, with a wrong last byte, without P");
    for kind in kinds() {
        for (n, last) in [(4, 4), (8, 8), (12, 12), (4, 0), (4, 1), (4, 3), (4, 8), (8, 6), (252, 252)] {
            list.add(padded(packet(&[kind.clone()]), n, last));
        }
        list.add(packet(&[kind, vec![0, 0, 0, 4]]));
    }
    list.group("refusal 5: a last byte whose word the walk takes for a block, so that it is accepted");
    for last_word in [[0, 0, 0, 4], [0, 4, 0, 0], [0, 0, 0, 0], [7, 0, 0, 0]] {
        for last in [1, 2, 3, 4, 8, 12] {
            let mut bytes = packet(&[last_word.to_vec(), other(6, 3)]);
            bytes[0] |= 0x20;
            *bytes.last_mut().unwrap() = last;
            list.add(bytes);
        }
    }
}

fn walks(list: &mut List) {
    list.group("refusal 6: a block's length field against what is left, alone, first, last");
    for kind in kinds() {
        for change in [-1i32, 0, 1, 2, 60000] {
            for (before, behind) in [(0, 0), (0, 1), (1, 0), (2, 2)] {
                let mut bytes = kind.clone();
                let field = u16::from_be_bytes([bytes[2], bytes[3]]) as i32 + change;
                set_field(&mut bytes, 0, field.clamp(0, 65535) as u16);
                let zero = |words: usize| vec![0; 4 * words];
                list.add(packet(&[zero(before), bytes, zero(behind)]));
            }
        }
    }
}

fn block_lengths(list: &mut List) {
    list.group("refusal 7: types 0 to 7, length 4 to 40, 0 to 3 words behind");
    for kind in 0..8 {
        for words in 0..10 {
            for behind in 0..4 {
                let body: Vec<u8> = [0, 0, 0, 7, 0, 10, 0, 14, 0x40, 2, 0x40, 3]
                    .iter().cycle().take(4 * words).cloned().collect();
                list.add(packet(&[block(kind, 0xf0, &body), vec![0; 4 * behind]]));
            }
        }
    }
}

fn receipt_time_ends(list: &mut List) {
    list.group("refusal 8: type 3 with 4, 8, 12, 16 bytes left, of every length that fits");
    for before in [vec![], reference_time(9), flat(&[16385])] {
        for left in 1..5 {
            for words in 0..left {
                let body = block(3, 2, &vec![1; 4 * words]);
                list.add(packet(&[before.clone(), body, vec![0; 4 * (left - 1 - words)]]));
            }
        }
    }
}
