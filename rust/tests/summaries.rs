//! Statistics Summary blocks, of type 6: read, written, in portions.
use giunchemis::{ask, Event, Hops, Portions, Reading, Refusal, Spread, StatisticsSummary, Summary, Xr};

const JITTER: Spread<u32> = Spread { min: 0x0102_0304, max: 0xffff_ffff, mean: 0, deviation: 7 };
const FOUR: Spread<u8> = Spread { min: 0, max: 255, mean: 63, deviation: 1 };

/// A packet of one block: type 6, a specific byte, so many bytes of the same 44, its length field by these.
fn packet(specific: u8, length: usize) -> Vec<u8> {
    let mut body = vec![0x11, 0x12, 0x13, 0x14, 0xff, 0xfe, 0x00, 0x02];
    for number in [0x0a0b_0c0d, 0x0000_0100, JITTER.min, JITTER.max, JITTER.mean, JITTER.deviation] {
        body.extend_from_slice(&u32::to_be_bytes(number));
    }
    body.extend_from_slice(&[FOUR.min, FOUR.max, FOUR.mean, FOUR.deviation, 9, 9, 9, 9]);
    let mut block = vec![6, specific, 0, (length / 4 - 1) as u8];
    block.extend_from_slice(&body[..length - 4]);
    let mut packet = vec![0x80, 207, 0, (block.len() / 4 + 1) as u8, 0, 0, 0, 1];
    packet.extend_from_slice(&block);
    packet
}

/// What the bits of a specific byte say, one by one.
fn shown(specific: u8) -> Summary {
    let has = |bit: u32| specific >> bit & 1 == 1;
    Summary {
        media_ssrc: 0x1112_1314,
        begin: 65534,
        end: 2,
        lost: if has(7) { Some(0x0a0b_0c0d) } else { None },
        duplicates: if has(6) { Some(256) } else { None },
        jitter: if has(5) { Some(JITTER) } else { None },
        hops: match (has(4), has(3)) {
            (false, false) => Hops::Absent,
            (false, true) => Hops::Ttl(FOUR),
            (true, false) => Hops::HopLimit(FOUR),
            (true, true) => Hops::Unknown,
        },
    }
}

#[test]
fn every_specific_byte() {
    for specific in 0..=255 {
        let packet = packet(specific, 40);
        let want = shown(specific);
        assert_eq!(ask::summary(Reading::Standard, &packet, 0), Ok(want), "{specific:02x}");
        assert_eq!(ask::summary_view(Reading::Standard, &packet[8..]), Ok(want));
        let block = Xr::parse(&packet).unwrap().block(0).unwrap();
        let record = block.parse_into::<StatisticsSummary>().unwrap();
        assert_eq!(record.summary(), want);
        assert_eq!((record.block_type(), record.type_specific_byte(), record.length()), (6, specific, 40));
        assert_eq!(want.hops.toh(), specific >> 3 & 3);
        assert_eq!(want.hops.numbers().is_some(), matches!(specific >> 3 & 3, 1 | 2));
    }
}

#[test]
fn the_crate_reading_has_no_such_question() {
    let packet = packet(0xe8, 40);
    let refusal = Err(Refusal::OtherType { block_type: 6 });
    assert_eq!(ask::summary(Reading::Crate, &packet, 0), refusal);
    assert_eq!(ask::summary_view(Reading::Crate, &packet[8..]), refusal);
    let block = Xr::parse_as(Reading::Crate, &packet).unwrap().block(0).unwrap();
    assert_eq!((block.block_type(), block.length()), (6, 40));
    assert!(block.parse_into::<StatisticsSummary>().is_err());
}

#[test]
fn another_length_is_7() {
    for length in [4, 36, 44] {
        let packet = packet(0xe8, length);
        let refusal = ask::summary(Reading::Standard, &packet, 0).unwrap_err();
        assert_eq!((refusal.number(), refusal.values()), (7, (40, length)));
        let mut portions = Portions::new();
        let told: Vec<_> = portions.feed(&packet).collect();
        assert_eq!(told.len(), 2, "{told:?}");
        assert_eq!(told[1], Err(refusal));
    }
    assert_eq!(ask::summary(Reading::Standard, &packet(0, 40), 1).unwrap_err().number(), 9);
    let clock = [0x80, 207, 0, 4, 0, 0, 0, 1, 4, 0, 0, 2, 0, 0, 0, 0, 0, 0, 0, 0];
    assert_eq!(ask::summary(Reading::Standard, &clock, 0).unwrap_err().values(), (4, 0));
}

#[test]
fn written_and_read_back() {
    for specific in (0..=255).step_by(8) {
        let want = shown(specific);
        let mut builder = StatisticsSummary::builder().ssrc(want.media_ssrc).begin(want.begin).end(want.end).hops(want.hops);
        if let Some(lost) = want.lost {
            builder = builder.lost(lost);
        }
        if let Some(duplicates) = want.duplicates {
            builder = builder.duplicates(duplicates);
        }
        if let Some(jitter) = want.jitter {
            builder = builder.jitter(jitter);
        }
        let written = Xr::builder().add_block(builder).careful();
        if want.hops == Hops::Unknown {
            assert_eq!(written.unwrap_err().number(), 12);
            continue;
        }
        let packet = written.unwrap();
        assert_eq!(packet.len(), 48);
        assert_eq!(packet[9], specific);
        assert_eq!(ask::summary(Reading::Standard, &packet, 0), Ok(want));
        assert_eq!(Xr::builder().add_block(builder).plain().unwrap(), packet);
    }
}

/// However the packet is cut, the summary comes once, with the block's last byte.
#[test]
fn in_portions() {
    let mut two = packet(0xf0, 40);
    two.extend_from_slice(&packet(0x07, 40)[8..]);
    two[3] = 21;
    for cut in 0..=two.len() {
        let mut portions = Portions::new();
        let mut told = Vec::new();
        for part in [&two[..cut], &two[cut..]] {
            told.extend(portions.feed(part).map(Result::unwrap));
        }
        let start = Event::Start { block_type: 6, length: 40, fields: None };
        assert_eq!(
            told,
            [
                Event::Header { length: 88, sender_ssrc: 1 },
                start,
                Event::Summary(shown(0xf0)),
                start,
                Event::Summary(shown(0x07)),
                Event::End,
            ],
            "{cut}"
        );
    }
    let mut portions = Portions::new();
    assert_eq!(portions.feed(&two[..47]).count(), 2);
    assert_eq!(portions.feed(&two[47..48]).count(), 1);
}
