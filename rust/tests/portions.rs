//! Packets in portions, on thousands of seeded packets: against a course of events written from docs/RULES.md beside the
//! second implementation, however the bytes are divided, with rooms that are too small; and `Portions` itself.
#[path = "support/second.rs"]
mod second;
#[path = "support/mod.rs"]
mod support;

use giunchemis::ask::{follow, portions_start};
use giunchemis::*;
use support::{numbers_of, packet, Random};

/// The events of some bytes of a packet, each with the byte that completes it, counted from 1; and the refusal that they
/// end with, and its byte.
struct Course {
    announced: Option<usize>,
    events: Vec<(usize, Event)>,
    ends: Option<(usize, second::No)>,
}

fn course(s: &[u8]) -> Course {
    let mut c = Course { announced: None, events: Vec::new(), ends: None };
    if s.len() < 4 {
        return c;
    }
    let announced = (usize::from(s[2]) * 256 + usize::from(s[3]) + 1) * 4;
    let head = if announced < 8 {
        Some((1, 8, announced))
    } else if s[0] / 64 != 2 {
        Some((2, 0, 0))
    } else if s[1] != 207 {
        Some((3, 0, 0))
    } else if s[0] / 32 % 2 == 1 {
        Some((18, 0, 0))
    } else {
        None
    };
    if let Some(no) = head {
        c.ends = Some((4, no));
        return c;
    }
    c.announced = Some(announced);
    if s.len() < 8 {
        return c;
    }
    c.events.push((8, Event::Header { length: announced, sender_ssrc: second::sender(s) }));
    let mut at = 8;
    while at < announced && at + 4 <= s.len() {
        let length = (usize::from(s[at + 2]) * 256 + usize::from(s[at + 3]) + 1) * 4;
        if length > announced - at {
            c.ends = Some((at + 4, (6, length, announced - at)));
            return c;
        }
        // the whole block, zeros where its bytes have not come
        let mut block = s[at..s.len().min(at + length)].to_vec();
        block.resize(length, 0);
        let clear = clear_bytes(&block);
        let events = match listed(&block, clear) {
            Ok(events) => events,
            Err(no) => {
                c.ends = Some((at + 4, no));
                return c;
            }
        };
        c.events.extend(events.into_iter().map(|(byte, e)| (at + byte, e)).filter(|(b, _)| *b <= s.len()));
        if clear < length && at + clear + 2 <= s.len() {
            c.ends = Some((at + clear + 2, (7, 12, length)));
            return c;
        }
        at += length;
    }
    if at == announced && at <= s.len() {
        c.events.push((announced, Event::End));
    }
    c
}

/// How many bytes of a block stand before a run of ones of no length, or all.
fn clear_bytes(block: &[u8]) -> usize {
    let words = block.get(12..).filter(|_| block[0] == 1 || block[0] == 2).unwrap_or(&[]);
    words.chunks(2).position(|w| w == [0x40, 0]).map_or(block.len(), |i| 12 + 2 * i)
}

/// The events of a block's first bytes, each with the byte of the block that completes it. A number's word is found by
/// asking for the block's words one more at a time.
fn listed(block: &[u8], clear: usize) -> Result<Vec<(usize, Event)>, second::No> {
    let (t, length) = (block[0], block.len());
    let block = &block[..clear];
    let start = |fields| Event::Start { block_type: t, length, fields };
    let mut events = Vec::new();
    match t {
        1 | 2 | 3 => {
            let (ssrc, begin, end, thinning) = second::fields(block, t)?;
            events.push((12, start(Some(Fields { media_ssrc: ssrc, begin, end, thinning }))));
            let step = if t == 3 { 4 } else { 2 };
            let mut before = 0;
            for upto in (12 + step..=block.len()).step_by(step) {
                if t == 3 {
                    let pairs = second::pairs(&block[..upto])?;
                    events.extend(pairs[before..].iter().map(|(n, time)| (upto, Event::Pair(*n, ReceiptTime(*time)))));
                    before = pairs.len();
                } else {
                    let numbers = second::numbers(&block[..upto], t)?;
                    events.extend(numbers[before..].iter().map(|n| (upto, Event::Number(*n))));
                    before = numbers.len();
                }
            }
        }
        4 => events.extend([(4, start(None)), (12, Event::Time(LongTime(second::time(block)?)))]),
        5 => {
            events.push((4, start(None)));
            for (i, (ssrc, last, delay)) in second::entries(block)?.into_iter().enumerate() {
                let e = DelaySinceLastReceiverReportBlock::builder()
                    .ssrc(ssrc)
                    .last_receiver_report(ShortTime(last))
                    .delay_since_last_receiver_report_timestamp(ShortTime(delay));
                events.push((16 + 12 * i, Event::Entry(entry(e))));
            }
        }
        6 => events.extend([(4, start(None)), (40, Event::Summary(summary(block)?))]),
        _ => events.push((4, start(None))),
    }
    Ok(events)
}

/// What a summary shows, by the second implementation.
fn summary(block: &[u8]) -> Result<Summary, second::No> {
    let (lost, duplicates, jitter, toh, four) = second::sums(block)?;
    let be16 = |at: usize| u16::from_be_bytes([block[at], block[at + 1]]);
    let four = four.map(|[min, max, mean, deviation]| Spread { min, max, mean, deviation });
    Ok(Summary {
        media_ssrc: u32::from_be_bytes([block[4], block[5], block[6], block[7]]),
        begin: be16(8),
        end: be16(10),
        lost,
        duplicates,
        jitter: jitter.map(|[min, max, mean, deviation]| Spread { min, max, mean, deviation }),
        hops: match (toh, four) {
            (0, None) => Hops::Absent,
            (1, Some(four)) => Hops::Ttl(four),
            (2, Some(four)) => Hops::HopLimit(four),
            _ => Hops::Unknown,
        },
    })
}

/// The entry that a builder's block has when it is read.
fn entry(builder: DelaySinceLastReceiverReportBlockBuilder) -> DelaySinceLastReceiverReportBlock {
    let block = DelaySinceLastReceiverReport::builder().add_block(builder);
    let packet = Xr::builder().add_block(block).plain().unwrap();
    let dlrr = Xr::parse(&packet).unwrap().block(0).unwrap().parse_into::<DelaySinceLastReceiverReport>().unwrap();
    let first = dlrr.block_iter().next().unwrap();
    first
}

const PATTERN: (u64, u16, u64) = (0xdead_beef_dead_beef, 0x5aa5, 0xfeed_f00d_feed_f00d);

/// One call after another, with seeded sizes and rooms, each held to the course of all the bytes; lent lists are looked
/// at whole.
fn divided(s: &[u8], random: &mut Random, seen: &mut [usize; 20]) -> usize {
    let c = course(s);
    let (mut state, mut taken, mut told, mut stays, mut summaries) = (portions_start(), 0, 0, None, 0);
    for _ in 0..60 {
        let size = random.of(&[0, 1, 1, 2, 3, 5, 8, 20, s.len() - taken]).min(s.len() - taken);
        let room = random.of(&[0, 1, 2, 5, 40, 20_000]);
        let upto = taken + size;
        let new: Vec<Event> =
            c.events[told..].iter().take_while(|(byte, _)| *byte <= upto).map(|(_, event)| *event).collect();
        let is_known = upto >= 4 && c.announced.is_some();
        let wanted = if stays.is_some() {
            (0, 0, stays)
        } else if is_known && upto > c.announced.unwrap() {
            (0, 0, Some((19, c.announced.unwrap(), upto)))
        } else if new.len() > room {
            (0, 0, Some((11, new.len(), room)))
        } else {
            stays = c.ends.filter(|(byte, _)| *byte <= upto).map(|(_, no)| no);
            (size, new.len(), stays)
        };
        let mut tags = vec![PATTERN.0; room];
        let mut numbers = vec![PATTERN.1; room + random.below(2)];
        let mut values = vec![PATTERN.2; room + random.below(3)];
        let mut sums = vec![PATTERN.2; 3 * room + random.below(4)];
        if room > 0 && random.one_in(8) {
            // the fourth list is the shortest: one number less than it takes for so many events
            tags.push(PATTERN.0);
            numbers.resize(room + 1, PATTERN.1);
            values.resize(room + 1, PATTERN.2);
            sums.resize(3 * room + 2, PATTERN.2);
        }
        let a = follow(state, &s[taken..upto], &mut tags, &mut numbers, &mut values, &mut sums);
        assert_eq!((a.taken, a.events, a.refusal.map(numbers_of)), wanted, "{:x?} at {} with {}", s, taken, size);
        if let Some(no) = wanted.2 {
            seen[no.0 as usize] += 1;
        }
        if wanted.0 == 0 && size > 0 {
            assert_eq!(a.state, state, "a call that takes nothing leaves the state");
        }
        for i in 0..values.len() {
            let parts = (tags.get(i).copied(), numbers.get(i).copied(), values[i]);
            if i >= a.events {
                assert_eq!(parts.0.unwrap_or(PATTERN.0), PATTERN.0);
                assert_eq!((parts.1.unwrap_or(PATTERN.1), parts.2), (PATTERN.1, PATTERN.2));
                continue;
            }
            let three = [sums[3 * i], sums[3 * i + 1], sums[3 * i + 2]];
            assert_eq!(Event::from_parts(parts.0.unwrap(), parts.1.unwrap(), parts.2, three), new[i]);
            // what an event does not have is left
            let has_number = matches!(new[i], Event::Number(_) | Event::Pair(..));
            let has_value = !matches!(new[i], Event::Number(_) | Event::End | Event::Start { fields: None, .. });
            assert!((has_number || parts.1 == Some(PATTERN.1)) && (has_value || parts.2 == PATTERN.2));
            assert!(matches!(new[i], Event::Summary(_)) || three == [PATTERN.2; 3]);
            summaries += usize::from(matches!(new[i], Event::Summary(_)));
        }
        assert!(sums[3 * a.events..].iter().all(|x| *x == PATTERN.2));
        state = a.state;
        taken += a.taken;
        told += a.events;
    }
    summaries
}

#[test]
fn calls_on_seeded_packets() {
    let (mut random, mut seen, mut summaries) = (Random::new(15), [0; 20], 0);
    for _ in 0..4000 {
        let mut s = packet(&mut random);
        if random.one_in(6) {
            s.extend_from_slice(&[0x40; 7][..random.below(8)]);
        }
        summaries += divided(&s, &mut random, &mut seen);
    }
    for number in [1, 2, 3, 18, 19, 11, 6, 7] {
        assert!(seen[number] > 100, "refusal {} came {} times", number, seen[number]);
    }
    assert!(summaries > 100, "{} summaries came", summaries);
}

#[test]
fn portions_fed_in_many_ways() {
    let mut random = Random::new(16);
    let mut portions = Portions::default();
    for _ in 0..2000 {
        let s = packet(&mut random);
        let c = course(&s);
        portions.begin();
        let (mut got, mut refused, mut at) = (Vec::new(), None, 0);
        while at < s.len() && refused.is_none() {
            let size = random.of(&[1, 1, 2, 3, 7, 64, s.len()]).min(s.len() - at);
            if c.announced.map_or(false, |n| at + size > n && at + size >= 4) {
                let no = (19, c.announced.unwrap(), at + size);
                let all: Vec<_> = portions.feed(&s[at..at + size]).collect();
                assert_eq!(all.into_iter().map(|e| e.map_err(numbers_of)).collect::<Vec<_>>(), [Err(no)]);
                break;
            }
            for event in portions.feed(&s[at..at + size]) {
                match event {
                    Ok(event) => got.push(event),
                    Err(no) => refused = Some(numbers_of(no)),
                }
            }
            at += size;
        }
        let wanted: Vec<Event> = c.events.iter().filter(|(byte, _)| *byte <= at).map(|(_, e)| *e).collect();
        assert_eq!(got, wanted);
        assert_eq!(refused, c.ends.filter(|(byte, _)| *byte <= at).map(|(_, no)| no));
        if let Some(no) = refused {
            // it stays, for no bytes and for more
            for more in [&[][..], &[0; 9][..]] {
                let again: Vec<_> = portions.feed(more).map(|e| e.map_err(numbers_of)).collect();
                assert_eq!(again, [Err(no)]);
            }
        }
    }
}

#[test]
fn more_events_than_room() {
    // 65,536 numbers in five words, and then a clock
    let loss = LossRle::builder().begin(5).end(5).add_words(&[0x7fff, 0x7fff, 0x7fff, 0x7fff, 0x4004, 0x4009]);
    let time = ReceiverReferenceTime::builder().ntp_timestamp(LongTime(9));
    let s = Xr::builder().add_block(loss).add_block(time).plain().unwrap();
    let mut portions = Portions::new();
    let events: Vec<Event> = portions.feed(&s).map(Result::unwrap).collect();
    assert_eq!(events.len(), 1 + 1 + 65_536 + 2 + 1);
    assert_eq!(events[2], Event::Number(5));
    assert_eq!(events[65_537], Event::Number(4));
    assert_eq!(events[65_538..], course(&s).events[65_538..].iter().map(|(_, e)| *e).collect::<Vec<_>>()[..]);
    assert_eq!(portions.feed(&[]).count(), 0);
    // bytes are taken even where the events are not looked at
    portions.begin();
    drop(portions.feed(&s[..30]));
    assert_eq!(portions.feed(&s[30..]).last(), Some(Ok(Event::End)));
    portions.begin();
    assert_eq!(portions.feed(&s).next().unwrap().unwrap(), Event::Header { length: s.len(), sender_ssrc: 0 });
    assert_eq!(portions.feed(&[1]).map(|e| e.map_err(numbers_of)).collect::<Vec<_>>(), [Err((19, s.len(), s.len() + 1))]);
    // the byte with the most events: a run of 16,383 and the end
    let loss = LossRle::builder().begin(0).end(0).add_words(&[0, 0x7fff]);
    let s = Xr::builder().add_block(loss).plain().unwrap();
    let before = follow(portions_start(), &s[..s.len() - 1], &mut [0; 9], &mut [0; 9], &mut [0; 9], &mut [0; 27]);
    assert_eq!((before.taken, before.refusal), (s.len() - 1, None));
    let (mut tags, mut numbers, mut values) = (vec![0; MOST_EVENTS], vec![0; MOST_EVENTS], vec![0; MOST_EVENTS]);
    let mut sums = vec![0; 3 * MOST_EVENTS];
    let last = follow(before.state, &s[s.len() - 1..], &mut tags, &mut numbers, &mut values, &mut sums);
    assert_eq!((last.events, last.refusal), (MOST_EVENTS, None));
    let short = follow(before.state, &s[s.len() - 1..], &mut tags[1..], &mut numbers, &mut values, &mut sums);
    assert_eq!(short.refusal, Some(Refusal::NoRoom { needed: MOST_EVENTS, lent: MOST_EVENTS - 1 }));
    let short = follow(before.state, &s[s.len() - 1..], &mut tags, &mut numbers, &mut values, &mut sums[1..]);
    assert_eq!(short.refusal, Some(Refusal::NoRoom { needed: MOST_EVENTS, lent: MOST_EVENTS - 1 }));
    assert_eq!(short.state, before.state);
}

#[test]
fn the_state_has_96_bytes() {
    assert_eq!(std::mem::size_of::<ask::PortionState>(), 96);
}
