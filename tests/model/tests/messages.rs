//! Flits of a bench's messages: by hand for one of each way, and every message of a run reads back.

use model::bench::*;
use model::flits::{self, *};
use model::messages;
use model::random::Random;
use model::steps::*;

const LINE: u64 = 0x8000_1040;

#[track_caller]
fn flits_are(way: Way, message: Message, expected: &[u64]) {
    let mut buffer = [0; messages::MAX_FLITS];
    let used = messages::write(&Sent { way, message }, LINE, &mut buffer).unwrap();
    assert_eq!(&buffer[..used], expected);
}

#[test]
fn by_hand() {
    let plain = |kind| Message { kind, ..Message::default() };
    let data = [1, 2, 3, 4, 5, 6, 7, 8];
    let full = |kind| Message { has_data: 1, data, ..plain(kind) };
    let with = |first: &[u64]| [first, &data].concat();
    // Tile 53 is x 5, y 6; its tag is 53.
    let tile = 5 << 42 | 6 << 34;
    let tag = 53 << 6;
    flits_are(
        Way::Noc1(53),
        Message { word: 7, ..plain(STORE_REQ) },
        &[2 << 22 | 2 << 14 | tag, 0x8000_1078_0400, tile],
    );
    flits_are(
        Way::Noc1(53),
        Message { word: 1, ..plain(LOAD_REQ) },
        &[2 << 22 | 31 << 14 | tag, 0x8000_1048_0400, tile],
    );
    flits_are(Way::Noc1(53), plain(WBGUARD_REQ), &[2 << 22 | 13 << 14 | tag, 0x8000_1040_0000, tile]);
    for forward in [LOAD_FWD, STORE_FWD, INV_FWD] {
        flits_are(Way::Noc2(53), plain(forward), &[tile | 2 << 22 | forward << 14 | tag, 0x8000_1040_F000, 0]);
    }
    for (state, miss) in [(S, 0), (E, 0), (E, 1), (M, 0), (M, 1)] {
        let first = tile | 8 << 22 | 29 << 14 | tag | state << 4 | miss << 3;
        flits_are(Way::Noc2(53), Message { state, miss, ..full(DATA_ACK) }, &with(&[first]));
    }
    flits_are(Way::Noc3(53), full(WB_REQ), &with(&[10 << 22 | 12 << 14 | tag, 0x8000_1040_0700, tile]));
    flits_are(Way::Noc3(53), Message { state: S, ..full(LOAD_FWDACK) }, &with(&[8 << 22 | 21 << 14 | tag | 0x11]));
    flits_are(Way::Noc3(53), Message { state: S, ..plain(LOAD_FWDACK) }, &[21 << 14 | tag | 0x11]);
    flits_are(Way::Noc3(53), plain(LOAD_FWDACK), &[21 << 14 | tag | 1]);
    flits_are(Way::Noc3(53), full(STORE_FWDACK), &with(&[8 << 22 | 22 << 14 | tag | 1]));
    flits_are(Way::Noc3(53), plain(STORE_FWDACK), &[22 << 14 | tag | 1]);
    flits_are(Way::Noc3(53), plain(INV_FWDACK), &[23 << 14 | tag | 1]);
    flits_are(Way::ToMemory, plain(LOAD_MEM), &[2 << 30 | 2 << 22 | 19 << 14, 0x8000_1040_0700, 0]);
    flits_are(Way::ToMemory, full(STORE_MEM), &with(&[2 << 30 | 10 << 22 | 20 << 14, 0x8000_1040_0700, 0]));
    flits_are(Way::FromMemory, full(LOAD_MEM_ACK), &with(&[8 << 22 | 24 << 14]));
    flits_are(Way::FromMemory, plain(STORE_MEM_ACK), &[25 << 14]);
}

#[test]
fn every_message_of_a_run_reads_back() {
    let mut r = Random(6);
    let mut seen = [false; 32];
    for tiles in [1, 2, 3, 64] {
        let mut b = Bench::start(tiles, std::array::from_fn(|_| r.next())).unwrap();
        for _ in 0..4_000 {
            let tile = r.below(tiles.min(4));
            let (word, value) = (r.below(8), r.next());
            let call = match r.below(9) {
                0 => Call::Load { tile, word },
                1 => Call::Store { tile, word, value },
                2 => Call::Evict { tile },
                3 => Call::Arbitrate,
                4 => Call::ToTile { tile },
                5 => Call::FromTile { tile },
                6 => Call::MemoryStep,
                7 => Call::MemoryAck,
                _ => Call::HomeEviction,
            };
            let mut sent = vec![];
            b.call(call, &mut sent);
            for s in sent {
                seen[s.message.kind as usize] = true;
                for line in [LINE, 0, 0xFFFF_FFFF_FFC0] {
                    let mut buffer = [0; messages::MAX_FLITS];
                    let used = messages::write(&s, line, &mut buffer).unwrap();
                    let front = flits::read(&buffer).unwrap();
                    assert_eq!((front.fields, front.used), (messages::fields(&s, line), used));
                    assert_eq!(front.data, &s.message.data[..8 * s.message.has_data as usize]);
                }
                for line in [1, 32, 1 << 48] {
                    let reply = s.message.kind > 20 && s.message.kind < 31;
                    let unaligned_request = line < 64 && (s.message.kind == LOAD_REQ || s.message.kind == STORE_REQ);
                    let answer = messages::write(&s, line, &mut [0; messages::MAX_FLITS]);
                    assert_eq!(answer.is_ok(), reply || unaligned_request);
                }
            }
        }
    }
    let kinds: Vec<usize> = (0..32).filter(|&k| seen[k]).collect();
    assert_eq!(kinds, [2, 12, 13, 16, 17, 18, 19, 20, 21, 22, 23, 24, 25, 29, 31]);
}
