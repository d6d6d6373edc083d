//! Inputs for tests: benches and messages made by hand, and random ones that are well formed.

use crate::bench::*;
use crate::flits::*;
use crate::random::Random;
use crate::steps::Call;
use crate::words::PHASES;

pub const DATA: [u64; 8] = [11, 12, 13, 14, 15, 16, 17, 18];

pub fn plain(kind: u64) -> Message {
    Message { kind, ..Message::default() }
}

pub fn full(kind: u64) -> Message {
    Message { has_data: 1, data: DATA, ..plain(kind) }
}

pub fn state(state: u64, m: Message) -> Message {
    Message { state, ..m }
}

/// Every message of NoC3, those with data made by `full`.
pub fn replies(full: impl Fn(u64) -> Message) -> [Message; 7] {
    [
        full(WB_REQ),
        state(S, full(LOAD_FWDACK)),
        state(S, plain(LOAD_FWDACK)),
        plain(LOAD_FWDACK),
        full(STORE_FWDACK),
        plain(STORE_FWDACK),
        plain(INV_FWDACK),
    ]
}

pub fn queue(messages: &[Message]) -> Queue {
    let mut q = Queue::default();
    messages.iter().for_each(|&m| q.push(m));
    q
}

/// The nine calls, at one tile.
pub fn all_calls(tile: u64, word: u64) -> [Call; 9] {
    [
        Call::Load { tile, word },
        Call::Store { tile, word, value: 5 },
        Call::Evict { tile },
        Call::Arbitrate,
        Call::ToTile { tile },
        Call::FromTile { tile },
        Call::MemoryStep,
        Call::MemoryAck,
        Call::HomeEviction,
    ]
}

fn pick<T: Copy>(r: &mut Random, from: &[T]) -> T {
    from[r.below(from.len() as u64) as usize]
}

/// Eight words, some of them 0.
pub fn any_words(r: &mut Random) -> [u64; 8] {
    std::array::from_fn(|_| if r.below(4) == 0 { 0 } else { r.next() })
}

/// A message of the type that the flit table allows, with what its type does not use 0.
pub fn any_message(r: &mut Random, kind: u64) -> Message {
    let mut m = plain(kind);
    match kind {
        LOAD_REQ | STORE_REQ => m.word = r.below(8),
        LOAD_FWDACK => {
            m.state = r.below(2);
            m.has_data = if m.state == S { r.below(2) } else { 0 };
        }
        STORE_FWDACK => m.has_data = r.below(2),
        DATA_ACK => (m.state, m.miss, m.has_data) = (1 + r.below(3), r.below(2), 1),
        WB_REQ | STORE_MEM | LOAD_MEM_ACK => m.has_data = 1,
        _ => {}
    }
    if m.has_data == 1 {
        m.data = any_words(r);
    }
    m
}

/// How many messages a queue has: by this list, each as often as it stands there.
type Traffic = [u64; 6];
const TRAFFIC: [Traffic; 4] = [[0; 6], [0, 0, 0, 0, 0, 1], [0, 0, 0, 1, 1, 2], [0, 1, 1, 2, 2, 2]];

/// Messages of these types.
fn any_queue(r: &mut Random, traffic: &Traffic, kinds: &[u64]) -> Queue {
    let mut q = Queue::default();
    for _ in 0..pick(r, traffic) {
        let kind = pick(r, kinds);
        q.push(any_message(r, kind));
    }
    q
}

fn any_tile(r: &mut Random, traffic: &Traffic) -> Tile {
    let (state, wait) = (r.below(4), r.below(3));
    Tile {
        state,
        wait,
        wait_word: if wait == NO_WAIT { 0 } else { r.below(8) },
        wait_value: if wait == WAIT_STORE { r.next() } else { 0 },
        words: if state == I { [0; 8] } else { any_words(r) },
        noc1: any_queue(r, traffic, &[LOAD_REQ, STORE_REQ, WBGUARD_REQ]),
        noc2: any_queue(r, traffic, &[LOAD_FWD, STORE_FWD, INV_FWD, DATA_ACK, DATA_ACK]),
        noc3: any_queue(r, traffic, &[WB_REQ, LOAD_FWDACK, STORE_FWDACK, INV_FWDACK]),
    }
}

/// Few of the tiles, some of them, or all.
fn any_mask(r: &mut Random, tiles: u64) -> u64 {
    let all = u64::MAX >> (64 - tiles);
    let some = r.next();
    all & match r.below(4) {
        0 => 0,
        1 => 1 << r.below(tiles),
        2 => some,
        _ => all,
    }
}

fn any_home(r: &mut Random, tiles: u64) -> Home {
    let (phase, reason) = if r.below(4) == 0 { (IDLE, NO_REASON) } else { pick(r, &PHASES) };
    let directory = match phase {
        FOR_OWNER => E,
        FOR_INVALIDATIONS => S,
        _ => r.below(3),
    };
    let valid = if directory == I { r.below(2) } else { 1 };
    Home {
        valid,
        dirty: if valid == 1 { r.below(2) } else { 0 },
        words: if valid == 1 { any_words(r) } else { [0; 8] },
        directory,
        sharers: if directory == S { any_mask(r, tiles) } else { 0 },
        owner: if directory == E { r.below(tiles) } else { 0 },
        last_taken: r.below(tiles),
        marks: any_mask(r, tiles),
        phase,
        reason,
        requester: if reason == FOR_LOAD || reason == FOR_STORE { r.below(tiles) } else { 0 },
        owed: if phase == FOR_INVALIDATIONS { any_mask(r, tiles) } else { 0 },
    }
}

/// Any well-formed bench: every place in its range, whether calls reach it or not.
pub fn any_bench(r: &mut Random, tiles: u64) -> Bench {
    let traffic = &TRAFFIC[r.below(4) as usize];
    let bench = Bench {
        tile_count: tiles,
        home: any_home(r, tiles),
        memory: any_words(r),
        to_memory: any_queue(r, traffic, &[LOAD_MEM, STORE_MEM]),
        from_memory: any_queue(r, traffic, &[LOAD_MEM_ACK, STORE_MEM_ACK]),
        tiles: (0..tiles).map(|_| any_tile(r, traffic)).collect(),
    };
    assert!(bench.well_formed());
    bench
}

/// The types of the flit table.
pub const TYPES: [u64; 16] = [2, 12, 13, 16, 17, 18, 19, 20, 21, 22, 23, 24, 25, 28, 29, 31];

pub fn three_headers(kind: u64) -> bool {
    matches!(kind, 2 | 12 | 13 | 16..=20 | 31)
}

/// A message of the type that the flit writer accepts, with random fields, and its number of data words.
pub fn any_fields(kind: u64, r: &mut Random) -> (Fields, usize) {
    let port = |r: &mut Random| pick(r, &[0, 2, 3, 4, 5]);
    let mut f = Fields {
        chip: r.below(1 << 14),
        x: r.below(256),
        y: r.below(256),
        port: port(r),
        kind,
        tag: r.below(256),
        ..Fields::default()
    };
    if three_headers(kind) {
        f.source_chip = r.below(1 << 14);
        f.source_x = r.below(256);
        f.source_y = r.below(256);
        f.source_port = port(r);
        f.address = r.below(1 << 48);
        if kind != 31 && kind != 2 {
            f.address &= !63;
        }
    }
    let count = match kind {
        12 | 20 | 24 | 29 => 8,
        21 | 22 => 8 * r.below(2) as usize,
        _ => 0,
    };
    match kind {
        31 => {
            f.size = r.below(8);
            f.icache = r.below(2);
        }
        2 => f.size = r.below(8),
        12 | 19 | 20 => f.size = 7,
        16..=18 => f.vector = 15,
        21 => {
            f.last = 1;
            f.state = if count == 8 { S } else { r.below(2) };
        }
        22 | 23 => f.last = 1,
        28 | 29 => {
            f.state = if kind == 28 { r.below(4) } else { 1 + r.below(3) };
            f.miss = r.below(2);
            f.address_5_4 = r.below(4);
        }
        _ => {}
    }
    (f, count)
}
