//! Benches made by hand: every way to be malformed that 01 names, refusals 8 and 9 in each call, ties of refusals.

use model::bench::*;
use model::flits::*;
use model::samples::{all_calls, full, plain, queue, replies, state, DATA};
use model::steps::*;

fn fresh(tiles: u64) -> Bench {
    Bench::start(tiles, [1, 2, 3, 4, 5, 6, 7, 8]).unwrap()
}

/// Three tiles: 0 in M, 1 in E, 2 in I, home with a line in directory E. Not reachable, but well formed.
fn rich() -> Bench {
    let mut b = fresh(3);
    b.tiles[0].state = M;
    b.tiles[0].words = DATA;
    b.tiles[1].state = E;
    b.tiles[1].words = [0, 0, 0, 0, 0, 0, 0, 1];
    b.home.valid = 1;
    b.home.dirty = 1;
    b.home.words = DATA;
    b.home.directory = E;
    b.home.owner = 1;
    b
}

/// A bench after a change: refused 1 by every call, with nothing changed, if `well` is false.
#[track_caller]
fn judge(well: bool, base: fn() -> Bench, change: impl FnOnce(&mut Bench)) {
    let mut b = base();
    assert!(b.well_formed());
    change(&mut b);
    assert_eq!(b.well_formed(), well);
    if !well {
        for call in all_calls(99, 99) {
            let before = b.clone();
            let mut sent = vec![];
            assert_eq!(b.call(call, &mut sent), Answer { refusal: 1, kind: 0, value: 0 });
            assert!(b == before && sent.is_empty());
        }
    }
}

#[test]
fn ranges() {
    for t in [0, 2, 4, 64, 65, u64::MAX] {
        judge(false, rich, |b| b.tile_count = t);
    }
    for n in [2, u64::MAX] {
        judge(false, rich, |b| b.home.valid = n);
        judge(false, rich, |b| b.home.dirty = n);
    }
    judge(false, rich, |b| b.home.directory = 3);
    judge(false, rich, |b| b.home.owner = 3);
    judge(false, rich, |b| b.home.last_taken = 3);
    judge(true, rich, |b| b.home.last_taken = 0);
    judge(false, rich, |b| b.home.marks = 8);
    judge(true, rich, |b| b.home.marks = 7);
    judge(false, rich, |b| b.home.phase = 5);
    judge(false, rich, |b| b.tiles[0].state = 4);
    judge(false, rich, |b| b.tiles[2].wait = 3);
    judge(false, rich, |b| (b.tiles[2].wait, b.tiles[2].wait_word) = (WAIT_LOAD, 8));
    judge(false, rich, |b| (b.tiles[2].wait, b.tiles[2].wait_word) = (WAIT_STORE, 8));
    judge(true, rich, |b| (b.tiles[2].wait, b.tiles[2].wait_word) = (WAIT_STORE, 7));
    judge(true, || fresh(64), |b| b.home.marks = u64::MAX);
    judge(false, || fresh(63), |b| b.home.marks = u64::MAX);
    fn sharing() -> Bench {
        let mut b = rich();
        b.home.directory = S;
        b.home.owner = 0;
        b.home.sharers = 7;
        b
    }
    judge(true, sharing, |b| b.home.sharers = 0);
    judge(false, sharing, |b| b.home.sharers = 15);
    judge(true, sharing, |b| (b.home.phase, b.home.reason, b.home.owed) = (FOR_INVALIDATIONS, FOR_STORE, 5));
    judge(false, sharing, |b| (b.home.phase, b.home.reason, b.home.owed) = (FOR_INVALIDATIONS, FOR_STORE, 9));
}

#[test]
fn unused_places() {
    judge(false, rich, |b| b.tiles[2].words[7] = 1);
    judge(false, rich, |b| b.tiles[2].wait_word = 1);
    judge(false, rich, |b| b.tiles[2].wait_value = 1);
    judge(false, rich, |b| (b.tiles[2].wait, b.tiles[2].wait_value) = (WAIT_LOAD, 1));
    judge(true, rich, |b| (b.tiles[2].wait, b.tiles[2].wait_value) = (WAIT_STORE, 1));
    judge(false, rich, |b| b.home.sharers = 1);
    judge(false, rich, |b| b.home.directory = I);
    judge(true, rich, |b| (b.home.directory, b.home.owner) = (I, 0));
    judge(false, rich, |b| b.home.owed = 1);
    judge(false, rich, |b| b.home.requester = 1);
    judge(false, rich, |b| b.home.reason = FOR_LOAD);
    judge(false, rich, |b| (b.home.phase, b.home.reason, b.home.requester) = (FOR_OWNER, FOR_EVICTION, 1));
    judge(false, rich, |b| b.tiles[1].noc2.slots[1].data[3] = 1);
    judge(false, rich, |b| b.tiles[1].noc2.slots[0].kind = 16);
    judge(false, rich, |b| b.to_memory.slots[1].word = 1);
    // No line: directory I, not dirty, words 0.
    judge(false, || fresh(3), |b| b.home.words[0] = 1);
    judge(false, || fresh(3), |b| b.home.dirty = 1);
    judge(false, || fresh(3), |b| b.home.directory = S);
    judge(false, || fresh(3), |b| b.home.directory = E);
}

#[test]
fn waits_of_the_home() {
    let directories: [(u64, fn(&mut Bench)); 4] = [
        (0, |b| b.home = Home { last_taken: 2, ..Home::default() }),
        (1, |b| (b.home.directory, b.home.owner) = (I, 0)),
        (2, |b| (b.home.directory, b.home.owner, b.home.sharers) = (S, 0, 3)),
        (3, |_| ()),
    ];
    for (directory, set) in directories {
        for phase in 0..6 {
            for reason in 0..5 {
                for requester in 0..4 {
                    let request = reason == FOR_LOAD || reason == FOR_STORE;
                    let eviction = reason == FOR_EVICTION;
                    let well = match phase {
                        IDLE => reason == NO_REASON,
                        FOR_MEMORY_LOAD => request,
                        FOR_OWNER => directory == 3 && (request || eviction),
                        FOR_INVALIDATIONS => directory == 2 && (reason == FOR_STORE || eviction),
                        FOR_MEMORY_STORE => eviction,
                        _ => false,
                    } && requester < if request { 3 } else { 1 };
                    judge(well, rich, |b| {
                        set(b);
                        (b.home.phase, b.home.reason, b.home.requester) = (phase, reason, requester);
                    });
                }
            }
        }
    }
}

#[test]
fn messages_on_their_ways() {
    let ways: [(fn(usize) -> Way, &[u64]); 5] = [
        (Way::Noc1, &[31, 2, 13]),
        (Way::Noc2, &[16, 17, 18, 29]),
        (Way::Noc3, &[12, 21, 22, 23]),
        (|_| Way::ToMemory, &[19, 20]),
        (|_| Way::FromMemory, &[24, 25]),
    ];
    for (way, carried) in ways {
        for kind in (0..40).chain([256 + 31, u64::MAX]) {
            for has_data in 0..3 {
                for state in 0..5 {
                    for miss in 0..3 {
                        for word in [0, 1, 7, 8] {
                            let m = Message { kind, word, state, miss, has_data, data: [0; 8] };
                            let request = kind == 31 || kind == 2;
                            let data_fits = match kind {
                                12 | 20 | 24 | 29 => has_data == 1,
                                21 | 22 => has_data < 2,
                                _ => has_data == 0,
                            };
                            let state_fits = match kind {
                                21 => state == 1 || (state == 0 && has_data == 0),
                                29 => (1..=3).contains(&state),
                                _ => state == 0,
                            };
                            let well = carried.contains(&kind)
                                && data_fits
                                && state_fits
                                && miss < if kind == 29 { 2 } else { 1 }
                                && word < if request { 8 } else { 1 };
                            let mut b = rich();
                            b.queue_mut(way(1)).push(m);
                            assert_eq!(b.well_formed(), well, "{m:?}");
                            if well {
                                let q = b.queue_mut(way(1));
                                q.push(m);
                                assert!(b.well_formed());
                                b.queue_mut(way(1)).slots[1].data[7] = 1;
                                assert_eq!(b.well_formed(), has_data == 1);
                                b.queue_mut(way(1)).slots[1].data[7] = 0;
                                b.queue_mut(way(1)).count = 3;
                                assert!(!b.well_formed());
                            }
                        }
                    }
                }
            }
        }
    }
}

/// The call's refusal; a refused call changes nothing.
#[track_caller]
fn refusal(b: &Bench, call: Call) -> u64 {
    assert!(b.well_formed(), "{b:?}");
    let mut after = b.clone();
    let mut sent = vec![];
    let answer = after.call(call, &mut sent);
    if answer.refusal != 0 {
        assert_eq!((answer.kind, answer.value), (0, 0));
        assert!(after == *b && sent.is_empty());
    } else {
        assert!(after.well_formed(), "{call:?} on {b:?} gives {after:?}");
    }
    answer.refusal
}

#[test]
fn tiles_and_words_out_of_range() {
    for tiles in [1, 2, 64] {
        let b = fresh(tiles);
        for tile in [tiles, 64, 255, u64::MAX] {
            for call in all_calls(tile, 8) {
                let expected = match call {
                    Call::Arbitrate | Call::MemoryStep | Call::MemoryAck => 7,
                    Call::HomeEviction => 5,
                    _ => 2,
                };
                assert_eq!(refusal(&b, call), expected);
            }
        }
        for word in [8, 255, u64::MAX] {
            assert_eq!(refusal(&b, Call::Load { tile: 0, word }), 3);
            assert_eq!(refusal(&b, Call::Store { tile: 0, word, value: 0 }), 3);
        }
    }
    // 3 before 4.
    let mut b = fresh(1);
    b.tiles[0].wait = WAIT_LOAD;
    assert_eq!(refusal(&b, Call::Load { tile: 0, word: 8 }), 3);
    assert_eq!(refusal(&b, Call::Load { tile: 0, word: 7 }), 4);
    // A tile that waits loads nothing, though it holds the line; 4 before 9.
    b.tiles[0].state = S;
    assert_eq!(refusal(&b, Call::Load { tile: 0, word: 7 }), 4);
    b.tiles[0].state = I;
    b.tiles[0].noc1 = queue(&[plain(LOAD_REQ), plain(LOAD_REQ)]);
    assert_eq!(refusal(&b, Call::Store { tile: 0, word: 7, value: 1 }), 4);
    b.tiles[0].wait = NO_WAIT;
    assert_eq!(refusal(&b, Call::Store { tile: 0, word: 7, value: 1 }), 9);
    assert_eq!(refusal(&b, Call::Load { tile: 0, word: 7 }), 9);
}

#[test]
fn evictions_of_a_tile() {
    let mut b = rich();
    assert_eq!(refusal(&b, Call::Evict { tile: 2 }), 5);
    b.tiles[2].noc1 = queue(&[plain(LOAD_REQ), plain(LOAD_REQ)]);
    assert_eq!(refusal(&b, Call::Evict { tile: 2 }), 5);
    // A tile that waits may evict.
    b.tiles[1].wait = WAIT_STORE;
    assert_eq!(refusal(&b, Call::Evict { tile: 1 }), 0);
    b.tiles[0].noc3 = queue(&[plain(INV_FWDACK)]);
    b.tiles[0].noc1 = queue(&[plain(LOAD_REQ)]);
    assert_eq!(refusal(&b, Call::Evict { tile: 0 }), 0);
    b.tiles[0].noc3 = queue(&[plain(INV_FWDACK), plain(INV_FWDACK)]);
    assert_eq!(refusal(&b, Call::Evict { tile: 0 }), 9);
    b.tiles[0].noc3 = Queue::default();
    b.tiles[0].noc1 = queue(&[plain(LOAD_REQ), plain(LOAD_REQ)]);
    assert_eq!(refusal(&b, Call::Evict { tile: 0 }), 9);
}

/// A taking that finds no room takes nobody, and 6 and 7 come before 9.
#[test]
fn takings() {
    let two = queue(&[plain(INV_FWD), plain(INV_FWD)]);
    let one = queue(&[plain(INV_FWD)]);
    let request = |kind| queue(&[plain(kind)]);
    // No line.
    let mut b = fresh(3);
    b.tiles[1].noc1 = request(LOAD_REQ);
    b.to_memory = queue(&[plain(LOAD_MEM), plain(LOAD_MEM)]);
    assert_eq!(refusal(&b, Call::Arbitrate), 9);
    b.to_memory.pop();
    assert_eq!(refusal(&b, Call::Arbitrate), 0);
    // A guard without its mark is not taken.
    b.tiles[1].noc1 = request(WBGUARD_REQ);
    assert_eq!(refusal(&b, Call::Arbitrate), 7);
    b.home.marks = 2;
    assert_eq!(refusal(&b, Call::Arbitrate), 0);
    (b.home.phase, b.home.reason) = (FOR_MEMORY_STORE, FOR_EVICTION);
    assert_eq!(refusal(&b, Call::Arbitrate), 6);
    assert_eq!(refusal(&b, Call::HomeEviction), 6);
    // Grants and forwards.
    for kind in [LOAD_REQ, STORE_REQ] {
        let mut b = rich();
        (b.home.directory, b.home.owner) = (I, 0);
        b.tiles[2].noc1 = request(kind);
        b.tiles[2].noc2 = one;
        assert_eq!(refusal(&b, Call::Arbitrate), 0);
        b.tiles[2].noc2 = two;
        assert_eq!(refusal(&b, Call::Arbitrate), 9);
        // The owner is asked: its way counts, not the requester's.
        (b.home.directory, b.home.owner) = (E, 1);
        assert_eq!(refusal(&b, Call::Arbitrate), 0);
        b.tiles[1].noc2 = two;
        assert_eq!(refusal(&b, Call::Arbitrate), 9);
        // The owner itself.
        (b.home.directory, b.home.owner) = (E, 2);
        assert_eq!(refusal(&b, Call::Arbitrate), 9);
        b.tiles[2].noc2 = one;
        assert_eq!(refusal(&b, Call::Arbitrate), 0);
    }
    let mut b = rich();
    (b.home.directory, b.home.owner, b.home.sharers) = (S, 0, 0b111);
    b.tiles[2].noc1 = request(STORE_REQ);
    b.tiles[2].noc2 = two;
    assert_eq!(refusal(&b, Call::Arbitrate), 0);
    b.tiles[1].noc2 = two;
    assert_eq!(refusal(&b, Call::Arbitrate), 9);
    b.home.sharers = 0b101;
    assert_eq!(refusal(&b, Call::Arbitrate), 0);
    assert_eq!(refusal(&b, Call::HomeEviction), 9);
    b.home.sharers = 0b100;
    assert_eq!(refusal(&b, Call::Arbitrate), 9);
}

#[test]
fn deliveries_to_a_tile() {
    for tile_state in [I, S, E, M] {
        for wait in [NO_WAIT, WAIT_LOAD, WAIT_STORE] {
            for m in [
                state(S, full(DATA_ACK)),
                state(E, full(DATA_ACK)),
                state(M, full(DATA_ACK)),
                plain(LOAD_FWD),
                plain(STORE_FWD),
                plain(INV_FWD),
            ] {
                let mut b = fresh(2);
                let t = &mut b.tiles[1];
                t.state = tile_state;
                t.wait = wait;
                t.noc2 = queue(&[m]);
                let fits = match (m.kind, m.state) {
                    (DATA_ACK, S | E) => tile_state == I && wait == WAIT_LOAD,
                    (DATA_ACK, _) => tile_state <= S && wait == WAIT_STORE,
                    (INV_FWD, _) => tile_state <= S,
                    _ => tile_state != S,
                };
                let call = Call::ToTile { tile: 1 };
                assert_eq!(refusal(&b, call), if fits { 0 } else { 8 });
                assert_eq!(refusal(&b, Call::ToTile { tile: 0 }), 7);
                b.tiles[1].noc3 = queue(&[plain(INV_FWDACK), plain(INV_FWDACK)]);
                let acked = m.kind != DATA_ACK;
                assert_eq!(
                    refusal(&b, call),
                    if !fits {
                        8
                    } else if acked {
                        9
                    } else {
                        0
                    }
                );
            }
        }
    }
}

/// Every phase, reason, owner, requester, marks and owed tiles against every message of NoC3.
#[test]
fn deliveries_from_a_tile() {
    let acks = replies(full);
    let mut fitted = 0;
    for m in acks {
        for directory in [I, S, E] {
            for (phase, reason) in (0..5).flat_map(|p| (0..4).map(move |r| (p, r))) {
                for bits in 0..64u64 {
                    let mut b = fresh(2);
                    b.home.valid = 1;
                    b.home.words = [3; 8];
                    b.home.directory = directory;
                    b.home.owner = if directory == E { bits & 1 } else { 0 };
                    b.home.sharers = if directory == S { bits & 3 } else { 0 };
                    (b.home.phase, b.home.reason) = (phase, reason);
                    b.home.marks = bits >> 1 & 3;
                    b.home.owed = if phase == FOR_INVALIDATIONS { bits >> 3 & 3 } else { 0 };
                    b.home.requester = if reason == FOR_LOAD || reason == FOR_STORE { bits >> 4 & 1 } else { 0 };
                    b.home.dirty = bits >> 5;
                    b.tiles[1].noc3 = queue(&[m]);
                    if !b.well_formed() {
                        continue;
                    }
                    let h = b.home;
                    let owns = directory == E && h.owner == 1;
                    let fits = match m.kind {
                        WB_REQ => owns && h.marks & 2 == 0 && (phase == IDLE || phase == FOR_OWNER),
                        LOAD_FWDACK => phase == FOR_OWNER && owns && reason == FOR_LOAD,
                        STORE_FWDACK => phase == FOR_OWNER && owns && reason != FOR_LOAD,
                        _ => phase == FOR_INVALIDATIONS && h.owed & 2 != 0,
                    };
                    let call = Call::FromTile { tile: 1 };
                    assert_eq!(refusal(&b, call), if fits { 0 } else { 8 });
                    if !fits {
                        continue;
                    }
                    fitted += 1;
                    let mut after = b.clone();
                    let mut sent = vec![];
                    let answer = after.step(call, &mut sent);
                    // 9 exactly where the way that took the message was full.
                    for (n, s) in sent.iter().enumerate() {
                        assert_eq!(n, 0);
                        let mut no_room = b.clone();
                        let filler = if s.way == Way::ToMemory { plain(LOAD_MEM) } else { plain(INV_FWD) };
                        *no_room.queue_mut(s.way) = queue(&[filler, filler]);
                        assert_eq!(refusal(&no_room, call), 9);
                        no_room.queue_mut(s.way).pop();
                        assert_eq!(refusal(&no_room, call), 0);
                    }
                    // The home after it.
                    let a = after.home;
                    let data = m.has_data == 1;
                    assert_eq!(a.last_taken, h.last_taken);
                    if m.kind == WB_REQ {
                        assert_eq!((a.words, a.dirty, a.marks), (DATA, 1, h.marks | 2));
                        assert_eq!((answer.kind, sent.len()), (0, 0));
                        assert_eq!(a.directory, if phase == IDLE { I } else { E });
                        assert_eq!((a.phase, a.reason, a.requester), (h.phase, h.reason, h.requester));
                        continue;
                    }
                    assert_eq!(a.marks, h.marks);
                    if m.kind == INV_FWDACK && h.owed != 2 {
                        assert_eq!(a, Home { owed: h.owed & !2, ..h });
                        assert_eq!((answer.kind, sent.len()), (0, 0));
                        continue;
                    }
                    let dirty = h.dirty == 1 || data;
                    let words = if data { DATA } else { [3; 8] };
                    if reason == FOR_EVICTION {
                        let expected = Home { last_taken: 1, marks: h.marks, ..Home::default() };
                        if dirty {
                            let wait = (FOR_MEMORY_STORE, FOR_EVICTION);
                            assert_eq!(
                                a,
                                Home { valid: 1, dirty: 1, words, phase: wait.0, reason: wait.1, ..expected }
                            );
                            assert_eq!((sent[0].way, sent[0].message.data), (Way::ToMemory, words));
                        } else {
                            assert_eq!(a, expected);
                        }
                        assert_eq!(answer.kind, if dirty { 3 } else { 0 });
                    } else {
                        let granted = match (m.kind, m.state) {
                            (LOAD_FWDACK, S) => S,
                            (LOAD_FWDACK, _) => E,
                            _ => M,
                        };
                        let message = Message { state: granted, has_data: 1, data: words, ..plain(DATA_ACK) };
                        assert_eq!(sent, [Sent { way: Way::Noc2(h.requester as usize), message }]);
                        let (directory, owner, sharers) =
                            if granted == S { (S, 0, 2 | 1 << h.requester) } else { (E, h.requester, 0) };
                        let held = Home { valid: 1, dirty: dirty as u64, words, last_taken: 1, ..Home::default() };
                        assert_eq!(a, Home { directory, owner, sharers, marks: h.marks, ..held });
                        assert_eq!(answer.kind, 3);
                    }
                }
            }
        }
    }
    assert!(fitted > 200);
}

#[test]
fn memory() {
    let mut b = rich();
    assert_eq!(refusal(&b, Call::MemoryStep), 7);
    assert_eq!(refusal(&b, Call::MemoryAck), 7);
    b.to_memory = queue(&[full(STORE_MEM)]);
    b.from_memory = queue(&[plain(STORE_MEM_ACK), full(LOAD_MEM_ACK)]);
    assert_eq!(refusal(&b, Call::MemoryStep), 9);
    assert_eq!(refusal(&b, Call::MemoryAck), 8);
    (b.home.phase, b.home.reason) = (FOR_MEMORY_STORE, FOR_EVICTION);
    assert_eq!(refusal(&b, Call::MemoryAck), 0);
    // A line that is dropped takes all of its directory with it, whatever it was.
    let mut after = b.clone();
    after.step(Call::MemoryAck, &mut vec![]);
    assert_eq!(after.home, Home { last_taken: 2, ..Home::default() });
    b.from_memory.pop();
    assert_eq!(refusal(&b, Call::MemoryAck), 8);
    (b.home.phase, b.home.reason, b.home.requester) = (FOR_MEMORY_LOAD, FOR_STORE, 2);
    b.tiles[2].noc2 = queue(&[plain(INV_FWD), plain(INV_FWD)]);
    assert_eq!(refusal(&b, Call::MemoryAck), 9);
    b.tiles[2].noc2.pop();
    let mut sent = vec![];
    assert_eq!(b.call(Call::MemoryAck, &mut sent), Answer { refusal: 0, kind: 3, value: 0 });
    let grant = Message { state: M, miss: 1, ..full(DATA_ACK) };
    assert_eq!(sent, [Sent { way: Way::Noc2(2), message: grant }]);
    let home = Home { valid: 1, words: DATA, directory: E, owner: 2, last_taken: 2, ..Home::default() };
    assert_eq!(b.home, home);
    assert_eq!(b.call(Call::MemoryStep, &mut sent), Answer { refusal: 0, kind: 3, value: 0 });
    assert_eq!(b.memory, DATA);
}

#[test]
fn evictions_at_home() {
    let mut b = rich();
    // 6 before 5.
    let mut empty = fresh(1);
    assert_eq!(refusal(&empty, Call::HomeEviction), 5);
    (empty.home.phase, empty.home.reason) = (FOR_MEMORY_LOAD, FOR_LOAD);
    assert_eq!(refusal(&empty, Call::HomeEviction), 6);
    b.tiles[1].noc2 = queue(&[plain(INV_FWD), plain(INV_FWD)]);
    assert_eq!(refusal(&b, Call::HomeEviction), 9);
    // Directory I, and S with an empty mask: to memory if dirty, else dropped.
    for directory in [I, S] {
        let mut b = rich();
        (b.home.directory, b.home.owner) = (directory, 0);
        b.to_memory = queue(&[plain(LOAD_MEM), plain(LOAD_MEM)]);
        assert_eq!(refusal(&b, Call::HomeEviction), 9);
        let mut clean = b.clone();
        clean.home.dirty = 0;
        assert_eq!(clean.call(Call::HomeEviction, &mut vec![]), Answer::default());
        assert_eq!(clean.home, Home { last_taken: 2, ..Home::default() });
        b.to_memory.pop();
        let mut sent = vec![];
        assert_eq!(b.call(Call::HomeEviction, &mut sent), Answer { refusal: 0, kind: 3, value: 0 });
        assert_eq!(sent, [Sent { way: Way::ToMemory, message: full(STORE_MEM) }]);
        assert_eq!((b.home.directory, b.home.phase, b.home.reason), (I, FOR_MEMORY_STORE, FOR_EVICTION));
    }
}
