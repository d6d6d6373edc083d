//! The model against what 01 and demand 3 say of every list of calls from fresh: all reachable benches of one and two
//! tiles, and long random runs of up to 64.

use model::bench::*;
use model::flits::*;
use model::random::Random;
use model::steps::*;
use std::collections::HashMap;

/// A bench and what the history adds: the word 0 last stored, and for each tile how often its front request was passed
/// over.
#[derive(Clone)]
struct State {
    bench: Bench,
    last: u64,
    passed: Vec<u64>,
}

fn fresh(tiles: u64, memory: [u64; 8]) -> State {
    State { bench: Bench::start(tiles, memory).unwrap(), last: memory[0], passed: vec![0; tiles as usize] }
}

fn deliveries(tiles: u64) -> Vec<Call> {
    let mut calls = vec![Call::Arbitrate, Call::MemoryStep, Call::MemoryAck];
    for tile in 0..tiles {
        calls.push(Call::ToTile { tile });
        calls.push(Call::FromTile { tile });
    }
    calls
}

fn has_request(bench: &Bench, t: usize) -> bool {
    bench.tiles[t].noc1.front().is_some_and(|m| m.kind != WBGUARD_REQ)
}

/// Makes the call (on word 0 where it has a word) and tests all that must hold of one call and of the bench after it.
fn step(s: &mut State, call: Call) -> Answer {
    let before = s.bench.clone();
    let mut sent = Vec::new();
    let answer = s.bench.call(call, &mut sent);
    assert!(![1, 8, 9].contains(&answer.refusal), "{call:?} refused {} on {before:?}", answer.refusal);
    if answer.refusal != 0 {
        assert_eq!(s.bench, before, "a refused call wrote");
        assert_eq!((answer.kind, answer.value, sent.len()), (0, 0, 0));
        return answer;
    }
    assert!(s.bench.well_formed(), "{call:?} on {before:?}");
    assert_eq!(answer.kind == 3, !sent.is_empty());
    // Each load answers the word last stored.
    if answer.kind == 1 {
        assert_eq!(answer.value, s.last, "{call:?} on {before:?}");
    }
    if answer.kind == 2 {
        s.last = match call {
            Call::Store { value, .. } => value,
            Call::ToTile { tile } => before.tiles[tile as usize].wait_value,
            _ => unreachable!(),
        };
    }
    if call == Call::Arbitrate {
        for t in 0..s.passed.len() {
            if t as u64 == answer.value {
                s.passed[t] = 0;
            } else if has_request(&before, t) {
                s.passed[t] += 1;
                assert!(s.passed[t] < before.tile_count, "passed over too often: {before:?}");
            }
        }
    } else if !matches!(call, Call::Load { .. }) {
        assert_eq!(answer.value, if answer.kind == 1 { s.last } else { 0 });
    }
    one_writer(&s.bench);
    answer
}

/// At most one tile in E or M, and then no other holds the line; the directory names every tile that holds it.
fn one_writer(b: &Bench) {
    let holders = b.tiles.iter().filter(|t| t.state != I).count();
    let writers = b.tiles.iter().filter(|t| t.state >= E).count();
    assert!(writers == 0 || holders == 1, "{b:?}");
    for (t, tile) in b.tiles.iter().enumerate() {
        let named = match b.home.directory {
            S => b.home.sharers >> t & 1 == 1,
            E => b.home.owner == t as u64,
            _ => false,
        };
        assert!(tile.state == I || named, "{b:?}");
    }
}

fn at_rest(b: &Bench) -> bool {
    b.home.phase == IDLE
        && b.to_memory.count == 0
        && b.from_memory.count == 0
        && b.tiles.iter().all(|t| t.wait == NO_WAIT && t.noc1.count == 0 && t.noc2.count == 0 && t.noc3.count == 0)
}

/// Every place that the exploration uses, in one order, for packing a state into bytes and back.
fn places(s: &mut State, f: &mut impl FnMut(&mut u64)) {
    fn queue(q: &mut Queue, f: &mut impl FnMut(&mut u64)) {
        f(&mut q.count);
        for m in &mut q.slots {
            for place in [&mut m.kind, &mut m.word, &mut m.state, &mut m.miss, &mut m.has_data, &mut m.data[0]] {
                f(place);
            }
        }
    }
    let h = &mut s.bench.home;
    for place in [
        &mut h.valid,
        &mut h.dirty,
        &mut h.words[0],
        &mut h.directory,
        &mut h.sharers,
        &mut h.owner,
        &mut h.last_taken,
        &mut h.marks,
        &mut h.phase,
        &mut h.reason,
        &mut h.requester,
        &mut h.owed,
        &mut s.bench.memory[0],
        &mut s.last,
    ] {
        f(place);
    }
    queue(&mut s.bench.to_memory, f);
    queue(&mut s.bench.from_memory, f);
    for t in &mut s.bench.tiles {
        for place in [&mut t.state, &mut t.wait, &mut t.wait_word, &mut t.wait_value, &mut t.words[0]] {
            f(place);
        }
        queue(&mut t.noc1, f);
        queue(&mut t.noc2, f);
        queue(&mut t.noc3, f);
    }
    for p in &mut s.passed {
        f(p);
    }
}

/// One byte a place: an exploration meets no larger number.
fn pack(s: &State) -> Box<[u8]> {
    let mut s = s.clone();
    let mut out = Vec::new();
    places(&mut s, &mut |p| {
        assert!(*p < 256);
        out.push(*p as u8);
    });
    out.into_boxed_slice()
}

fn unpack(tiles: u64, bytes: &[u8]) -> State {
    let mut s = fresh(tiles, [0; 8]);
    let mut next = bytes.iter();
    places(&mut s, &mut |p| *p = *next.next().unwrap() as u64);
    s
}

/// Visits every bench that calls on word 0 with these values to store reach, and gives their number and the longest
/// list of accepted deliveries.
fn explore(tiles: u64, values: &[u64]) -> (usize, u32) {
    let mut calls = vec![Call::HomeEviction];
    for tile in 0..tiles {
        calls.push(Call::Load { tile, word: 0 });
        calls.push(Call::Evict { tile });
        calls.extend(values.iter().map(|&value| Call::Store { tile, word: 0, value }));
    }
    let deliveries = deliveries(tiles);
    let start = pack(&fresh(tiles, [0; 8]));
    let mut number: HashMap<Box<[u8]>, u32> = HashMap::from([(start.clone(), 0)]);
    let mut todo = vec![start];
    // The states that an accepted delivery leads to, for each state.
    let mut delivered: Vec<Vec<u32>> = vec![vec![]];
    while let Some(bytes) = todo.pop() {
        let here = number[&bytes];
        let state = unpack(tiles, &bytes);
        let mut after_delivery = Vec::new();
        for (i, &call) in calls.iter().chain(&deliveries).enumerate() {
            let mut next = state.clone();
            if step(&mut next, call).refusal != 0 {
                continue;
            }
            let key = pack(&next);
            let there = match number.get(&key) {
                Some(&n) => n,
                None => {
                    let n = number.len() as u32;
                    number.insert(key.clone(), n);
                    delivered.push(vec![]);
                    todo.push(key);
                    n
                }
            };
            if i >= calls.len() {
                after_delivery.push(there);
            }
        }
        // A tile that waits means that some delivery is accepted; none is accepted only at rest.
        assert!(!after_delivery.is_empty() || at_rest(&state.bench), "stuck: {:?}", state.bench);
        delivered[here as usize] = after_delivery;
    }
    let mut longest = vec![u32::MAX; delivered.len()];
    for from in 0..delivered.len() {
        // Depth first; `open` marks what is on the path, and meeting it again would be an endless list.
        let open = u32::MAX - 1;
        let mut path = vec![(from, 0)];
        while let Some((at, child)) = path.pop() {
            if longest[at] < open {
                continue;
            }
            longest[at] = open;
            match delivered[at].get(child) {
                Some(&next) => {
                    path.push((at, child + 1));
                    assert!(longest[next as usize] != open, "deliveries go round");
                    if longest[next as usize] == u32::MAX {
                        path.push((next as usize, 0));
                    }
                }
                None => longest[at] = delivered[at].iter().map(|&n| longest[n as usize] + 1).max().unwrap_or(0),
            }
        }
    }
    (delivered.len(), longest.into_iter().max().unwrap())
}

fn bound(tiles: u64) -> u32 {
    ((tiles + 1) * (2 * tiles + 3)) as u32
}

#[test]
fn all_benches_of_one_tile() {
    let (states, longest) = explore(1, &[0, 1]);
    println!("1 tile: {states} states, longest {longest}, bound {}", bound(1));
    assert!(longest <= bound(1));
}

#[test]
fn all_benches_of_two_tiles() {
    let (states, longest) = explore(2, &[0, 1]);
    println!("2 tiles: {states} states, longest {longest}, bound {}", bound(2));
    assert!(longest <= bound(2));
}

/// Without a second value to store, so without the test that loads answer the last one.
#[test]
fn all_benches_of_three_tiles() {
    let (states, longest) = explore(3, &[0]);
    println!("3 tiles: {states} states, longest {longest}, bound {}", bound(3));
    assert!(longest <= bound(3));
}

/// The same with the values, on demand: `cargo test --offline -- --ignored`.
#[test]
#[ignore]
fn all_benches_of_three_tiles_with_values() {
    let (states, longest) = explore(3, &[0, 1]);
    println!("3 tiles: {states} states, longest {longest}, bound {}", bound(3));
    assert!(longest <= bound(3));
}

/// A tile whose way holds a message, if there is one.
fn busy(r: &mut Random, b: &Bench, way: fn(usize) -> Way) -> u64 {
    let start = r.below(b.tile_count) as usize;
    let mut circle = (start..b.tiles.len()).chain(0..start);
    circle.find(|&t| b.queue(way(t)).count > 0).unwrap_or(start) as u64
}

/// A random call: on word 0 of a tile of the bench, and now and then one with a tile or a word out of range.
fn random_call(r: &mut Random, b: &Bench) -> Call {
    let tiles = b.tile_count;
    let tile = r.below(tiles);
    match r.below(100) {
        0..=12 => Call::Load { tile, word: 0 },
        13..=24 => Call::Store { tile, word: 0, value: r.next() },
        25..=31 => Call::Evict { tile },
        32..=49 => Call::Arbitrate,
        50..=67 => Call::ToTile { tile: busy(r, b, Way::Noc2) },
        68..=82 => Call::FromTile { tile: busy(r, b, Way::Noc3) },
        83..=88 => Call::MemoryStep,
        89..=94 => Call::MemoryAck,
        95..=96 => Call::HomeEviction,
        97 => Call::Load { tile: tiles + r.below(9), word: r.below(10) },
        98 => Call::Store { tile: r.below(70), word: 8 + r.below(300), value: 1 },
        _ => Call::Evict { tile: tiles + r.below(3) },
    }
}

/// Makes deliveries in random order until none is accepted, and tests how many there were.
fn drain(s: &mut State, r: &mut Random) {
    let tiles = s.bench.tile_count;
    let mut accepted = 0;
    loop {
        let mut calls = deliveries(tiles);
        let mut moved = false;
        while !calls.is_empty() {
            let call = calls.swap_remove(r.below(calls.len() as u64) as usize);
            if step(s, call).refusal == 0 {
                accepted += 1;
                moved = true;
            }
        }
        if !moved {
            break;
        }
    }
    assert!(accepted <= bound(tiles));
    assert!(at_rest(&s.bench), "{:?}", s.bench);
}

#[test]
fn random_runs() {
    let mut r = Random(5);
    let mut accepted = 0u64;
    for tiles in [1, 2, 3, 4, 5, 7, 8, 9, 16, 33, 63, 64] {
        for _ in 0..2 {
            let memory = std::array::from_fn(|_| r.next());
            let mut s = fresh(tiles, memory);
            for _ in 0..4 {
                for _ in 0..1_000 {
                    let call = random_call(&mut r, &s.bench);
                    accepted += (step(&mut s, call).refusal == 0) as u64;
                }
                drain(&mut s, &mut r);
                assert_eq!(s.bench.memory[1..], memory[1..]);
            }
        }
    }
    assert!(accepted > 20_000);
}
