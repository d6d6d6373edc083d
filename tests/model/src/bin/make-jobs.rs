//! `make-jobs DIR`: writes the jobs of crates/job_set that no text gives: refused ones, long ones, and made-up runs.

use model::bench::*;
use model::job::{self, Job};
use model::random::Random;
use model::steps::*;
use std::collections::{HashMap, HashSet, VecDeque};
use std::path::Path;

const LINE: u64 = 0x1234_5678_9A40;

fn main() {
    let Some(dir) = std::env::args_os().nth(1) else {
        eprintln!("use: make-jobs DIR");
        std::process::exit(2);
    };
    let save = |name: &str, bytes: &[u8]| {
        std::fs::write(Path::new(&dir).join(name), bytes).unwrap_or_else(|error| {
            eprintln!("make-jobs: {name}: {error}");
            std::process::exit(2);
        })
    };
    for (name, bytes) in refused() {
        save(&format!("{name}.job"), &bytes);
    }
    let longest = longest();
    save("longest.job", &longest);
    save("too-long.job", &[&longest[..], &[job::TAKING]].concat());
    save("no-calls.job", &header());
    save("tour.job", &made(3, tour(3)));
    save("all-share.job", &made(64, all_share()));
    for (tiles, calls) in [(1, 60), (2, 120), (8, 160), (64, 200)] {
        save(&format!("random-{tiles}.job"), &made(tiles, random_run(tiles, calls)));
    }
    save("cuts.job", &cuts());
}

fn memory() -> [u64; 8] {
    std::array::from_fn(|i| 0x0123_4567_89AB_CDEF_u64.rotate_left(8 * i as u32))
}

fn made(tiles: u64, calls: Vec<Call>) -> Vec<u8> {
    job::bytes(&Job { tiles, line: LINE, memory: memory(), calls })
}

/// The three header fields, 80 bytes.
fn header() -> Vec<u8> {
    made(2, vec![])
}

/// Each refusal of a job, and ties between two tests on one field, which the first in 01's order wins.
fn refused() -> Vec<(&'static str, Vec<u8>)> {
    let tiles = |n| job::tiles_field(n);
    let line = |n| job::line_field(n);
    let after = |more: &[u8]| [&header(), more].concat();
    vec![
        ("empty", vec![]),
        ("refused-20-head-one-byte", after(&[19, 0, 0, 19])),
        ("refused-20-head-two-bytes", after(&[19, 0, 0, 19, 0])),
        ("refused-20-head-before-21", after(&[255, 0])),
        ("refused-20-value", after(&[19, 0, 0, 17, 0, 10, 0, 0, 1, 2, 3, 4, 5, 6, 7])),
        ("refused-20-value-before-23", after(&[1, 0, 1])),
        ("refused-21-first", vec![0, 0, 0]),
        ("refused-21-last", after(&[19, 0, 0, 25, 0, 0])),
        ("refused-21-before-22", after(&[15, 255, 255])),
        ("refused-21-before-later", after(&[19, 0, 0, 4, 0, 1, 1, 1, 0, 1, 0])),
        ("refused-22-short", after(&[17, 0, 9, 0, 0, 0, 0, 0, 0, 0, 0, 0])),
        ("refused-22-long", after(&[19, 0, 1, 0])),
        ("refused-22-high-byte", after(&[16, 1, 2, 0, 0])),
        ("refused-22-before-20", after(&[18, 0, 200])),
        ("refused-22-before-23", after(&[1, 0, 2, 1, 1])),
        ("refused-23-call-first", vec![19, 0, 0]),
        ("refused-23-line-first", [line(0x40), tiles(1)].concat()),
        ("refused-23-before-24", [line(0x41), tiles(0)].concat()),
        ("refused-23-tiles-twice", [tiles(1), tiles(1)].concat()),
        ("refused-23-memory-second", [tiles(1), job::memory_field(&[0; 8]), line(0)].concat()),
        ("refused-23-call-third", [tiles(1), line(0), vec![22, 0, 0]].concat()),
        ("refused-23-tiles-last", after(&[22, 0, 0, 1, 0, 1, 2])),
        ("refused-23-line-last", after(&line(0))),
        ("refused-23-memory-last", after(&job::memory_field(&[0; 8]))),
        ("refused-23-no-line", tiles(64)),
        ("refused-23-no-memory", [tiles(1), line(0)].concat()),
        ("refused-24-no-tiles", [tiles(0), header()[4..].to_vec()].concat()),
        ("refused-24-65-tiles", [tiles(65), header()[4..].to_vec()].concat()),
        ("refused-24-255-tiles", tiles(255)),
        ("refused-24-line-bit-0", [tiles(1), line(1)].concat()),
        ("refused-24-line-bit-5", [tiles(1), line(0xFFFF_FFFF_FFE0)].concat()),
    ]
}

/// Exactly 65,536 bytes: 64 tiles, one of them in M after five calls, then stores that it makes alone.
fn longest() -> Vec<u8> {
    let tile = 40;
    let mut calls = vec![
        Call::Store { tile, word: 0, value: 1 },
        Call::Arbitrate,
        Call::MemoryStep,
        Call::MemoryAck,
        Call::ToTile { tile },
    ];
    let mut left = job::MAX_BYTES - made(64, calls.clone()).len();
    let mut push = |call| {
        left -= job::call_field(call).len();
        calls.push(call);
        left
    };
    let mut n = 0;
    while push(Call::Store { tile, word: n % 8, value: n }) >= 26 {
        n += 1;
    }
    let left = loop {
        let left = push(Call::MemoryStep);
        if left <= 5 {
            break left;
        }
    };
    match left {
        3 => push(Call::MemoryStep),
        4 => push(Call::Evict { tile }),
        _ => push(Call::Load { tile, word: 7 }),
    };
    let bytes = made(64, calls);
    assert_eq!(bytes.len(), job::MAX_BYTES);
    bytes
}

/// All deliveries, again and again in this order, until none is accepted; the accepted ones are kept.
fn settle(bench: &mut Bench, calls: &mut Vec<Call>) {
    loop {
        let mut moved = false;
        let tiles = 0..bench.tile_count;
        let to = tiles.clone().map(|tile| Call::ToTile { tile });
        let from = tiles.map(|tile| Call::FromTile { tile });
        for call in [Call::Arbitrate, Call::MemoryStep, Call::MemoryAck].into_iter().chain(to).chain(from) {
            if bench.call(call, &mut vec![]).refusal == 0 {
                calls.push(call);
                moved = true;
            }
        }
        if !moved {
            return;
        }
    }
}

/// 64 tiles load, the last one stores (63 invalidations), the first one loads again, the home evicts.
fn all_share() -> Vec<Call> {
    let mut bench = Bench::start(64, memory()).unwrap();
    let mut calls = vec![];
    let make = |call, calls: &mut Vec<Call>, bench: &mut Bench| {
        assert_eq!(bench.call(call, &mut vec![]).refusal, 0);
        calls.push(call);
    };
    for tile in 0..64 {
        make(Call::Load { tile, word: tile % 8 }, &mut calls, &mut bench);
    }
    settle(&mut bench, &mut calls);
    for call in [Call::Store { tile: 63, word: 7, value: 0x6363 }, Call::Load { tile: 0, word: 0 }] {
        make(call, &mut calls, &mut bench);
        settle(&mut bench, &mut calls);
    }
    make(Call::Load { tile: 0, word: 7 }, &mut calls, &mut bench);
    make(Call::HomeEviction, &mut calls, &mut bench);
    settle(&mut bench, &mut calls);
    calls
}

/// Random calls, most of them accepted.
fn random_run(tiles: u64, count: usize) -> Vec<Call> {
    let mut r = Random(tiles);
    let mut bench = Bench::start(tiles, memory()).unwrap();
    let mut calls = vec![];
    while calls.len() < count {
        let tile = if r.below(16) == 0 { r.below(256) } else { r.below(tiles) };
        let word = if r.below(16) == 0 { r.below(256) } else { r.below(8) };
        let call = match r.below(16) {
            0 | 1 => Call::Load { tile, word },
            2 | 3 => Call::Store { tile, word, value: r.next() },
            4 => Call::Evict { tile },
            5..=7 => Call::Arbitrate,
            8..=10 => Call::ToTile { tile },
            11 | 12 => Call::FromTile { tile },
            13 => Call::MemoryStep,
            14 => Call::MemoryAck,
            _ => Call::HomeEviction,
        };
        let accepted = bench.clone().call(call, &mut vec![]).refusal == 0;
        if accepted || r.below(tiles * 6) == 0 {
            bench.call(call, &mut vec![]);
            calls.push(call);
        }
    }
    calls
}

/// What of a bench decides a call's course, and its refusal. Two calls of one situation take the same clause of 01.
fn situation(b: &Bench, call: Call) -> Vec<u64> {
    let h = &b.home;
    let refusal = b.clone().step(call, &mut vec![]).refusal;
    let front = |q: &Queue| q.front().map_or([0; 3], |m| [m.kind, m.state, m.has_data]);
    let mut out = match call {
        Call::Load { tile, .. } => vec![0, b.tiles[tile as usize].state, b.tiles[tile as usize].wait],
        Call::Store { tile, .. } => vec![1, b.tiles[tile as usize].state, b.tiles[tile as usize].wait],
        Call::Evict { tile } => vec![2, b.tiles[tile as usize].state, b.tiles[tile as usize].wait],
        Call::Arbitrate => {
            let taken = b.clone().step(call, &mut vec![]).value;
            let message = front(&b.tiles[taken as usize].noc1);
            let shares = h.sharers >> taken & 1;
            if refusal == 0 {
                vec![3, message[0], h.valid, h.directory, (h.owner == taken) as u64, shares]
            } else {
                vec![3, h.phase]
            }
        }
        Call::ToTile { tile } => {
            let t = &b.tiles[tile as usize];
            [&[4, t.state, t.wait][..], &front(&t.noc2)].concat()
        }
        Call::FromTile { tile } => {
            let message = front(&b.tiles[tile as usize].noc3);
            let last = h.owed.count_ones() as u64;
            [&[5, h.phase, h.reason, h.dirty, last][..], &message].concat()
        }
        Call::MemoryStep => vec![6, b.to_memory.slots[0].kind],
        Call::MemoryAck => vec![7, b.from_memory.slots[0].kind, h.reason],
        Call::HomeEviction => vec![8, h.valid, h.directory, h.dirty, h.phase],
    };
    // A queue that is empty, and a tile that waits, refuse whatever else there is.
    if refusal == 7 || refusal == 4 {
        out.truncate(1);
    }
    out.push(refusal);
    out
}

/// One run that meets every situation that any run of so many tiles can meet: from where it stands it goes the shortest way
/// to one that it has not met yet.
fn tour(tiles: u64) -> Vec<Call> {
    let mut choices = vec![Call::Arbitrate, Call::MemoryStep, Call::MemoryAck, Call::HomeEviction];
    for tile in 0..tiles {
        choices.extend([
            Call::Load { tile, word: 0 },
            Call::Store { tile, word: 0, value: 0 },
            Call::Evict { tile },
            Call::ToTile { tile },
            Call::FromTile { tile },
        ]);
    }
    // Words and values decide nothing, so the search is made with zeros.
    let mut bench = Bench::start(tiles, [0; 8]).unwrap();
    let mut met: HashSet<Vec<u64>> = HashSet::new();
    let mut calls: Vec<Call> = vec![];
    'tour: loop {
        let mut came_by: HashMap<Bench, Option<(Bench, Call)>> = HashMap::from([(bench.clone(), None)]);
        let mut todo = VecDeque::from([bench.clone()]);
        while let Some(here) = todo.pop_front() {
            for &call in &choices {
                if !met.contains(&situation(&here, call)) {
                    let mut path = vec![call];
                    let mut at = here;
                    while let Some((before, call)) = came_by[&at].clone() {
                        path.push(call);
                        at = before;
                    }
                    for &call in path.iter().rev() {
                        met.insert(situation(&bench, call));
                        bench.step(call, &mut vec![]);
                        let n = calls.len() as u64;
                        calls.push(match call {
                            Call::Load { tile, .. } => Call::Load { tile, word: n % 8 },
                            Call::Store { tile, .. } => Call::Store { tile, word: n * 3 % 8, value: n << 48 | n },
                            other => other,
                        });
                    }
                    continue 'tour;
                }
                let mut next = here.clone();
                if next.step(call, &mut vec![]).refusal == 0 && !came_by.contains_key(&next) {
                    came_by.insert(next.clone(), Some((here.clone(), call)));
                    todo.push_back(next);
                }
            }
        }
        return calls;
    }
}

/// A job of a header and one store, of which every cut is tried.
fn cuts() -> Vec<u8> {
    made(2, vec![Call::Store { tile: 1, word: 2, value: 3 }])
}
