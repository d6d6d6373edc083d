//! `benchmark [ROUNDS]`: the archive of the proved crates against Rust written by hand for speed (tight.rs for flits, inplace.rs and
//! listing.rs for benches and jobs), both built for release, in one run; the model's time stands beside them. The sides take turns on
//! the same inputs; each number is the median over the rounds. A ratio is the reference's speed by Rust's: 1 is as fast.
//! All that is measured has its turn in each of nine passes, so that a busy second of the machine is in few rounds of each.

use differential::calls::{named_message, next_call, Style};
use differential::flits::{model_read, of_words, to_words};
use differential::reference::Named;
use differential::{inplace, listing, reference, tight};
use model::bench::Bench;
use model::job::{self, Job};
use model::messages;
use model::random::Random;
use model::samples::{any_bench, any_fields, any_words, TYPES};
use model::steps::Call;
use model::words::{self, need};
use std::hint::black_box;

extern "C" {
    fn clock_gettime(clock: i32, time: *mut [i64; 2]) -> i32;
}

/// Nanoseconds that this thread has run: others on the machine do not count.
fn clock() -> f64 {
    const THREAD_CPU_TIME: i32 = 3;
    let mut time = [0; 2];
    assert_eq!(unsafe { clock_gettime(THREAD_CPU_TIME, &mut time) }, 0);
    time[0] as f64 * 1e9 + time[1] as f64
}

/// Nanoseconds of one round.
fn time(side: &mut dyn FnMut()) -> f64 {
    let began = clock();
    side();
    clock() - began
}

fn median(mut list: Vec<f64>) -> f64 {
    list.sort_by(f64::total_cmp);
    list[list.len() / 2]
}

/// Nanoseconds by item of each round, by side.
struct Times(Vec<Vec<f64>>);

impl Times {
    fn ns(&self, side: usize) -> f64 {
        median(self.0[side].clone())
    }

    /// The median of the rounds' ratios: of the first side's speed by the second's.
    fn ratio(&self) -> f64 {
        median(self.0[0].iter().zip(&self.0[1]).map(|(reference, rust)| rust / reference).collect())
    }

    fn add(&mut self, more: Times) {
        for (side, times) in self.0.iter_mut().zip(more.0) {
            side.extend(times);
        }
    }
}

fn measure(rounds: usize, items: usize, sides: &mut [&mut dyn FnMut()]) -> Times {
    let mut times = vec![vec![]; sides.len()];
    for round in 0..=rounds {
        let count = sides.len();
        for i in 0..count {
            let side = (i + round) % count;
            let ns = time(sides[side]) / items as f64;
            // The first round warms up.
            if round > 0 {
                times[side].push(ns);
            }
        }
    }
    Times(times)
}

fn print(what: &str, t: &Times) {
    let more: Vec<String> = (2..t.0.len()).map(|side| format!("{:>10.1}", t.ns(side))).collect();
    println!("{what:<34} {:>10.1} {:>10.1} {:>7.2} {}", t.ns(0), t.ns(1), t.ratio(), more.join(" "));
}

/// Messages of a round, and the lists of them: one that a branch predictor learns, as it is walked again and again, and one that it
/// does not.
const MESSAGES: usize = 20_000;
const LISTS: [usize; 2] = [2_000, MESSAGES];

/// A message's fields, its data, and how many words of data it has.
type Message = ([u64; 18], [u64; 8], usize);

fn any_message(r: &mut Random) -> Message {
    let (fields, count) = any_fields(TYPES[r.below(16) as usize], r);
    (to_words(&fields), std::array::from_fn(|_| r.next()), count)
}

/// A recording of so many messages of every type.
fn recording(count: usize) -> Vec<u64> {
    let mut r = Random(1);
    let mut flits = vec![];
    for _ in 0..count {
        let (fields, data, count) = any_message(&mut r);
        let mut one = [0; 11];
        let used = model::flits::write(&mut one, 0, &of_words(&fields), &data[..count]).expect("accepted fields");
        flits.extend(&one[..used]);
    }
    flits
}

/// Reads a recording to its end, by a reader that gives the refusal number.
#[inline]
fn walk(flits: &[u64], count: usize, mut read: impl FnMut(u64, &mut [u64; 21]) -> u64) {
    let mut out = [0; 21];
    for _ in 0..MESSAGES / count {
        let mut at = 0;
        while read(at, &mut out) == 0 {
            at += black_box(&out)[1];
        }
        assert_eq!(at as usize, flits.len());
    }
}

fn read(rounds: usize, count: usize) -> Times {
    let flits = recording(count);
    let mut first = || walk(&flits, count, |at, out| reference::read(&flits, at, out));
    let mut second = || walk(&flits, count, |at, out| tight::read(&flits, at as usize, out));
    let mut third = || {
        walk(&flits, count, |at, out| {
            *out = model_read(&flits, at);
            out[0]
        })
    };
    measure(rounds, MESSAGES, &mut [&mut first, &mut second, &mut third])
}

/// A list of so many of these. They are few, so that all are near at hand and only their order is long.
fn any_order<T>(of: &[T], count: usize, r: &mut Random) -> Vec<u16> {
    (0..count).map(|_| r.below(of.len() as u64) as u16).collect()
}

/// Writes each of a list at some place of a buffer.
#[inline]
fn each<T>(
    all: &[T],
    order: &[u16],
    buffer: &mut [u64; 32],
    mut write: impl FnMut(&T, &mut [u64; 32], usize, &mut [u64; 2]) -> u64,
) {
    let mut out = [0; 2];
    for _ in 0..MESSAGES / order.len() {
        for (i, &next) in order.iter().enumerate() {
            assert_eq!(write(&all[next as usize], buffer, i % 16, &mut out), 0);
            black_box((&*buffer, &out));
        }
    }
}

fn reported(out: &mut [u64; 2], written: Result<usize, u64>) -> u64 {
    *out = written.map_or_else(|number| [number, 0], |used| [0, used as u64]);
    out[0]
}

fn write(rounds: usize, count: usize) -> Times {
    let mut r = Random(2);
    let all: Vec<Message> = (0..256).map(|_| any_message(&mut r)).collect();
    let order = any_order(&all, count, &mut r);
    let mut buffers = [[0; 32]; 3];
    let [a, b, c] = &mut buffers;
    let mut first = || {
        each(&all, &order, a, |(fields, data, count), buffer, at, out| {
            reference::write(buffer, at as u64, fields, &data[..*count], out)
        })
    };
    let mut second = || {
        each(&all, &order, b, |(fields, data, count), buffer, at, out| {
            tight::write(buffer, at, fields, &data[..*count], out)
        })
    };
    let mut third = || {
        each(&all, &order, c, |(fields, data, count), buffer, at, out| {
            reported(out, model::flits::write(buffer, at as u64, &of_words(fields), &data[..*count]))
        })
    };
    let times = measure(rounds, MESSAGES, &mut [&mut first, &mut second, &mut third]);
    assert!(buffers[0] == buffers[1] && buffers[1] == buffers[2]);
    times
}

/// The last messages of all queues of some benches, named as a call's answer names them.
fn sent_messages(r: &mut Random, benches: &mut Vec<(Bench, Vec<u64>)>) -> Vec<(usize, Named)> {
    let tiles = 8;
    let mut all = vec![];
    while benches.len() < 4 {
        let bench = any_bench(r, tiles);
        let of_tiles = (1..=3).flat_map(|sent| (0..tiles).map(move |tile| Named { sent, tiles: 1 << tile, i: 0 }));
        let of_memory = [4, 5].map(|sent| Named { sent, tiles: 0, i: 0 });
        let names: Vec<Named> =
            of_tiles.chain(of_memory).filter(|&named| named_message(&bench, named).is_some()).collect();
        // Not those with few messages.
        if names.len() >= 18 {
            all.extend(names.into_iter().map(|named| (benches.len(), named)));
            let words = words::encode(&bench);
            benches.push((bench, words));
        }
    }
    all
}

/// The flits of a message that a call sent.
fn sent(rounds: usize, count: usize) -> Times {
    let mut r = Random(3);
    let mut benches = vec![];
    let all = sent_messages(&mut r, &mut benches);
    let order = any_order(&all, count, &mut r);
    let line = 0x8000_1040;
    let mut buffers = [[0; 32]; 3];
    let [a, b, c] = &mut buffers;
    let mut first = || {
        each(&all, &order, a, |&(bench, named), buffer, at, out| {
            reference::message_flits(&benches[bench].1, named, line, buffer, at as u64, out)
        })
    };
    let mut second = || {
        each(&all, &order, b, |&(bench, named), buffer, at, out| {
            tight::message_flits(&benches[bench].1, named, line, buffer, at, out)
        })
    };
    let mut third = || {
        each(&all, &order, c, |&(bench, named), buffer, at, out| {
            let message = named_message(&benches[bench].0, named).expect("a message");
            reported(out, messages::write(&message, line, &mut buffer[at..]))
        })
    };
    let times = measure(rounds, MESSAGES, &mut [&mut first, &mut second, &mut third]);
    assert!(buffers[0] == buffers[1] && buffers[1] == buffers[2]);
    times
}

/// A list of calls that moves a bench on, some refused.
fn traffic(tiles: u64, count: usize) -> (Vec<Call>, [u64; 8]) {
    let mut r = Random(tiles);
    let memory = any_words(&mut r);
    let mut lent = vec![0; need(tiles)];
    words::start(&mut lent, tiles, memory);
    let mut style = Style::any(&mut r, tiles);
    let calls = (0..count)
        .map(|i| {
            if i % 200 == 0 {
                style = Style::any(&mut r, tiles);
            }
            let call = next_call(&lent, &style, &mut r);
            words::call(&mut lent, call);
            call
        })
        .collect();
    (calls, memory)
}

/// Calls at a tile count, by the reference, in place, and by the model of tests/model.
fn calls(rounds: usize, tiles: u64) -> Times {
    let (list, memory) = traffic(tiles, 2_000);
    let fresh = {
        let mut words = vec![0; need(tiles)];
        words::start(&mut words, tiles, memory);
        words
    };
    let mut lent = [fresh.clone(), fresh.clone(), fresh.clone()];
    let [a, b, c] = &mut lent;
    let mut out = [0; 5];
    let mut first = || {
        a.copy_from_slice(&fresh);
        for &call in &list {
            black_box(reference::call(a, call, &mut out));
        }
    };
    let mut answer = [0; 5];
    let mut second = || {
        b.copy_from_slice(&fresh);
        for &call in &list {
            black_box(inplace::call(b, call).put(&mut answer));
        }
    };
    let mut third = || {
        c.copy_from_slice(&fresh);
        for &call in &list {
            black_box(words::call(c, call));
        }
    };
    let times = measure(rounds, list.len(), &mut [&mut first, &mut second, &mut third]);
    assert!(lent[0] == lent[1] && lent[1] == lent[2]);
    times
}

/// The test of well-formedness alone, on a bench in traffic.
fn formed(rounds: usize, tiles: u64) -> Times {
    let (list, memory) = traffic(tiles, 1_000);
    let mut words = vec![0; need(tiles)];
    words::start(&mut words, tiles, memory);
    for call in list {
        words::call(&mut words, call);
    }
    let times = 500;
    let mut first = || (0..times).for_each(|_| assert_eq!(reference::well_formed(black_box(&words)), 1));
    let mut second = || (0..times).for_each(|_| assert!(inplace::well_formed(black_box(&words))));
    let mut third = || (0..times).for_each(|_| assert!(words::decode(black_box(&words)).is_ok()));
    measure(rounds, times, &mut [&mut first, &mut second, &mut third])
}

/// A whole job, bytes in, listing out; by call.
fn whole_job(rounds: usize, tiles: u64) -> Times {
    let (list, memory) = traffic(tiles, 2_000);
    let in_bytes = |call: &Call| match *call {
        Call::Load { tile, word } | Call::Store { tile, word, .. } => tile < 256 && word < 256,
        Call::Evict { tile } | Call::ToTile { tile } | Call::FromTile { tile } => tile < 256,
        _ => true,
    };
    let calls: Vec<Call> = list.into_iter().filter(in_bytes).collect();
    let count = calls.len();
    let bytes = job::bytes(&Job { tiles, line: 0x8000_1040, memory, calls });
    let (mut lent, mut other) = (vec![0; need(64)], vec![0; need(64)]);
    let mut text = vec![0; 65_536];
    let (mut one, mut two, mut three) = (vec![], vec![], String::new());
    let mut first = || reference::run_job(black_box(&bytes), &mut lent, &mut text, &mut one);
    let mut second = || listing::run(black_box(&bytes), &mut other, &mut two);
    let mut third = || three = job::run(black_box(&bytes));
    let times = measure(rounds, count, &mut [&mut first, &mut second, &mut third]);
    assert!(one == two && two == three.as_bytes());
    times
}

const COUNTS: [u64; 3] = [1, 8, 64];

/// All that is measured, once: flits in each list, then calls, the test and jobs at each tile count.
fn pass(rounds: usize) -> Vec<Times> {
    let mut list = vec![];
    for of in [read, write, sent] {
        list.extend(LISTS.map(|count| of(rounds, count)));
    }
    for at in [calls, formed, whole_job] {
        list.extend(COUNTS.map(|tiles| at(rounds, tiles)));
    }
    list
}

fn main() {
    let rounds = std::env::args().nth(1).map_or(9, |n| n.parse().expect("a number of rounds"));
    let mut all = pass(rounds);
    for _ in 1..9 {
        for (times, more) in all.iter_mut().zip(pass(rounds)) {
            times.add(more);
        }
    }
    println!("{:<34} {:>10} {:>10} {:>7} {:>10}", "ns (medians of the rounds)", "reference", "Rust", "ratio", "model");
    let (flits, rest) = all.split_at(3 * LISTS.len());
    let of_flits = ["a message read", "a message written", "a sent message's flits"];
    for (what, list) in of_flits.iter().zip(flits.chunks(LISTS.len())) {
        for (count, times) in LISTS.iter().zip(list) {
            print(&format!("{what}, of {count}"), times);
        }
    }
    let flit = recording(MESSAGES).len() as f64 / MESSAGES as f64;
    println!(
        "    flits read a second: {:.0} million, {:.0} million",
        1e3 * flit / flits[1].ns(0),
        1e3 * flit / flits[1].ns(1)
    );
    for (what, list) in ["a bench call", "well formed", "a job, by call"].iter().zip(rest.chunks(COUNTS.len())) {
        for (tiles, times) in COUNTS.iter().zip(list) {
            print(&format!("{what}, T = {tiles}"), times);
        }
        let per_tile = |side: usize| (list[2].ns(side) - list[0].ns(side)) / 63.0;
        println!("    for each tile more: {:.1}, {:.1}, {:.1}", per_tile(0), per_tile(1), per_tile(2));
    }
}
