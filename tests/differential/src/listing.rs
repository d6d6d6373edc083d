//! The job runner over the bench in place (`inplace`): bytes in, listing out, into one buffer that is used again. The benchmark's
//! other side for jobs.

use crate::inplace;
use model::bench::{Message, Way};
use model::flits::*;
use model::job;
use model::messages::{self, MAX_FLITS};
use model::steps::{Call, Sent};
use model::words::tile_place;

fn put_decimal(out: &mut Vec<u8>, mut n: u64) {
    let mut digits = [0; 20];
    let mut at = digits.len();
    loop {
        at -= 1;
        digits[at] = b'0' + (n % 10) as u8;
        n /= 10;
        if n == 0 {
            break;
        }
    }
    out.extend_from_slice(&digits[at..]);
}

fn put_hex<const N: usize>(out: &mut Vec<u8>, n: u64) {
    let digits: [u8; N] = std::array::from_fn(|i| b"0123456789ABCDEF"[(n >> (4 * (N - 1 - i)) & 15) as usize]);
    out.extend_from_slice(&digits);
}

fn big(bytes: &[u8]) -> u64 {
    bytes.iter().fold(0, |n, &b| n << 8 | b as u64)
}

fn value_length(tag: u8) -> Option<usize> {
    Some(match tag {
        1 => 1,
        2 => 6,
        3 => 64,
        16 => 2,
        17 => 10,
        18 | 20 | 21 => 1,
        19 | 22..=24 => 0,
        _ => return None,
    })
}

/// Refusal number and offset, 0 and 0 for a job that is accepted.
pub fn check(bytes: &[u8]) -> (u64, usize) {
    if bytes.len() > job::MAX_BYTES {
        return (25, job::MAX_BYTES);
    }
    let (mut at, mut place) = (0, 0);
    while at < bytes.len() {
        let left = &bytes[at..];
        let [tag, high, low, ..] = *left else { return (20, at) };
        let Some(length) = value_length(tag) else { return (21, at) };
        if (high as usize) << 8 | low as usize != length {
            return (22, at);
        }
        let Some(value) = left.get(3..3 + length) else { return (20, at) };
        if if place < 3 { tag != place + 1 } else { tag < 16 } {
            return (23, at);
        }
        let good = match tag {
            1 => (1..=64).contains(&value[0]),
            2 => value[5] % 64 == 0,
            _ => true,
        };
        if !good {
            return (24, at);
        }
        at += 3 + length;
        place = (place + 1).min(3);
    }
    if place < 3 {
        return (23, at);
    }
    (0, 0)
}

fn call_at(bytes: &[u8]) -> (Call, usize) {
    let byte = |i: usize| bytes[3 + i] as u64;
    match bytes[0] {
        16 => (Call::Load { tile: byte(0), word: byte(1) }, 5),
        17 => (Call::Store { tile: byte(0), word: byte(1), value: big(&bytes[5..13]) }, 13),
        18 => (Call::Evict { tile: byte(0) }, 4),
        19 => (Call::Arbitrate, 3),
        20 => (Call::ToTile { tile: byte(0) }, 4),
        21 => (Call::FromTile { tile: byte(0) }, 4),
        22 => (Call::MemoryStep, 3),
        23 => (Call::MemoryAck, 3),
        _ => (Call::HomeEviction, 3),
    }
}

/// The last message of the queue at a place.
fn last_message(w: &[u64], queue: usize) -> Message {
    let at = if w[queue + 12] == 0 { queue } else { queue + 12 };
    let row: &[u64; 12] = w[at..at + 12].try_into().unwrap();
    let (miss, has_data) = match row[0] {
        LOAD_FWDACK | STORE_FWDACK => (0, row[3]),
        WB_REQ | STORE_MEM | LOAD_MEM_ACK | DATA_ACK => (row[3], 1),
        _ => (row[3], 0),
    };
    let data = row[4..].try_into().unwrap();
    Message { kind: row[0], word: row[1], state: row[2], miss, has_data, data }
}

fn put_message(out: &mut Vec<u8>, w: &[u64], line: u64, way: Way) {
    let queue = match way {
        Way::Noc1(t) => tile_place(t as u64) + 12,
        Way::Noc2(t) => tile_place(t as u64) + 36,
        Way::Noc3(t) => tile_place(t as u64) + 60,
        Way::ToMemory => 26,
        Way::FromMemory => 50,
    };
    let mut flits = [0; MAX_FLITS];
    let sent = Sent { way, message: last_message(w, queue) };
    let used = messages::write(&sent, line, &mut flits).expect("a bench's message has flits");
    out.push(b'>');
    for &flit in &flits[..used] {
        out.push(b' ');
        put_hex::<16>(out, flit);
    }
    out.push(b'\n');
}

/// The listing of a job that is accepted, or the line of its refusal. `w` has the words of 64 tiles.
pub fn run(bytes: &[u8], w: &mut [u64], out: &mut Vec<u8>) {
    out.clear();
    let (refusal, offset) = check(bytes);
    if refusal != 0 {
        out.extend_from_slice(b"job refused ");
        put_decimal(out, refusal);
        out.extend_from_slice(b" at ");
        put_decimal(out, offset as u64);
        out.push(b'\n');
        return;
    }
    let (tiles, line) = (bytes[3] as u64, big(&bytes[7..13]));
    let memory = std::array::from_fn(|i| big(&bytes[16 + 8 * i..24 + 8 * i]));
    inplace::start(w, tiles, &memory);
    out.extend_from_slice(b"bench ");
    put_decimal(out, tiles);
    out.push(b' ');
    put_hex::<12>(out, line);
    out.push(b'\n');
    let (mut at, mut number) = (80, 0);
    while at < bytes.len() {
        let (call, used) = call_at(&bytes[at..]);
        at += used;
        number += 1;
        let a = inplace::call(w, call);
        for (n, end) in [(number, b' '), (a.refusal, b' '), (a.kind, b' '), (a.value, b'\n')] {
            put_decimal(out, n);
            out.push(end);
        }
        let first = a.tiles.trailing_zeros() as usize;
        match a.sent {
            0 => {}
            1 => put_message(out, w, line, Way::Noc1(first)),
            2 => {
                let mut left = a.tiles;
                while left != 0 {
                    put_message(out, w, line, Way::Noc2(left.trailing_zeros() as usize));
                    left &= left - 1;
                }
            }
            3 => put_message(out, w, line, Way::Noc3(first)),
            4 => put_message(out, w, line, Way::ToMemory),
            5 => put_message(out, w, line, Way::FromMemory),
            _ => {
                put_message(out, w, line, Way::Noc3(first));
                put_message(out, w, line, Way::Noc1(first));
            }
        }
    }
    out.extend_from_slice(b"end ");
    put_decimal(out, number);
    out.push(b'\n');
}
