//! Document 01, 'Jobs': the check of a job, its listing, and the bytes of a job.

use crate::bench::{Bench, WORDS};
use crate::messages;
use crate::refusal;
use crate::steps::Call;
use std::fmt::Write;

pub const MAX_BYTES: usize = 65_536;

pub const TILES: u8 = 1;
pub const LINE: u8 = 2;
pub const MEMORY: u8 = 3;
pub const LOAD: u8 = 16;
pub const STORE: u8 = 17;
pub const EVICT: u8 = 18;
pub const TAKING: u8 = 19;
pub const TO_TILE: u8 = 20;
pub const FROM_TILE: u8 = 21;
pub const MEMORY_STEP: u8 = 22;
pub const MEMORY_ACK: u8 = 23;
pub const HOME_EVICTION: u8 = 24;

/// A job that was accepted.
#[derive(Clone, PartialEq, Eq, Debug)]
pub struct Job {
    pub tiles: u64,
    pub line: u64,
    pub memory: [u64; WORDS],
    pub calls: Vec<Call>,
}

/// Refusal 20 to 25, and the offset of the bad field.
#[derive(Clone, Copy, PartialEq, Eq, Debug)]
pub struct Refused {
    pub number: u64,
    pub offset: usize,
}

impl std::fmt::Display for Refused {
    fn fmt(&self, f: &mut std::fmt::Formatter) -> std::fmt::Result {
        write!(f, "job refused {} at {}", self.number, self.offset)
    }
}

/// The length of a field's value, or none for a tag that 01 does not list.
fn value_length(tag: u8) -> Option<usize> {
    Some(match tag {
        TILES => 1,
        LINE => 6,
        MEMORY => 64,
        LOAD => 2,
        STORE => 10,
        EVICT | TO_TILE | FROM_TILE => 1,
        TAKING | MEMORY_STEP | MEMORY_ACK | HOME_EVICTION => 0,
        _ => return None,
    })
}

/// A number of up to eight bytes, big-endian.
fn number(bytes: &[u8]) -> u64 {
    bytes.iter().fold(0, |n, &b| n << 8 | b as u64)
}

pub fn is_tile_count(n: u64) -> bool {
    (1..=64).contains(&n)
}

pub fn is_line_address(n: u64) -> bool {
    n < 1 << 48 && n % 64 == 0
}

/// The whole job checked, fields in order.
pub fn check(bytes: &[u8]) -> Result<Job, Refused> {
    if bytes.len() > MAX_BYTES {
        return Err(Refused { number: refusal::JOB_TOO_LONG, offset: MAX_BYTES });
    }
    let mut job = Job { tiles: 0, line: 0, memory: [0; WORDS], calls: Vec::new() };
    let mut at = 0;
    let mut place = 0;
    while at < bytes.len() {
        let refused = |number| Err(Refused { number, offset: at });
        let left = &bytes[at..];
        if left.len() < 3 {
            return refused(refusal::JOB_CUT);
        }
        let tag = left[0];
        let Some(length) = value_length(tag) else { return refused(refusal::JOB_TAG) };
        if number(&left[1..3]) as usize != length {
            return refused(refusal::JOB_LENGTH);
        }
        if left.len() < 3 + length {
            return refused(refusal::JOB_CUT);
        }
        let value = &left[3..3 + length];
        let in_place = match place {
            0 => tag == TILES,
            1 => tag == LINE,
            2 => tag == MEMORY,
            _ => tag != TILES && tag != LINE && tag != MEMORY,
        };
        if !in_place {
            return refused(refusal::JOB_PLACE);
        }
        let byte = |i: usize| value[i] as u64;
        match tag {
            TILES => {
                job.tiles = number(value);
                if !is_tile_count(job.tiles) {
                    return refused(refusal::JOB_VALUE);
                }
            }
            LINE => {
                job.line = number(value);
                if !is_line_address(job.line) {
                    return refused(refusal::JOB_VALUE);
                }
            }
            MEMORY => {
                for (word, bytes) in job.memory.iter_mut().zip(value.chunks(8)) {
                    *word = number(bytes);
                }
            }
            LOAD => job.calls.push(Call::Load { tile: byte(0), word: byte(1) }),
            STORE => job.calls.push(Call::Store { tile: byte(0), word: byte(1), value: number(&value[2..]) }),
            EVICT => job.calls.push(Call::Evict { tile: byte(0) }),
            TAKING => job.calls.push(Call::Arbitrate),
            TO_TILE => job.calls.push(Call::ToTile { tile: byte(0) }),
            FROM_TILE => job.calls.push(Call::FromTile { tile: byte(0) }),
            MEMORY_STEP => job.calls.push(Call::MemoryStep),
            MEMORY_ACK => job.calls.push(Call::MemoryAck),
            _ => job.calls.push(Call::HomeEviction),
        }
        at += 3 + length;
        place += 1;
    }
    if place < 3 {
        return Err(Refused { number: refusal::JOB_PLACE, offset: bytes.len() });
    }
    Ok(job)
}

/// The listing of an accepted job: its calls run on a fresh bench.
pub fn listing(job: &Job) -> String {
    let mut out = String::new();
    let mut bench = Bench::start(job.tiles, job.memory).expect("the check tested the tile count");
    let mut sent = Vec::new();
    let mut flits = [0; messages::MAX_FLITS];
    writeln!(out, "bench {} {:012X}", job.tiles, job.line).unwrap();
    for (i, &call) in job.calls.iter().enumerate() {
        sent.clear();
        let answer = bench.call(call, &mut sent);
        writeln!(out, "{} {} {} {}", i + 1, answer.refusal, answer.kind, answer.value).unwrap();
        for message in &sent {
            let used = messages::write(message, job.line, &mut flits).expect("a bench's message has flits");
            out.push('>');
            for flit in &flits[..used] {
                write!(out, " {:016X}", flit).unwrap();
            }
            out.push('\n');
        }
    }
    writeln!(out, "end {}", job.calls.len()).unwrap();
    out
}

/// All that the job runner prints for these bytes.
pub fn run(bytes: &[u8]) -> String {
    match check(bytes) {
        Ok(job) => listing(&job),
        Err(refused) => format!("{}\n", refused),
    }
}

/// One field: tag, length, value.
pub fn field(tag: u8, value: &[u8]) -> Vec<u8> {
    let mut out = vec![tag];
    out.extend((value.len() as u16).to_be_bytes());
    out.extend(value);
    out
}

pub fn tiles_field(tiles: u64) -> Vec<u8> {
    field(TILES, &[tiles as u8])
}

pub fn line_field(line: u64) -> Vec<u8> {
    field(LINE, &line.to_be_bytes()[2..])
}

pub fn memory_field(memory: &[u64; WORDS]) -> Vec<u8> {
    field(MEMORY, &memory.iter().flat_map(|w| w.to_be_bytes()).collect::<Vec<u8>>())
}

/// The field of a call; tile and word numbers must fit a byte.
pub fn call_field(call: Call) -> Vec<u8> {
    match call {
        Call::Load { tile, word } => field(LOAD, &[tile as u8, word as u8]),
        Call::Store { tile, word, value } => {
            let mut bytes = vec![tile as u8, word as u8];
            bytes.extend(value.to_be_bytes());
            field(STORE, &bytes)
        }
        Call::Evict { tile } => field(EVICT, &[tile as u8]),
        Call::Arbitrate => field(TAKING, &[]),
        Call::ToTile { tile } => field(TO_TILE, &[tile as u8]),
        Call::FromTile { tile } => field(FROM_TILE, &[tile as u8]),
        Call::MemoryStep => field(MEMORY_STEP, &[]),
        Call::MemoryAck => field(MEMORY_ACK, &[]),
        Call::HomeEviction => field(HOME_EVICTION, &[]),
    }
}

/// The bytes of a job.
pub fn bytes(job: &Job) -> Vec<u8> {
    let mut out = tiles_field(job.tiles);
    out.extend(line_field(job.line));
    out.extend(memory_field(&job.memory));
    for &call in &job.calls {
        out.extend(call_field(call));
    }
    out
}
