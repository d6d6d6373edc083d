//! Jobs as text for people (docs/JOB-TEXT.md), both ways. A text that is taken gives a job that the check accepts.

use crate::bench::WORDS;
use crate::job::{self, Refused};
use crate::steps::Call;
use std::fmt::Write;

/// A line of the text that is wrong, counted from 1, and what is wrong with it.
#[derive(Clone, PartialEq, Eq, Debug)]
pub struct BadText {
    pub line: usize,
    pub what: String,
}

impl std::fmt::Display for BadText {
    fn fmt(&self, f: &mut std::fmt::Formatter) -> std::fmt::Result {
        write!(f, "line {}: {}", self.line, self.what)
    }
}

const HEADER: [&str; 3] = ["tiles", "line", "memory"];

/// A decimal number, or a hexadecimal one after 0x, of at most 64 bits.
fn number(token: &str) -> Result<u64, String> {
    let (digits, radix) = match token.strip_prefix("0x") {
        Some(digits) => (digits, 16),
        None => (token, 10),
    };
    if digits.is_empty() || !digits.chars().all(|c| c.is_digit(radix)) {
        return Err(format!("`{token}` is not a number (decimal, or hexadecimal after 0x)"));
    }
    u64::from_str_radix(digits, radix).map_err(|_| format!("{token} is above 64 bits"))
}

fn byte(what: &str, token: &str) -> Result<u64, String> {
    let n = number(token)?;
    if n > 255 {
        return Err(format!("{what} {token} is above 255"));
    }
    Ok(n)
}

/// Tests that the field has the arguments that its name asks for.
fn arguments<'a, const N: usize>(tokens: &[&'a str], form: &str) -> Result<[&'a str; N], String> {
    tokens[1..].try_into().map_err(|_| format!("the form is `{form}`"))
}

fn header_field(place: usize, tokens: &[&str]) -> Result<Vec<u8>, String> {
    match place {
        0 => {
            let [count] = arguments(tokens, "tiles COUNT")?;
            let n = number(count)?;
            if !job::is_tile_count(n) {
                return Err(format!("{count} tiles: the count is 1 to 64"));
            }
            Ok(job::tiles_field(n))
        }
        1 => {
            let [address] = arguments(tokens, "line ADDRESS")?;
            let n = number(address)?;
            if n >> 48 != 0 {
                return Err(format!("line address {address} is above 48 bits"));
            }
            if !job::is_line_address(n) {
                return Err(format!("line address {address} is not a multiple of 64"));
            }
            Ok(job::line_field(n))
        }
        _ => {
            let words = &tokens[1..];
            if words.is_empty() || words.len() > WORDS {
                return Err(format!("memory takes one to eight words, not {}", words.len()));
            }
            let mut memory = [0; WORDS];
            for (place, word) in memory.iter_mut().zip(words) {
                *place = number(word)?;
            }
            Ok(job::memory_field(&memory))
        }
    }
}

fn call(tokens: &[&str]) -> Result<Call, String> {
    match tokens[0] {
        "load" => {
            let [tile, word] = arguments(tokens, "load TILE WORD")?;
            Ok(Call::Load { tile: byte("tile", tile)?, word: byte("word", word)? })
        }
        "store" => {
            let [tile, word, value] = arguments(tokens, "store TILE WORD VALUE")?;
            Ok(Call::Store { tile: byte("tile", tile)?, word: byte("word", word)?, value: number(value)? })
        }
        "evict" => {
            let [tile] = arguments(tokens, "evict TILE")?;
            Ok(Call::Evict { tile: byte("tile", tile)? })
        }
        "taking" => {
            let [] = arguments(tokens, "taking")?;
            Ok(Call::Arbitrate)
        }
        "to-tile" => {
            let [tile] = arguments(tokens, "to-tile TILE")?;
            Ok(Call::ToTile { tile: byte("tile", tile)? })
        }
        "from-tile" => {
            let [tile] = arguments(tokens, "from-tile TILE")?;
            Ok(Call::FromTile { tile: byte("tile", tile)? })
        }
        "memory-step" => {
            let [] = arguments(tokens, "memory-step")?;
            Ok(Call::MemoryStep)
        }
        "memory-ack" => {
            let [] = arguments(tokens, "memory-ack")?;
            Ok(Call::MemoryAck)
        }
        "home-eviction" => {
            let [] = arguments(tokens, "home-eviction")?;
            Ok(Call::HomeEviction)
        }
        name => Err(format!("`{name}` is not a field")),
    }
}

fn is_call(name: &str) -> bool {
    matches!(
        name,
        "load"
            | "store"
            | "evict"
            | "taking"
            | "to-tile"
            | "from-tile"
            | "memory-step"
            | "memory-ack"
            | "home-eviction"
    )
}

/// The field of one line, at a place counted from 0 over the fields.
fn field(place: usize, tokens: &[&str]) -> Result<Vec<u8>, String> {
    let name = tokens[0];
    if !is_call(name) && !HEADER.contains(&name) {
        return Err(format!("`{name}` is not a field"));
    }
    if place < HEADER.len() {
        if name != HEADER[place] {
            return Err(format!(
                "`{name}` where `{}` must stand (first tiles, line, memory, in this order)",
                HEADER[place]
            ));
        }
        header_field(place, tokens)
    } else if is_call(name) {
        Ok(job::call_field(call(tokens)?))
    } else {
        Err(format!("`{name}` appears a second time"))
    }
}

/// The job of a text.
pub fn to_job(text: &[u8]) -> Result<Vec<u8>, BadText> {
    let mut out = Vec::new();
    let mut place = 0;
    let mut line = 0;
    for bytes in text.strip_suffix(b"\n").unwrap_or(text).split(|&b| b == b'\n') {
        line += 1;
        let bad = |what| Err(BadText { line, what });
        let uncommented = bytes.split(|&b| b == b'#').next().unwrap_or(b"");
        let uncommented = String::from_utf8_lossy(uncommented);
        let tokens: Vec<&str> = uncommented.split_ascii_whitespace().collect();
        if tokens.is_empty() {
            continue;
        }
        match field(place, &tokens) {
            Ok(field) => out.extend(field),
            Err(what) => return bad(what),
        }
        if out.len() > job::MAX_BYTES {
            return bad(format!("the job passes {} bytes here", job::MAX_BYTES));
        }
        place += 1;
    }
    if place < HEADER.len() {
        return Err(BadText { line, what: format!("the text ends without `{}`", HEADER[place]) });
    }
    Ok(out)
}

/// Words below 65,536 in decimal, others in hexadecimal.
fn word(n: u64) -> String {
    if n < 65_536 {
        format!("{n}")
    } else {
        format!("0x{n:X}")
    }
}

/// The line of a call.
pub fn call_line(call: Call) -> String {
    match call {
        Call::Load { tile, word } => format!("load {tile} {word}"),
        Call::Store { tile, word: place, value } => format!("store {tile} {place} {}", word(value)),
        Call::Evict { tile } => format!("evict {tile}"),
        Call::Arbitrate => "taking".into(),
        Call::ToTile { tile } => format!("to-tile {tile}"),
        Call::FromTile { tile } => format!("from-tile {tile}"),
        Call::MemoryStep => "memory-step".into(),
        Call::MemoryAck => "memory-ack".into(),
        Call::HomeEviction => "home-eviction".into(),
    }
}

/// The text of a job, or the job's refusal.
pub fn from_job(bytes: &[u8]) -> Result<String, Refused> {
    let job = job::check(bytes)?;
    let mut out = String::new();
    writeln!(out, "tiles {}", job.tiles).unwrap();
    writeln!(out, "line 0x{:X}", job.line).unwrap();
    writeln!(out, "memory {}", job.memory.map(word).join(" ")).unwrap();
    for &call in &job.calls {
        writeln!(out, "{}", call_line(call)).unwrap();
    }
    Ok(out)
}
