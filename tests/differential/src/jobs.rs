//! Jobs, whole and damaged: the check, and the listing of an accepted one, line by line.

use crate::calls::{answer_words, answered, next_call, Style};
use crate::reference::{self, JobCall};
use crate::{first_difference, listing, Counts, Outcome, Wrong};
use model::job::{self, Job};
use model::random::Random;
use model::samples::any_words;
use model::steps::Call;
use model::words;

/// Room for the lines of any call (docs/LAYOUT.md).
const ROOM: usize = 12_180;

/// Tile and word as a job's bytes can hold them.
fn in_bytes(call: Call) -> Call {
    match call {
        Call::Load { tile, word } => Call::Load { tile: tile & 255, word: word & 255 },
        Call::Store { tile, word, value } => Call::Store { tile: tile & 255, word: word & 255, value },
        Call::Evict { tile } => Call::Evict { tile: tile & 255 },
        Call::ToTile { tile } => Call::ToTile { tile: tile & 255 },
        Call::FromTile { tile } => Call::FromTile { tile: tile & 255 },
        other => other,
    }
}

/// A job of calls that move a bench on.
fn any_job(r: &mut Random) -> Job {
    let tiles = if r.below(8) == 0 { 1 + r.below(64) } else { 1 + r.below(4) };
    let (line, memory) = (r.below(1 << 48) & !63, any_words(r));
    let mut lent = vec![0; words::need(tiles)];
    words::start(&mut lent, tiles, memory);
    let style = Style::any(r, tiles);
    let count = if tiles > 4 { r.below(16) } else { r.below(40) };
    let calls = (0..count)
        .map(|_| {
            let call = in_bytes(next_call(&lent, &style, r));
            words::call(&mut lent, call);
            call
        })
        .collect();
    Job { tiles, line, memory, calls }
}

/// Where the fields of the bytes of a job start.
fn starts(bytes: &[u8]) -> Vec<usize> {
    let mut list = vec![];
    let mut at = 0;
    while at + 3 <= bytes.len() {
        list.push(at);
        at += 3 + (bytes[at + 1] as usize) * 256 + bytes[at + 2] as usize;
    }
    list
}

fn damage(bytes: &mut Vec<u8>, r: &mut Random) {
    let fields = starts(bytes);
    let field = fields[r.below(fields.len() as u64) as usize];
    let place = r.below(bytes.len() as u64) as usize;
    match r.below(13) {
        0 => bytes[place] = r.next() as u8,
        1 => bytes.truncate(place),
        2 => bytes.insert(place, r.next() as u8),
        3 => {
            bytes.remove(place);
        }
        4 => bytes[field] = r.below(27) as u8,
        5 => bytes[field + 1] = r.below(2) as u8,
        6 => bytes[field + 2] = bytes[field + 2].wrapping_add(1 + r.below(3) as u8),
        7 => bytes[3] = [0, 65, 64, 255, 1][r.below(5) as usize],
        8 => bytes[12] ^= 1 << r.below(8),
        9 => {
            bytes.drain(..[4, 13, 80][r.below(3) as usize]);
        }
        10 => {
            // A field once more, somewhere.
            let next = fields.iter().find(|&&at| at > field).copied().unwrap_or(bytes.len());
            let copy = bytes[field..next].to_vec();
            let to = fields[r.below(fields.len() as u64) as usize];
            bytes.splice(to..to, copy);
        }
        11 => bytes.truncate([0, 3, 4, 13, 79, 80][r.below(6) as usize]),
        _ if r.below(40) == 0 => {
            let length = job::MAX_BYTES + r.below(3) as usize - 1;
            while bytes.len() < length {
                bytes.extend([22, 0, 0]);
            }
            bytes.truncate(length);
        }
        _ => bytes.extend([r.below(27) as u8, 0, r.below(3) as u8]),
    }
}

fn check(bytes: &[u8], r: &mut Random, wrong: Wrong, counts: &mut Counts) -> Result<Option<Job>, String> {
    let model = job::check(bytes);
    let expected = match &model {
        Ok(_) => [0, 0],
        Err(refused) if wrong == Wrong::Offset && refused.number == 22 => [22, refused.offset as u64 + 1],
        Err(refused) => [refused.number, refused.offset as u64],
    };
    let mut out = answer_words(r, 2);
    let returned = reference::check_job(bytes, &mut out);
    counts.jobs += 1;
    counts.refusals[expected[0] as usize] += 1;
    let after = answered(&out, &expected);
    if returned == expected[0] && out == after {
        return Ok(model.ok());
    }
    Err(format!("check of the job\nreference: {returned} {out:?}\nmodel: {} {after:?}\n", expected[0]))
}

/// The lines that a call has in the listing, each with its newline.
fn lines_of_calls(job: &Job, wrong: Wrong) -> Vec<Vec<String>> {
    let mut calls: Vec<Vec<String>> = vec![];
    let listing = job::listing(job);
    let lines: Vec<&str> = listing.split_inclusive('\n').collect();
    for (n, line) in lines[1..lines.len() - 1].iter().enumerate() {
        let line = if wrong == Wrong::Listing && n == 1 { line.trim_end() } else { line }.to_string();
        match calls.last_mut() {
            Some(call) if line.starts_with('>') => call.push(line),
            _ => calls.push(vec![line]),
        }
    }
    calls
}

fn run(bytes: &[u8], job: &Job, r: &mut Random, wrong: Wrong, counts: &mut Counts) -> Outcome {
    let mut lent = vec![0; words::need(job.tiles)];
    reference::start(&mut lent, job.tiles, &job.memory, &mut []);
    let small = r.below(8) == 0;
    let mut text = vec![b'?'; if small { r.below(400) as usize } else { ROOM + 40 }];
    let mut at = 80;
    let calls = lines_of_calls(job, wrong);
    for (n, lines) in calls.iter().enumerate() {
        let number = n as u64 + 1;
        let from = if r.below(64) == 0 { text.len() as u64 + r.below(3) } else { r.below(30) };
        text.fill(b'?');
        // Those before the first that does not fit are written; then the place is one past the end.
        let mut model = text.clone();
        let mut place = from as usize;
        for line in lines {
            let end = place + line.len();
            if end <= model.len() {
                model[place..end].copy_from_slice(line.as_bytes());
                place = end;
            } else {
                place = model.len() + 1;
            }
        }
        let next = at + job::call_field(job.calls[n]).len() as u64;
        let refused: u64 = lines[0].split(' ').nth(1).unwrap().parse().unwrap();
        let mut out = answer_words(r, 2);
        let call = JobCall { at, number, line: job.line };
        let returned = reference::run_call(&mut lent, bytes, call, &mut text, from, &mut out);
        counts.lines += lines.len() as u64;
        let after = answered(&out, &[place as u64, next]);
        if returned != refused || out != after || text != model {
            let byte = first_difference(&text, &model);
            return Err(format!(
                "lines of call {number} at place {from} of {} bytes, first byte that differs {byte:?}\nreference: {returned} {out:?}\n{}\nmodel: {refused} {after:?}\n{}\n",
                text.len(),
                String::from_utf8_lossy(&text).trim_end_matches('?'),
                String::from_utf8_lossy(&model).trim_end_matches('?'),
            ));
        }
        at = next;
    }
    Ok(())
}

pub fn case(_: u64, r: &mut Random, wrong: Wrong, counts: &mut Counts) -> Outcome {
    let mut bytes = job::bytes(&any_job(r));
    if r.below(2) == 0 {
        damage(&mut bytes, r);
    }
    let outcome = whole(&bytes).and_then(|_| check(&bytes, r, wrong, counts)).and_then(|job| match job {
        Some(job) => run(&bytes, &job, r, wrong, counts),
        None => Ok(()),
    });
    outcome.map_err(|what| {
        let text = match model::text::from_job(&bytes) {
            Ok(text) => format!("the job's text:\n{text}"),
            Err(_) => format!("the job's {} bytes: {}\n", bytes.len(), hex_bytes(&bytes)),
        };
        what + &text
    })
}

/// All that a job gives, by the archive's calls and by the benchmark's runner in place.
fn whole(bytes: &[u8]) -> Outcome {
    let model = job::run(bytes);
    let mut lent = vec![0; words::need(64)];
    let (mut text, mut reference, mut inplace) = (vec![0; 3 * ROOM], vec![], vec![]);
    reference::run_job(bytes, &mut lent, &mut text, &mut reference);
    listing::run(bytes, &mut lent, &mut inplace);
    for (what, ours) in [("reference", reference), ("in place", inplace)] {
        if ours != model.as_bytes() {
            let byte = first_difference(&ours, model.as_bytes());
            return Err(format!(
                "listing, first byte that differs {byte:?}\n{what}:\n{}model:\n{model}",
                String::from_utf8_lossy(&ours)
            ));
        }
    }
    Ok(())
}

fn hex_bytes(bytes: &[u8]) -> String {
    bytes.iter().map(|b| format!("{b:02X}")).collect()
}
