//! Lists of calls from fresh.

use crate::calls::{self, Sides, Style};
use crate::{Counts, Outcome, Wrong};
use model::job::{self, Job};
use model::random::Random;
use model::samples::any_words;
use model::steps::Call;
use model::text;
use model::words::need;

const CALLS: usize = 420;

/// A list of calls, with what it runs on.
#[derive(Clone)]
struct Run {
    tiles: u64,
    line: u64,
    memory: [u64; 8],
    /// The words that are lent, before the start.
    lent: Vec<u64>,
    calls: Vec<Call>,
}

/// Where a list differs, and how.
struct Found {
    calls: usize,
    what: String,
}

impl Run {
    /// Runs the list, or makes it as long as it runs where there is a style.
    fn run(&mut self, style: Option<&Style>, r: &mut Random, wrong: Wrong, counts: &mut Counts) -> Result<(), Found> {
        let mut sides = Sides::of(&self.lent);
        calls::start(&mut sides, self.tiles, &self.memory, r, counts).map_err(|what| Found { calls: 0, what })?;
        let count = if style.is_some() { CALLS } else { self.calls.len() };
        for i in 0..count {
            if let Some(style) = style {
                self.calls.push(calls::next_call(&sides.model, style, r));
            }
            calls::call(&mut sides, self.calls[i], self.line, r, wrong, counts)
                .map_err(|what| Found { calls: i + 1, what })?;
        }
        calls::well_formed(&sides.reference, wrong).map_err(|what| Found { calls: count, what })
    }

    fn again(&self, wrong: Wrong) -> Option<Found> {
        self.clone().run(None, &mut Random(1), wrong, &mut Counts::default()).err()
    }

    /// A shorter list that differs too, by leaving out what is not needed.
    fn shorten(mut self, wrong: Wrong) -> Run {
        let Some(found) = self.again(wrong) else { return self };
        self.calls.truncate(found.calls);
        let mut size = self.calls.len() / 2;
        while size > 0 {
            let mut at = 0;
            while at + size <= self.calls.len() {
                let mut less = self.clone();
                less.calls.drain(at..at + size);
                match less.again(wrong) {
                    Some(found) => {
                        less.calls.truncate(found.calls);
                        self = less;
                    }
                    None => at += size,
                }
            }
            size /= 2;
        }
        self
    }

    fn describe(&self, found: &Found) -> String {
        let line = if job::is_line_address(self.line) { self.line } else { 0 };
        let header = Job { tiles: self.tiles, line, memory: self.memory, calls: vec![] };
        let mut text = format!("{}at call {} of the list, {} words lent\n", found.what, found.calls, self.lent.len());
        if line != self.line {
            text += &format!("# line 0x{:X}, which no job has\n", self.line);
        }
        text += &text::from_job(&job::bytes(&header)).expect("a job");
        for &call in &self.calls {
            text += &line_of(call);
        }
        text
    }
}

/// The line of a call in a job's text; a call that no job has is a remark, and changes nothing.
pub fn line_of(call: Call) -> String {
    let fits = match call {
        Call::Load { tile, word } | Call::Store { tile, word, .. } => tile < 256 && word < 256,
        Call::Evict { tile } | Call::ToTile { tile } | Call::FromTile { tile } => tile < 256,
        _ => true,
    };
    format!("{}{}\n", if fits { "" } else { "# " }, text::call_line(call))
}

pub fn case(number: u64, r: &mut Random, wrong: Wrong, counts: &mut Counts) -> Outcome {
    let tiles = number % 64 + 1;
    let extra = if r.below(2) == 0 { 0 } else { r.below(100) as usize };
    let lent = (0..need(tiles) + extra).map(|_| r.next()).collect();
    let mut run = Run { tiles, line: calls::any_line(r), memory: any_words(r), lent, calls: vec![] };
    counts.tiles |= 1 << (tiles - 1);
    refused_starts(&run, r, counts)?;
    let style = Style::any(r, tiles);
    run.run(Some(&style), r, wrong, counts).map_err(|found| {
        let all = run.describe(&found);
        let short = run.clone().shorten(wrong);
        match short.again(wrong) {
            Some(found) => short.describe(&found),
            None => all,
        }
    })
}

/// Starts that are refused, over what was there.
fn refused_starts(run: &Run, r: &mut Random, counts: &mut Counts) -> Outcome {
    let mut sides = Sides::of(&run.lent);
    for tiles in [0, 65, calls::odd_number(r, 65)] {
        calls::start(&mut sides, tiles, &run.memory, r, counts)?;
    }
    let count = r.below(12) as usize;
    let memory: Vec<u64> = (0..count).map(|_| r.next()).collect();
    calls::start(&mut sides, run.tiles, &memory, r, counts)?;
    let room = r.below(need(run.tiles) as u64) as usize;
    calls::start(&mut Sides::of(&run.lent[..room]), run.tiles, &run.memory, r, counts)
}
