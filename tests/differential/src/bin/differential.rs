//! `differential [--seed N] [--factor F | --seconds S] [--case N] [--wrong NAME] [PART ..]`: the reference against the model.
//! Status 0: no difference. Status 1: one was found, and is printed. Status 2: bad use, or too little was tried.

use differential::{random, Counts, Part, Wrong, PARTS};
use std::sync::atomic::{AtomicU64, Ordering};
use std::sync::Mutex;
use std::time::Instant;

struct Options {
    seed: u64,
    factor: f64,
    seconds: Option<f64>,
    case: Option<u64>,
    wrong: Wrong,
    parts: Vec<usize>,
}

fn use_is(what: &str) -> ! {
    eprintln!("differential: {what}");
    eprintln!("use: differential [--seed N] [--factor F | --seconds S] [--case N] [--wrong NAME] [PART ..]");
    eprintln!("parts: {}", PARTS.map(|p| p.name).join(" "));
    std::process::exit(2);
}

fn wrong_of(name: &str) -> Option<Wrong> {
    let all = [
        Wrong::Answer,
        Wrong::Words,
        Wrong::Message,
        Wrong::Refusal,
        Wrong::Formed,
        Wrong::Reading,
        Wrong::Writing,
        Wrong::Offset,
        Wrong::Listing,
    ];
    all.into_iter().find(|w| format!("{w:?}").eq_ignore_ascii_case(name))
}

fn options() -> Options {
    let mut o = Options { seed: 1, factor: 1.0, seconds: None, case: None, wrong: Wrong::No, parts: vec![] };
    let mut words = std::env::args().skip(1);
    while let Some(word) = words.next() {
        let mut value = || words.next().unwrap_or_else(|| use_is(&format!("{word} needs a value")));
        fn number<T: std::str::FromStr>(text: String) -> T {
            text.parse().unwrap_or_else(|_| use_is(&format!("{text} is not a number")))
        }
        match word.as_str() {
            "--seed" => o.seed = number(value()),
            "--factor" => o.factor = number(value()),
            "--seconds" => o.seconds = Some(number(value())),
            "--case" => o.case = Some(number(value())),
            "--wrong" => {
                let name = value();
                o.wrong = wrong_of(&name).unwrap_or_else(|| use_is(&format!("{name} is nothing to get wrong")));
            }
            name => match PARTS.iter().position(|p| p.name == name) {
                Some(part) => o.parts.push(part),
                None => use_is(&format!("{name} is no part")),
            },
        }
    }
    if o.parts.is_empty() {
        o.parts = (0..PARTS.len()).collect();
    }
    o
}

/// The first difference of a part, by case number.
fn run(index: usize, part: &Part, o: &Options, counts: &mut Counts) -> Option<(u64, String)> {
    let cases = match (o.case, o.seconds) {
        (Some(case), _) => case + 1,
        (None, Some(_)) => u64::MAX,
        (None, None) => (part.cases as f64 * o.factor).ceil() as u64,
    };
    let (next, end) = (AtomicU64::new(o.case.unwrap_or(0)), AtomicU64::new(cases));
    let found = Mutex::new((counts.clone(), None::<(u64, String)>));
    let began = Instant::now();
    let threads = if o.case.is_some() { 1 } else { std::thread::available_parallelism().map_or(1, |n| n.get()) };
    std::thread::scope(|scope| {
        for _ in 0..threads {
            scope.spawn(|| {
                let mut own = Counts::default();
                let mut first = None;
                loop {
                    let case = next.fetch_add(1, Ordering::Relaxed);
                    let late = o.seconds.is_some_and(|s| began.elapsed().as_secs_f64() > s / o.parts.len() as f64);
                    if late || case >= end.load(Ordering::Relaxed) {
                        break;
                    }
                    if let Err(what) = (part.case)(case, &mut random(o.seed, index, case), o.wrong, &mut own) {
                        end.fetch_min(case, Ordering::Relaxed);
                        first = Some((case, what));
                        break;
                    }
                }
                let mut found = found.lock().unwrap();
                found.0.add(&own);
                if let Some(mine) = first {
                    if found.1.as_ref().is_none_or(|other| mine.0 < other.0) {
                        found.1 = Some(mine);
                    }
                }
            });
        }
    });
    let (sum, first) = found.into_inner().unwrap();
    *counts = sum;
    first
}

fn main() {
    let o = options();
    let whole = o.case.is_none() && o.seconds.is_none() && o.factor >= 1.0;
    for &index in &o.parts {
        let part = &PARTS[index];
        let began = Instant::now();
        let mut counts = Counts::default();
        if let Some((case, what)) = run(index, part, &o, &mut counts) {
            let wrong = if o.wrong == Wrong::No { String::new() } else { format!(" --wrong {:?}", o.wrong) };
            println!(
                "difference: part {}, seed {}, case {case} (again: tests/differential/run --seed {} --case {case}{wrong} {})",
                part.name, o.seed, o.seed, part.name
            );
            print!("{what}");
            std::process::exit(1);
        }
        let c = &counts;
        let counted = [
            (c.calls, "calls"),
            (c.messages, "messages sent"),
            (c.most, "of them by one call"),
            (c.read, "messages read"),
            (c.written, "messages written"),
            (c.jobs, "jobs"),
            (c.lines, "lines of listings"),
        ];
        let counted: Vec<String> =
            counted.iter().filter(|(n, _)| *n > 0).map(|(n, what)| format!("{n} {what}")).collect();
        let refusals: Vec<String> =
            c.refusals.iter().enumerate().filter(|(_, &n)| n > 0).map(|(i, n)| format!("{i}:{n}")).collect();
        println!(
            "{}: no difference in {} ({:.1} s); by refusal {}",
            part.name,
            counted.join(", "),
            began.elapsed().as_secs_f64(),
            refusals.join(" ")
        );
        if whole && !(part.enough)(&counts) {
            println!("{}: too little was tried", part.name);
            std::process::exit(2);
        }
    }
}
