//! The proved reference (the archive that `bin/archive` writes) against the model of tests/model, compared by equality; and
//! what the benchmark needs. A part of the test is cases, each made from the seed and its number alone.

pub mod benches;
pub mod calls;
pub mod flits;
pub mod inplace;
pub mod jobs;
pub mod listing;
pub mod reference;
pub mod runs;
pub mod tight;

use model::random::Random;

/// An answer of the model that is changed on purpose, to show that the test finds it.
#[derive(Clone, Copy, PartialEq, Eq, Debug)]
pub enum Wrong {
    No,
    /// A store that a grant ends: its value is 1.
    Answer,
    /// A memory step that replaces the memory's words: the last of them is one more.
    Words,
    /// The last flit of a forward's ack with data has another lowest bit.
    Message,
    /// Refusal 9 is reported as 8.
    Refusal,
    /// A last taken tile out of range is taken for well formed.
    Formed,
    /// Reserved bits are refused 16.
    Reading,
    /// The size of a load's flits is written as 0.
    Writing,
    /// The offset of refusal 22 is one more.
    Offset,
    /// The listing's third line has no newline.
    Listing,
}

/// What was done.
#[derive(Clone, Default)]
pub struct Counts {
    pub calls: u64,
    pub messages: u64,
    /// Of one call.
    pub most: u64,
    pub read: u64,
    pub written: u64,
    pub jobs: u64,
    pub lines: u64,
    /// By refusal number, 0 for accepted.
    pub refusals: [u64; 26],
    /// Tile counts that were met, bit t - 1 for t tiles.
    pub tiles: u64,
}

impl Counts {
    pub fn add(&mut self, other: &Counts) {
        self.calls += other.calls;
        self.messages += other.messages;
        self.most = self.most.max(other.most);
        self.read += other.read;
        self.written += other.written;
        self.jobs += other.jobs;
        self.lines += other.lines;
        self.tiles |= other.tiles;
        for (sum, n) in self.refusals.iter_mut().zip(other.refusals) {
            *sum += n;
        }
    }
}

/// A case, or what differs in it, as text for a person.
pub type Outcome = Result<(), String>;

/// A part of the test.
pub struct Part {
    pub name: &'static str,
    /// Cases at factor 1.
    pub cases: u64,
    pub case: fn(u64, &mut Random, Wrong, &mut Counts) -> Outcome,
    /// Whether what was counted is what the part is for.
    pub enough: fn(&Counts) -> bool,
}

/// Every refusal number of these was met.
fn met(counts: &Counts, numbers: impl IntoIterator<Item = usize>) -> bool {
    numbers.into_iter().all(|n| counts.refusals[n] > 0)
}

pub const PARTS: [Part; 4] = [
    Part {
        name: "runs",
        cases: 2_560,
        case: runs::case,
        enough: |c| {
            c.calls >= 1_000_000
                && c.tiles == u64::MAX
                && c.messages >= 100_000
                && c.most >= 40
                && met(c, [0, 2, 3, 4, 5, 6, 7])
        },
    },
    Part {
        name: "benches",
        cases: 40_000,
        case: benches::case,
        enough: |c| c.calls >= 500_000 && c.messages >= 10_000 && c.most == 64 && met(c, 0..=9),
    },
    Part {
        name: "flits",
        cases: 5_000,
        case: flits::case,
        enough: |c| c.read >= 1_000_000 && c.written >= 1_000_000 && met(c, [0, 10, 11, 12, 13, 14, 15, 16, 17]),
    },
    Part {
        name: "jobs",
        cases: 60_000,
        case: jobs::case,
        enough: |c| c.jobs >= 50_000 && c.lines >= 100_000 && met(c, [0, 20, 21, 22, 23, 24, 25]),
    },
];

/// The numbers of a case.
pub fn random(seed: u64, part: usize, case: u64) -> Random {
    let mix = |n: u64| Random(n).next();
    Random(mix(mix(mix(seed) ^ part as u64) ^ case))
}

/// The first place where two lists differ.
pub fn first_difference<T: PartialEq>(a: &[T], b: &[T]) -> Option<usize> {
    (0..a.len().max(b.len())).find(|&i| a.get(i) != b.get(i))
}

pub fn hex(words: &[u64]) -> String {
    words.iter().map(|w| format!("{w:016X}")).collect::<Vec<_>>().join(" ")
}
