//! An independent model of document 01 for tests: flits, the bench, jobs. It is written from the paper and shares nothing
//! with the proved crates. Numbers of the paper (refusals, types, states, tags) stay numbers here, so that a bench made
//! by hand can hold any of them and the test of well-formedness judges it.
//!
//! Words of a lent bench: `Bench` holds every place of a bench as a plain number, and nothing else; `words` turns words
//! into a `Bench` and back by docs/LAYOUT.md, and `Bench::well_formed` judges what came out.

pub mod bench;
pub mod flits;
pub mod job;
pub mod messages;
pub mod program;
pub mod random;
pub mod samples;
pub mod steps;
pub mod text;
pub mod words;

/// Refusal numbers of document 01.
pub mod refusal {
    pub const MALFORMED: u64 = 1;
    pub const TILE: u64 = 2;
    pub const WORD: u64 = 3;
    pub const WAITS: u64 = 4;
    pub const NOTHING_TO_EVICT: u64 = 5;
    pub const NOT_IDLE: u64 = 6;
    pub const EMPTY: u64 = 7;
    pub const DOES_NOT_FIT: u64 = 8;
    pub const FULL: u64 = 9;
    pub const NO_FLIT: u64 = 10;
    pub const TYPE: u64 = 11;
    pub const LENGTH: u64 = 12;
    pub const TOO_FEW_FLITS: u64 = 13;
    pub const PORT: u64 = 14;
    pub const RESERVED: u64 = 15;
    pub const FIELD: u64 = 16;
    pub const PLACE: u64 = 17;
    pub const JOB_CUT: u64 = 20;
    pub const JOB_TAG: u64 = 21;
    pub const JOB_LENGTH: u64 = 22;
    pub const JOB_PLACE: u64 = 23;
    pub const JOB_VALUE: u64 = 24;
    pub const JOB_TOO_LONG: u64 = 25;
}
