//! `make-bench-vectors DIR`: writes DIR/stdin, cases for the program over the bench's calls, and DIR/stdout, what the
//! model answers to them. The cases are benches made by hand, each with the refusal that 01 gives it, and runs.

use model::bench::*;
use model::flits::*;
use model::job;
use model::random::Random;
use model::samples::{all_calls, plain, replies, state};
use model::steps::*;
use model::words::{self, decode, encode, need, tile_place, CallAnswer};
use std::fmt::Write;
use std::path::Path;

/// The program's lent memory.
const ROOM: usize = 5600;
const MAX: u64 = u64::MAX;
const MEMORY: [u64; 8] = [21, 22, 23, 24, 25, 26, 27, 28];
const LINE: [u64; 8] = [31, 32, 33, 34, 35, 36, 37, 38];
const HELD: [u64; 8] = [41, 42, 43, 44, 45, 46, 47, MAX];
const DATA: [u64; 8] = [51, 52, 53, 54, 55, 56, 57, 58];
const OTHER: [u64; 8] = [61, 62, 63, 64, 65, 66, 67, 68];

fn main() {
    let Some(dir) = std::env::args_os().nth(1) else {
        eprintln!("use: make-bench-vectors DIR");
        std::process::exit(2);
    };
    let mut v = Vectors::new();
    starts(&mut v);
    beats(&mut v);
    ranges(&mut v);
    each_place(&mut v);
    malformed(&mut v);
    ties(&mut v);
    at_tiles(&mut v);
    to_tiles(&mut v);
    takings(&mut v);
    from_tiles(&mut v);
    at_memory(&mut v);
    home_evictions(&mut v);
    any_benches(&mut v);
    sixty_four(&mut v);
    for (name, text) in [("stdin", &v.stdin), ("stdout", &v.stdout)] {
        std::fs::write(Path::new(&dir).join(name), text).unwrap_or_else(|error| {
            eprintln!("make-bench-vectors: {name}: {error}");
            std::process::exit(2);
        });
    }
}

/// What is written, and the program's lent memory at this point of it.
struct Vectors {
    stdin: String,
    stdout: String,
    memory: Vec<u64>,
    cases: u64,
}

impl Vectors {
    fn new() -> Vectors {
        Vectors { stdin: String::new(), stdout: String::new(), memory: vec![0; ROOM], cases: 0 }
    }

    fn remark(&mut self, text: &str) {
        writeln!(self.stdin, "# {text}").unwrap();
    }

    /// Puts these words at the front of the lent memory; what stands behind them stays.
    fn put(&mut self, words: &[u64]) {
        let places: Vec<usize> = (0..words.len()).filter(|&i| self.memory[i] != words[i]).collect();
        for some in places.chunks(30) {
            self.stdin.push('w');
            for &i in some {
                write!(self.stdin, " {i} {}", words[i]).unwrap();
                self.memory[i] = words[i];
            }
            self.stdin.push('\n');
        }
    }

    fn answered(&mut self, formed: bool, call_answer: CallAnswer, before: &[u64]) {
        let CallAnswer { answer: Answer { refusal, kind, value }, sent, tiles } = call_answer;
        let (case, formed) = (self.cases, formed as u64);
        write!(self.stdout, "case {case} formed {formed} refusal {refusal} kind {kind} value {value}").unwrap();
        write!(self.stdout, " sent {sent} tiles {tiles} words").unwrap();
        for i in (0..ROOM).filter(|&i| self.memory[i] != before[i]) {
            write!(self.stdout, " {i}={}", self.memory[i]).unwrap();
        }
        self.stdout.push('\n');
        if refusal != 0 {
            assert!(self.memory == before && (kind, value, sent, tiles) == (0, 0, 0, 0));
        }
    }

    /// A call on the first `room` words, as they stand.
    fn call(&mut self, room: usize, call: Call) -> CallAnswer {
        self.cases += 1;
        let (tag, [tile, word, value]) = numbers(call);
        writeln!(self.stdin, "c {} {room} {tag} {tile} {word} {value}", self.cases).unwrap();
        let before = self.memory.clone();
        let formed = decode(&self.memory[..room]).is_ok();
        let call_answer = words::call(&mut self.memory[..room], call);
        self.answered(formed, call_answer, &before);
        call_answer
    }

    #[track_caller]
    fn start(&mut self, room: usize, tiles: u64, memory: [u64; 8], refusal: u64) {
        self.cases += 1;
        write!(self.stdin, "s {} {room} {tiles}", self.cases).unwrap();
        memory.iter().for_each(|word| write!(self.stdin, " {word}").unwrap());
        self.stdin.push('\n');
        let before = self.memory.clone();
        let formed = decode(&self.memory[..room]).is_ok();
        let call_answer = words::start(&mut self.memory[..room], tiles, memory);
        assert_eq!(call_answer.answer, Answer { refusal, kind: 0, value: 0 });
        self.answered(formed, call_answer, &before);
    }

    /// A call on these words, with the refusal that 01 gives it.
    #[track_caller]
    fn words(&mut self, words: &[u64], call: Call, refusal: u64) -> CallAnswer {
        self.put(words);
        let call_answer = self.call(words.len(), call);
        assert_eq!(call_answer.answer.refusal, refusal, "{call:?} after {}", self.stdin.lines().last().unwrap());
        call_answer
    }

    /// A call on a bench that is well formed, with the refusal that 01 gives it.
    #[track_caller]
    fn bench(&mut self, b: &Bench, call: Call, refusal: u64) -> CallAnswer {
        assert!(b.well_formed());
        self.words(&encode(b), call, refusal)
    }
}

/// The tag that jobs give a call, its tile, word and value.
fn numbers(call: Call) -> (u8, [u64; 3]) {
    match call {
        Call::Load { tile, word } => (job::LOAD, [tile, word, 0]),
        Call::Store { tile, word, value } => (job::STORE, [tile, word, value]),
        Call::Evict { tile } => (job::EVICT, [tile, 0, 0]),
        Call::Arbitrate => (job::TAKING, [0; 3]),
        Call::ToTile { tile } => (job::TO_TILE, [tile, 0, 0]),
        Call::FromTile { tile } => (job::FROM_TILE, [tile, 0, 0]),
        Call::MemoryStep => (job::MEMORY_STEP, [0; 3]),
        Call::MemoryAck => (job::MEMORY_ACK, [0; 3]),
        Call::HomeEviction => (job::HOME_EVICTION, [0; 3]),
    }
}

fn fresh(tiles: u64) -> Bench {
    Bench::start(tiles, MEMORY).unwrap()
}

fn full(kind: u64) -> Message {
    Message { has_data: 1, data: DATA, ..plain(kind) }
}

fn one(m: Message) -> Queue {
    Queue { count: 1, slots: [m, Message::default()] }
}

fn two(a: Message, b: Message) -> Queue {
    Queue { count: 2, slots: [a, b] }
}

fn full_noc1() -> Queue {
    two(Message { word: 3, ..plain(LOAD_REQ) }, plain(WBGUARD_REQ))
}

fn full_noc2() -> Queue {
    two(plain(INV_FWD), state(S, full(DATA_ACK)))
}

fn full_noc3() -> Queue {
    two(full(WB_REQ), plain(LOAD_FWDACK))
}

/// Three tiles: 0 in M, 1 in E, 2 in I; the home has a dirty line and tile 1 for its owner. Well formed, not reachable.
fn rich() -> Bench {
    let mut b = fresh(3);
    (b.tiles[0].state, b.tiles[0].words) = (M, HELD);
    (b.tiles[1].state, b.tiles[1].words) = (E, OTHER);
    b.home = Home { valid: 1, dirty: 1, words: LINE, directory: E, owner: 1, ..b.home };
    b
}

/// One tile, every place in use.
fn busy() -> Bench {
    let mut b = fresh(1);
    b.home = Home { valid: 1, dirty: 1, words: LINE, directory: S, sharers: 1, marks: 1, ..b.home };
    b.home = Home { phase: FOR_INVALIDATIONS, reason: FOR_STORE, owed: 1, ..b.home };
    b.to_memory = two(full(STORE_MEM), plain(LOAD_MEM));
    b.from_memory = two(full(LOAD_MEM_ACK), plain(STORE_MEM_ACK));
    let (noc1, noc2) = (full_noc1(), two(Message { miss: 1, ..state(E, full(DATA_ACK)) }, plain(INV_FWD)));
    let noc3 = two(state(S, full(LOAD_FWDACK)), full(STORE_FWDACK));
    b.tiles[0] = Tile { state: M, wait: WAIT_STORE, wait_word: 7, wait_value: MAX, words: HELD, noc1, noc2, noc3 };
    b
}

fn starts(v: &mut Vectors) {
    v.remark("a start writes exactly the words that T tiles need: one tile over 7, one word behind");
    v.put(&[7; 159]);
    v.start(159, 1, MEMORY, 0);
    v.remark("too few words; 0 and 65 tiles; 2 before 1");
    for (room, tiles, refusal) in [
        (157, 1, 1),
        (0, 1, 1),
        (74, 1, 1),
        (241, 2, 1),
        (5449, 64, 1),
        (ROOM, 0, 2),
        (0, 0, 2),
        (ROOM, 65, 2),
        (158, 65, 2),
        (0, 65, 2),
        (ROOM, MAX, 2),
        (158, 1 << 58, 2),
        (ROOM, 1 << 62, 2),
        (ROOM, 219_602_429_424_661_326, 2),
    ] {
        v.start(room, tiles, OTHER, refusal);
    }
    v.remark("a start does not ask what the words hold");
    v.put(&[65, 9, 2, 2, 3, MAX]);
    v.start(158, 1, OTHER, 0);
    v.start(242, 2, [MAX; 8], 0);
    v.start(158, 1, [0; 8], 0);
}

/// 01's beats P1 to P9 in one run, with their answers.
fn beats(v: &mut Vectors) {
    v.remark("01's beats, two tiles");
    let room = need(2);
    let mut memory = [0; 8];
    memory[0] = 7;
    v.start(room, 2, memory, 0);
    let load = |tile, word| Call::Load { tile, word };
    let to = |tile| Call::ToTile { tile };
    let from = |tile| Call::FromTile { tile };
    let store = |tile, value| Call::Store { tile, word: 0, value };
    let evict = |tile| Call::Evict { tile };
    let beats: [(&str, &[(Call, [u64; 3])]); 9] = [
        (
            "P1",
            &[
                (load(0, 0), [0, 3, 0]),
                (Call::Arbitrate, [0, 3, 0]),
                (Call::MemoryStep, [0, 3, 0]),
                (Call::MemoryAck, [0, 3, 0]),
                (to(0), [0, 1, 7]),
            ],
        ),
        ("P2", &[(store(0, 9), [0, 2, 0])]),
        (
            "P3",
            &[
                (load(1, 0), [0, 3, 0]),
                (Call::Arbitrate, [0, 3, 1]),
                (to(0), [0, 3, 0]),
                (from(0), [0, 3, 0]),
                (to(1), [0, 1, 9]),
            ],
        ),
        (
            "P4",
            &[
                (store(1, 4), [0, 3, 0]),
                (Call::Arbitrate, [0, 3, 1]),
                (to(0), [0, 3, 0]),
                (from(0), [0, 3, 0]),
                (to(1), [0, 2, 0]),
            ],
        ),
        ("P5", &[(evict(1), [0, 3, 0]), (load(1, 0), [0, 3, 0]), (Call::Arbitrate, [7, 0, 0]), (from(1), [0, 0, 0])]),
        ("P6", &[(Call::Arbitrate, [0, 0, 1]), (Call::Arbitrate, [0, 3, 1]), (to(1), [0, 1, 4])]),
        (
            "P7",
            &[
                (evict(1), [0, 0, 0]),
                (load(0, 0), [0, 3, 0]),
                (Call::Arbitrate, [0, 3, 0]),
                (to(1), [0, 3, 0]),
                (from(1), [0, 3, 0]),
                (to(0), [0, 1, 4]),
            ],
        ),
        (
            "P8",
            &[
                (Call::HomeEviction, [0, 3, 0]),
                (to(0), [0, 3, 0]),
                (from(0), [0, 3, 0]),
                (Call::MemoryStep, [0, 3, 0]),
                (Call::MemoryAck, [0, 0, 0]),
            ],
        ),
        ("P9", &[(load(2, 0), [2, 0, 0]), (load(0, 8), [3, 0, 0]), (load(2, 8), [2, 0, 0]), (load(1, 7), [0, 3, 0])]),
    ];
    for (name, calls) in beats {
        v.remark(name);
        for &(call, [refusal, kind, value]) in calls {
            assert_eq!(v.call(room, call).answer, Answer { refusal, kind, value }, "{name} {call:?}");
        }
    }
    assert_eq!(v.memory[18], 4);
}

/// Any tile, word and value; too few words; more words than needed.
fn ranges(v: &mut Vectors) {
    v.remark("too few words, all calls");
    let words = encode(&rich());
    for call in all_calls(0, 0) {
        v.put(&words);
        assert_eq!(v.call(words.len() - 1, call).answer.refusal, 1);
    }
    for room in [0, 1, 2, 73, 74, 158, 242] {
        assert_eq!(v.call(room, Call::Load { tile: 0, word: 0 }).answer.refusal, 1);
    }
    v.remark("words behind the bench stay, all calls");
    for call in all_calls(0, 7) {
        v.put(&words);
        v.call(ROOM, call);
    }
    v.remark("tiles out of range");
    for b in [fresh(1), rich()] {
        for tile in [b.tile_count, 64, 1 << 32, MAX] {
            for call in all_calls(tile, 0).into_iter().take(6).filter(|&c| c != Call::Arbitrate) {
                v.bench(&b, call, 2);
            }
        }
    }
    v.remark("words out of range");
    for word in [8, 9, 255, 256, MAX] {
        for tile in 0..3 {
            v.bench(&rich(), Call::Load { tile, word }, 3);
            v.bench(&rich(), Call::Store { tile, word, value: 0 }, 3);
        }
    }
}

/// Each place of a fresh and of a busy bench of one tile, with a number that it may not hold.
fn each_place(v: &mut Vectors) {
    v.remark("each place of a fresh bench: unused and not 0, or out of range");
    let calls = all_calls(0, 0);
    let one = |v: &mut Vectors, words: &[u64], place: usize, number: u64| {
        let mut damaged = words.to_vec();
        damaged[place] = number;
        assert!(decode(&damaged).is_err(), "place {place} number {number}");
        v.words(&damaged, calls[place % 9], 1);
    };
    let words = encode(&fresh(1));
    for place in (0..need(1)).filter(|place| !(18..26).contains(place)) {
        let number = match place {
            0 => 0,
            1 => 9,
            2 => 2,
            15 => 2,
            74 => 4,
            75 => 3,
            _ => 1,
        };
        one(v, &words, place, number);
    }
    v.remark("each place of a busy bench that not every number fits");
    let words = encode(&busy());
    for place in 0..need(1) {
        for number in [0, 1, 2, 3, 4, 8, 9, 32, MAX] {
            let mut damaged = words.clone();
            damaged[place] = number;
            if decode(&damaged).is_err() {
                one(v, &words, place, number);
                break;
            }
        }
    }
}

/// The place `k` of tile `t`.
fn at(t: u64, k: usize) -> usize {
    tile_place(t) + k
}

/// Every way to be malformed that 01 names.
fn malformed(v: &mut Vectors) {
    let rich = encode(&rich());
    let bare = encode(&fresh(3));
    let mut turn = 0;
    let mut bad = |v: &mut Vectors, name: &str, base: &[u64], damage: &[(usize, u64)]| {
        v.remark(name);
        let mut words = base.to_vec();
        damage.iter().for_each(|&(place, number)| words[place] = number);
        // The numbers in question are the only thing wrong.
        assert!(decode(base).is_ok());
        turn += 1;
        if turn % 16 == 1 {
            all_calls(99, 99).into_iter().for_each(|call| {
                v.words(&words, call, 1);
            });
        } else {
            v.words(&words, all_calls(turn % 4, turn % 11)[turn as usize % 9], 1);
        }
    };
    for t in [0, 65, 64, 4, 1, MAX, 1 << 62] {
        bad(v, "tile count", &rich, &[(0, t)]);
    }
    bad(v, "last taken", &rich, &[(14, 3)]);
    bad(v, "owner", &rich, &[(5, 3)]);
    bad(v, "owner 64", &rich, &[(5, 64)]);
    bad(v, "mark of no tile", &rich, &[(15, 8)]);
    bad(v, "mark 63", &rich, &[(15, 1 << 63)]);
    bad(v, "mask with no tile", &rich, &[(4, 1), (5, 8)]);
    bad(v, "mask 63", &rich, &[(4, 1), (5, MAX)]);
    bad(v, "owed by no tile", &rich, &[(1, 6), (4, 1), (5, 7), (17, 8)]);
    for phase in [1, 2, 3, 4] {
        bad(v, "requester", &rich, &[(1, phase), (16, 3)]);
    }
    bad(v, "requester", &rich, &[(1, 6), (4, 1), (5, 7), (16, 3)]);
    for wait in [1, 2] {
        bad(v, "waits for word 8", &rich, &[(at(2, 1), wait), (at(2, 2), 8)]);
    }
    bad(v, "waits for 3", &rich, &[(at(2, 1), 3)]);
    for kind in [LOAD_REQ, STORE_REQ] {
        bad(v, "request for word 8", &rich, &[(at(1, 12), kind), (at(1, 13), 8)]);
        bad(v, "second request for word 8", &rich, &[(at(1, 12), 31), (at(1, 24), kind), (at(1, 25), 8)]);
    }
    for number in [4, 5, MAX] {
        bad(v, "state of a tile", &rich, &[(at(0, 0), number)]);
    }
    bad(v, "directory 3", &rich, &[(4, 3)]);
    bad(v, "directory M of tile 0", &rich, &[(4, 3), (5, 0)]);
    bad(v, "valid 2", &rich, &[(2, 2)]);
    bad(v, "dirty 2", &rich, &[(3, 2)]);
    for phase in [9, 10, MAX, 256] {
        bad(v, "phase", &rich, &[(1, phase)]);
    }

    // Messages of another way.
    let ways: [(usize, &[u64]); 5] = [
        (at(1, 12), &[31, 2, 13]),
        (at(1, 36), &[16, 17, 18, 29]),
        (at(1, 60), &[12, 21, 22, 23]),
        (26, &[19, 20]),
        (50, &[24, 25]),
    ];
    for (place, carried) in ways {
        for kind in [1, 2, 12, 13, 16, 17, 18, 19, 20, 21, 22, 23, 24, 25, 28, 29, 30, 31, 32, 287] {
            let granted = if kind == 29 { 1 } else { 0 };
            if !carried.contains(&kind) {
                bad(v, "message of another way", &rich, &[(place, kind), (place + 2, granted)]);
            }
        }
        let first = carried[0];
        bad(v, "second place used, first free", &rich, &[(place + 12, first)]);
        bad(v, "data in a free place", &rich, &[(place, first), (place + 23, 1)]);
        bad(v, "second message of no type", &rich, &[(place, first), (place + 12, 14)]);
        for &kind in carried {
            // State, word and flag, each where the type has none.
            let (has_state, has_flag) = (kind == 21 || kind == 29, matches!(kind, 21 | 22 | 29));
            let right = if kind == 29 { 1 } else { 0 };
            if !matches!(kind, 31 | 2) {
                bad(v, "word where none may be", &rich, &[(place, kind), (place + 1, 1), (place + 2, right)]);
            }
            if !has_state {
                bad(v, "state where none may be", &rich, &[(place, kind), (place + 2, 1)]);
            }
            let flag = if has_flag { 2 } else { 1 };
            bad(v, "flag", &rich, &[(place, kind), (place + 2, right), (place + 3, flag)]);
            if !matches!(kind, 12 | 20 | 24 | 29) {
                bad(v, "data where none may be", &rich, &[(place, kind), (place + 4, 1)]);
                bad(v, "data where none may be", &rich, &[(place, kind), (place + 11, MAX)]);
            }
        }
    }
    for wrong in [0, 4, MAX] {
        bad(v, "state of DATA_ACK", &rich, &[(at(0, 36), 29), (at(0, 38), wrong)]);
    }
    for wrong in [2, 3, 4] {
        bad(v, "state of LOAD_FWDACK", &rich, &[(at(0, 60), 21), (at(0, 62), wrong)]);
        bad(v, "state of LOAD_FWDACK", &rich, &[(at(0, 60), 21), (at(0, 62), wrong), (at(0, 63), 1)]);
    }
    bad(v, "LOAD_FWDACK I with data", &rich, &[(at(0, 60), 21), (at(0, 63), 1), (at(0, 64), 5)]);
    bad(v, "LOAD_FWDACK I with eight words 0", &rich, &[(at(0, 60), 21), (at(0, 63), 1)]);
    bad(v, "LOAD_FWDACK S without data", &rich, &[(at(0, 60), 21), (at(0, 62), 1), (at(0, 71), 5)]);

    // No line.
    bad(v, "no line, dirty", &bare, &[(3, 1)]);
    bad(v, "no line, directory S", &bare, &[(4, 1)]);
    bad(v, "no line, directory S with a mask", &bare, &[(4, 1), (5, 7)]);
    bad(v, "no line, directory E", &bare, &[(4, 2)]);
    bad(v, "no line, word 0", &bare, &[(6, 1)]);
    bad(v, "no line, word 7", &bare, &[(13, MAX)]);
    bad(v, "line given up, words left", &rich, &[(2, 0), (3, 0), (4, 0), (5, 0)]);

    // Phases.
    for phase in [3, 4, 5, 6, 7] {
        bad(v, "wait for owner or invalidations, no line", &bare, &[(1, phase)]);
        bad(v, "wait for owner or invalidations, directory I", &rich, &[(1, phase), (4, 0), (5, 0)]);
    }
    for phase in [3, 4, 5] {
        bad(v, "wait for the owner in S", &rich, &[(1, phase), (4, 1), (5, 3)]);
    }
    for phase in [6, 7] {
        bad(v, "wait for invalidations in E", &rich, &[(1, phase)]);
        bad(v, "wait for invalidations in E, one owed", &rich, &[(1, phase), (17, 1)]);
    }
    for phase in [0, 5, 8] {
        bad(v, "requester of no request", &rich, &[(1, phase), (16, 1)]);
    }
    bad(v, "requester of no request", &rich, &[(1, 7), (4, 1), (5, 3), (16, 1)]);
    for phase in [0, 1, 2, 3, 4, 5, 8] {
        bad(v, "owed outside that wait", &rich, &[(1, phase), (17, 1)]);
    }
    bad(v, "mask or owner in I", &rich, &[(4, 0)]);
    bad(v, "words of a tile in I", &rich, &[(at(2, 11), 1)]);
    bad(v, "words of a tile that was in M", &rich, &[(at(0, 0), 0)]);
    bad(v, "word of a tile that does not wait", &rich, &[(at(2, 2), 1)]);
    bad(v, "value of a tile that does not wait", &rich, &[(at(2, 3), 1)]);
    bad(v, "value of a waiting load", &rich, &[(at(2, 1), 1), (at(2, 3), 1)]);
    bad(v, "last tile's last place", &rich, &[(at(2, 83), 1)]);
}

fn ties(v: &mut Vectors) {
    v.remark("2 before 3 to 9");
    let mut b = rich();
    for tile in [3, MAX] {
        v.bench(&b, Call::Load { tile, word: 8 }, 2);
        v.bench(&b, Call::Store { tile, word: MAX, value: MAX }, 2);
    }
    v.remark("1 before 2 and 3");
    let mut words = encode(&b);
    words[at(2, 83)] = 1;
    for call in all_calls(3, 8) {
        v.words(&words, call, 1);
    }
    v.remark("3 before 4, 4 before 9, 5 before 9");
    b.tiles[2] = Tile { wait: WAIT_LOAD, noc1: full_noc1(), noc3: full_noc3(), ..Tile::default() };
    v.bench(&b, Call::Load { tile: 2, word: 8 }, 3);
    v.bench(&b, Call::Store { tile: 2, word: 8, value: 1 }, 3);
    v.bench(&b, Call::Load { tile: 2, word: 7 }, 4);
    v.bench(&b, Call::Store { tile: 2, word: 0, value: 1 }, 4);
    v.bench(&b, Call::Evict { tile: 2 }, 5);
    v.remark("6 before 5 at home eviction; 6 before 7 at taking");
    for (phase, reason) in [(FOR_MEMORY_LOAD, FOR_LOAD), (FOR_MEMORY_LOAD, FOR_STORE), (FOR_MEMORY_STORE, FOR_EVICTION)]
    {
        let mut b = fresh(3);
        (b.home.phase, b.home.reason) = (phase, reason);
        v.bench(&b, Call::HomeEviction, 6);
        v.bench(&b, Call::Arbitrate, 6);
    }
    v.bench(&fresh(3), Call::HomeEviction, 5);
    v.bench(&fresh(3), Call::Arbitrate, 7);
    v.remark("6 before 7 and 9");
    let mut b = rich();
    b.tiles[2].noc1 = one(plain(STORE_REQ));
    b.tiles[1].noc2 = full_noc2();
    (b.home.phase, b.home.reason) = (FOR_OWNER, FOR_EVICTION);
    v.bench(&b, Call::Arbitrate, 6);
    v.bench(&b, Call::HomeEviction, 6);
    v.remark("8 before 9 at a tile, at the home and at memory ack");
    let mut b = rich();
    b.tiles[0].noc2 = one(plain(INV_FWD));
    b.tiles[0].noc3 = full_noc3();
    v.bench(&b, Call::ToTile { tile: 0 }, 8);
    v.bench(&b, Call::FromTile { tile: 0 }, 8);
    b.from_memory = one(full(LOAD_MEM_ACK));
    b.tiles[0].noc2 = full_noc2();
    v.bench(&b, Call::MemoryAck, 8);
    v.remark("7 before 9 at memory step");
    b.from_memory = two(plain(STORE_MEM_ACK), plain(STORE_MEM_ACK));
    v.bench(&b, Call::MemoryStep, 7);
}

/// Load, store and evict in every state, waiting or not, with room or not.
fn at_tiles(v: &mut Vectors) {
    v.remark("load, store, evict: every state and wait, each queue empty, half full, full");
    for held in [I, S, E, M] {
        for wait in [NO_WAIT, WAIT_LOAD, WAIT_STORE] {
            for (n1, n3) in [(0, 0), (1, 1), (2, 0), (0, 2)] {
                if wait != NO_WAIT && n1 == 1 {
                    continue;
                }
                let mut b = fresh(2);
                let fill = |n, q: Queue| match n {
                    0 => Queue::default(),
                    1 => one(q.slots[0]),
                    _ => q,
                };
                b.tiles[1] = Tile {
                    state: held,
                    wait,
                    wait_word: if wait == NO_WAIT { 0 } else { 5 },
                    wait_value: if wait == WAIT_STORE { 99 } else { 0 },
                    words: if held == I { [0; 8] } else { HELD },
                    noc1: fill(n1, full_noc1()),
                    noc2: Queue::default(),
                    noc3: fill(n3, full_noc3()),
                };
                let waits = if wait != NO_WAIT { 4 } else { 0 };
                let no_room = |n| if n == 2 { 9 } else { 0 };
                let first = |a: u64, b: u64| if a != 0 { a } else { b };
                let sends = |silent: bool| first(waits, if silent { 0 } else { no_room(n1) });
                v.bench(&b, Call::Load { tile: 1, word: 7 }, sends(held != I));
                v.bench(&b, Call::Store { tile: 1, word: 3, value: 1 << 40 }, sends(held >= E));
                let evicts = match held {
                    I => 5,
                    M => first(no_room(n1), no_room(n3)),
                    _ => 0,
                };
                v.bench(&b, Call::Evict { tile: 1 }, evicts);
            }
        }
    }
}

/// Every message of NoC2 at a tile in every state, waiting or not; then with NoC3 full.
fn to_tiles(v: &mut Vectors) {
    v.remark("delivery to a tile: every message, state and wait");
    let messages = [
        state(S, full(DATA_ACK)),
        state(E, full(DATA_ACK)),
        state(M, full(DATA_ACK)),
        plain(LOAD_FWD),
        plain(STORE_FWD),
        plain(INV_FWD),
    ];
    for held in [I, S, E, M] {
        for wait in [NO_WAIT, WAIT_LOAD, WAIT_STORE] {
            for m in messages {
                let mut b = fresh(2);
                let t = &mut b.tiles[1];
                (t.state, t.wait) = (held, wait);
                t.words = if held == I { [0; 8] } else { HELD };
                t.wait_word = if wait == NO_WAIT { 0 } else { 6 };
                t.wait_value = if wait == WAIT_STORE { MAX - 1 } else { 0 };
                t.noc2 = two(m, plain(STORE_FWD));
                let fits = match (m.kind, m.state) {
                    (DATA_ACK, S | E) => held == I && wait == WAIT_LOAD,
                    (DATA_ACK, _) => held <= S && wait == WAIT_STORE,
                    (INV_FWD, _) => held <= S,
                    _ => held != S,
                };
                let call = Call::ToTile { tile: 1 };
                v.bench(&b, call, if fits { 0 } else { 8 });
                if fits {
                    b.tiles[1].noc3 = full_noc3();
                    v.bench(&b, call, if m.kind == DATA_ACK { 0 } else { 9 });
                    b.tiles[1].noc3.pop();
                    v.bench(&b, call, 0);
                }
            }
        }
    }
    v.bench(&fresh(2), Call::ToTile { tile: 1 }, 7);
}

/// The homes of two tiles: no line, and every directory; tile 1 asks.
fn directories() -> Vec<Home> {
    let base = fresh(2).home;
    let line = Home { valid: 1, words: LINE, ..base };
    let mut all = vec![base, Home { directory: I, ..line }];
    for sharers in 0..4 {
        all.push(Home { directory: S, sharers, ..line });
    }
    for owner in 0..2 {
        all.push(Home { directory: E, owner, dirty: owner, ..line });
    }
    all
}

fn takings(v: &mut Vectors) {
    v.remark(
        "taking: load and store of tile 1 under every directory; with each queue of NoC2 full; the way to memory full",
    );
    for home in directories() {
        for kind in [LOAD_REQ, STORE_REQ] {
            let mut b = fresh(2);
            b.home = home;
            b.tiles[1].noc1 = two(Message { word: 3, ..plain(kind) }, plain(WBGUARD_REQ));
            let call_answer = v.bench(&b, Call::Arbitrate, 0);
            assert_eq!((call_answer.answer.kind, call_answer.answer.value), (3, 1));
            for t in 0..2 {
                let mut no_room = b.clone();
                no_room.tiles[t].noc2 = full_noc2();
                let on_it = call_answer.sent == 2 && call_answer.tiles & 1 << t != 0;
                v.bench(&no_room, Call::Arbitrate, if on_it { 9 } else { 0 });
                no_room.tiles[t].noc2.pop();
                v.bench(&no_room, Call::Arbitrate, 0);
            }
            b.to_memory = two(plain(LOAD_MEM), full(STORE_MEM));
            v.bench(&b, Call::Arbitrate, if call_answer.sent == 4 { 9 } else { 0 });
        }
    }
    v.remark("taking: circle order, guards with and without their mark");
    for last in 0..4 {
        for fronts in [0b0001u64, 0b0100, 0b1010, 0b1111] {
            for guards in [0, 0b0110] {
                for marks in [0, 0b0100] {
                    let mut b = fresh(4);
                    b.home = Home { valid: 1, words: LINE, last_taken: last, marks, ..b.home };
                    for t in 0..4 {
                        let kind = if guards >> t & 1 == 1 { WBGUARD_REQ } else { STORE_REQ };
                        b.tiles[t].noc1 = if fronts >> t & 1 == 1 { one(plain(kind)) } else { Queue::default() };
                    }
                    let ready = fronts & (!guards | marks);
                    let taken = (1..=4).map(|n| (last + n) % 4).find(|t| ready >> t & 1 == 1);
                    let call_answer = v.bench(&b, Call::Arbitrate, if taken.is_some() { 0 } else { 7 });
                    assert_eq!(call_answer.answer.value, taken.unwrap_or(0));
                }
            }
        }
    }
    v.remark("taking of a guard needs no room, and a mark without a guard is nothing to take");
    let mut b = fresh(2);
    b.home.marks = 3;
    v.bench(&b, Call::Arbitrate, 7);
    b.tiles[1] = Tile { noc1: two(plain(WBGUARD_REQ), plain(LOAD_REQ)), noc2: full_noc2(), ..Tile::default() };
    b.to_memory = two(plain(LOAD_MEM), plain(LOAD_MEM));
    v.bench(&b, Call::Arbitrate, 0);
}

/// Every phase and directory that go together, S with both tiles, and every set of tiles owed; tile 0 is the requester.
fn phases() -> Vec<Home> {
    let mut all = vec![];
    for home in directories() {
        for phase in 0..5 {
            for reason in 0..4 {
                for owed in 0..4 {
                    let mut b = fresh(2);
                    b.home = Home { phase, reason, owed, ..home };
                    let told_apart = home.directory != S || home.sharers == 3;
                    if told_apart && b.well_formed() {
                        all.push(b.home);
                    }
                }
            }
        }
    }
    all
}

fn from_tiles(v: &mut Vectors) {
    v.remark("delivery from tile 1: every message, phase and directory; no tile owed too");
    let messages = replies(full);
    let call = Call::FromTile { tile: 1 };
    for home in phases() {
        for m in messages {
            let owns = home.directory == E && home.owner == 1;
            let asked = owns && home.phase == FOR_OWNER;
            let fits = match m.kind {
                WB_REQ => owns && (home.phase == IDLE || home.phase == FOR_OWNER),
                LOAD_FWDACK => asked && home.reason == FOR_LOAD,
                STORE_FWDACK => asked && home.reason != FOR_LOAD,
                _ => home.owed & 2 != 0,
            };
            let mut b = fresh(2);
            b.home = home;
            b.tiles[1].noc3 = two(m, plain(INV_FWDACK));
            let call_answer = v.bench(&b, call, if fits { 0 } else { 8 });
            if !fits {
                continue;
            }
            // The owner's own request; the line dirty or clean; the mark set; no room.
            let request = home.reason == FOR_LOAD || home.reason == FOR_STORE;
            if request {
                b.home.requester = 1;
                v.bench(&b, call, 0);
                b.home.requester = 0;
            }
            b.home.dirty ^= 1;
            v.bench(&b, call, 0);
            b.home.dirty ^= 1;
            b.home.marks = 2;
            v.bench(&b, call, if m.kind == WB_REQ { 8 } else { 0 });
            b.home.marks = 1;
            v.bench(&b, call, 0);
            b.home.marks = 0;
            b.to_memory = two(plain(LOAD_MEM), plain(LOAD_MEM));
            v.bench(&b, call, if call_answer.sent == 4 { 9 } else { 0 });
            b.to_memory.pop();
            b.tiles[0].noc2 = full_noc2();
            v.bench(&b, call, if call_answer.sent == 2 { 9 } else { 0 });
        }
    }
    v.bench(&fresh(2), call, 7);
}

fn at_memory(v: &mut Vectors) {
    v.remark("memory step: each message, with the way back empty, half full, full");
    for m in [plain(LOAD_MEM), full(STORE_MEM)] {
        for n in 0..3 {
            let mut b = fresh(1);
            b.to_memory = two(m, Message { data: OTHER, ..full(STORE_MEM) });
            b.from_memory =
                [Queue::default(), one(plain(STORE_MEM_ACK)), two(full(LOAD_MEM_ACK), plain(STORE_MEM_ACK))][n];
            v.bench(&b, Call::MemoryStep, if n == 2 { 9 } else { 0 });
        }
    }
    v.bench(&fresh(1), Call::MemoryStep, 7);
    v.bench(&fresh(1), Call::MemoryAck, 7);
    v.remark("memory ack: each message in every phase and directory; a valid line too");
    for home in phases() {
        for m in [full(LOAD_MEM_ACK), plain(STORE_MEM_ACK)] {
            let mut b = fresh(2);
            b.home = home;
            b.from_memory = two(m, plain(STORE_MEM_ACK));
            let fits = if m.kind == LOAD_MEM_ACK { FOR_MEMORY_LOAD } else { FOR_MEMORY_STORE } == home.phase;
            v.bench(&b, Call::MemoryAck, if fits { 0 } else { 8 });
            if fits {
                let grants = m.kind == LOAD_MEM_ACK;
                b.tiles[0].noc2 = full_noc2();
                v.bench(&b, Call::MemoryAck, if grants { 9 } else { 0 });
                if grants {
                    b.home.requester = 1;
                    v.bench(&b, Call::MemoryAck, 0);
                }
            }
        }
    }
}

fn home_evictions(v: &mut Vectors) {
    v.remark("home eviction: every directory, clean and dirty; with each way full");
    for home in directories() {
        for dirty in 0..2 {
            let mut b = fresh(2);
            b.home = Home { dirty, ..home };
            if !b.well_formed() {
                continue;
            }
            let none = home.valid == 0;
            let call_answer = v.bench(&b, Call::HomeEviction, if none { 5 } else { 0 });
            for t in 0..2 {
                let mut no_room = b.clone();
                no_room.tiles[t].noc2 = full_noc2();
                let on_it = call_answer.sent == 2 && call_answer.tiles & 1 << t != 0;
                v.bench(
                    &no_room,
                    Call::HomeEviction,
                    if none {
                        5
                    } else if on_it {
                        9
                    } else {
                        0
                    },
                );
            }
            b.to_memory = two(plain(LOAD_MEM), plain(LOAD_MEM));
            v.bench(
                &b,
                Call::HomeEviction,
                if none {
                    5
                } else if call_answer.sent == 4 {
                    9
                } else {
                    0
                },
            );
        }
    }
    for home in phases().into_iter().filter(|h| h.phase != IDLE && h.owed == 0) {
        let mut b = fresh(2);
        b.home = home;
        v.bench(&b, Call::HomeEviction, 6);
        v.bench(&b, Call::Arbitrate, 6);
    }
}

fn any_queue(r: &mut Random, messages: &[Message]) -> Queue {
    let mut q = Queue::default();
    for _ in 0..r.below(3) {
        let mut m = messages[r.below(messages.len() as u64) as usize];
        if m.has_data == 1 {
            m.data = std::array::from_fn(|_| r.below(1000));
        }
        q.push(m);
    }
    q
}

/// Any well-formed bench of three tiles.
fn any_bench(r: &mut Random) -> Bench {
    let homes = phases();
    let requests = [plain(LOAD_REQ), Message { word: 5, ..plain(STORE_REQ) }, plain(WBGUARD_REQ)];
    let granted = [S, E, M].map(|s| state(s, full(DATA_ACK)));
    let forwards = [granted[0], granted[1], granted[2], plain(LOAD_FWD), plain(STORE_FWD), plain(INV_FWD)];
    let acks = [state(S, full(LOAD_FWDACK)), state(S, plain(LOAD_FWDACK)), plain(LOAD_FWDACK)];
    let replies = [acks[0], acks[1], acks[2], full(WB_REQ), full(STORE_FWDACK), plain(STORE_FWDACK), plain(INV_FWDACK)];
    let mut b = fresh(3);
    b.home = Home { last_taken: r.below(3), marks: r.below(8), ..homes[r.below(homes.len() as u64) as usize] };
    b.to_memory = any_queue(r, &[plain(LOAD_MEM), full(STORE_MEM)]);
    b.from_memory = any_queue(r, &[full(LOAD_MEM_ACK), plain(STORE_MEM_ACK)]);
    for t in &mut b.tiles {
        (t.state, t.wait) = (r.below(4), r.below(3));
        t.wait_word = if t.wait == NO_WAIT { 0 } else { r.below(8) };
        t.wait_value = if t.wait == WAIT_STORE { r.next() } else { 0 };
        t.words = if t.state == I { [0; 8] } else { std::array::from_fn(|_| r.below(1000)) };
        t.noc1 = any_queue(r, &requests);
        t.noc2 = any_queue(r, &forwards);
        t.noc3 = any_queue(r, &replies);
    }
    b
}

fn any_benches(v: &mut Vectors) {
    let mut r = Random(44);
    for n in 0..12 {
        v.remark(&format!("any bench {n}"));
        let words = encode(&any_bench(&mut r));
        assert!(decode(&words).is_ok());
        for call in all_calls(r.below(3), r.below(8)) {
            v.put(&words);
            v.call(words.len(), call);
        }
    }
}

/// 64 tiles: the start over what was there, tile 63 alone, then all tiles sharing and one store.
fn sixty_four(v: &mut Vectors) {
    v.remark("64 tiles");
    let mut dirt = v.memory.clone();
    (0..need(64) + 5).step_by(11).for_each(|i| dirt[i] = 9);
    v.put(&dirt[..need(64) + 5]);
    let room = need(64);
    v.start(room, 64, LINE, 0);
    let run = |v: &mut Vectors, calls: &[Call]| {
        for &call in calls {
            assert_eq!(v.call(room, call).answer.refusal, 0);
        }
    };
    let last = 63;
    v.remark("tile 63 stores; then tile 0 loads what it stored");
    let fetch = [Call::Arbitrate, Call::MemoryStep, Call::MemoryAck, Call::ToTile { tile: last }];
    run(v, &[Call::Store { tile: last, word: 7, value: 6 }]);
    run(v, &fetch);
    let (ask, to) = (Call::Load { tile: 0, word: 7 }, |tile| Call::ToTile { tile });
    run(v, &[ask, Call::Arbitrate, to(last), Call::FromTile { tile: last }, to(0)]);
    v.remark("64 is no tile; too few words by one");
    for call in all_calls(64, 0).into_iter().take(3) {
        assert_eq!(v.call(room, call).answer.refusal, 2);
    }
    assert_eq!(v.call(room - 1, Call::Arbitrate).answer.refusal, 1);
    v.remark("all tiles share; tile 31 stores: 63 invalidations");
    let mut b = decode(&v.memory[..room]).unwrap();
    b.home.sharers = MAX;
    b.tiles[31] =
        Tile { wait: WAIT_STORE, wait_word: 1, wait_value: 2, noc1: one(plain(STORE_REQ)), ..Tile::default() };
    let call_answer = v.bench(&b, Call::Arbitrate, 0);
    assert_eq!((call_answer.sent, call_answer.tiles), (2, MAX & !(1 << 31)));
    v.remark("the last tile's NoC2 is full");
    b.tiles[63].noc2 = full_noc2();
    v.bench(&b, Call::Arbitrate, 9);
    v.bench(&b, Call::HomeEviction, 9);
    v.remark("malformed in the last word");
    let mut words = encode(&b);
    words[room - 1] = 1;
    v.words(&words, Call::Load { tile: 0, word: 0 }, 1);
}
