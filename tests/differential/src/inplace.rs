//! The bench as a Rust programmer writes it for speed: tested and stepped in place, on the same lent words (docs/LAYOUT.md),
//! with no allocation. The benchmark's other side; the differential test compares it too.

use model::bench::{IDLE, WAIT_LOAD, WAIT_STORE};
use model::flits::*;
use model::refusal::*;
use model::steps::Call;

/// In the order of the C interface.
#[derive(Clone, Copy, PartialEq, Eq, Debug, Default)]
pub struct Answer {
    pub refusal: u64,
    pub kind: u64,
    pub value: u64,
    pub sent: u64,
    pub tiles: u64,
}

impl Answer {
    #[inline]
    pub fn put(&self, out: &mut [u64]) -> u64 {
        if let Some(out) = out.first_chunk_mut::<5>() {
            *out = [self.refusal, self.kind, self.value, self.sent, self.tiles];
        }
        self.refusal
    }
}

const ROW: usize = 12;
const QUEUE: usize = 2 * ROW;
const HOME: usize = 74;
const TILE: usize = 84;

const PHASE: usize = 1;
const VALID: usize = 2;
const DIRTY: usize = 3;
const DIRECTORY: usize = 4;
/// The mask in S, the owner in E.
const HOLDERS: usize = 5;
const LINE: usize = 6;
const LAST: usize = 14;
const MARKS: usize = 15;
const REQUESTER: usize = 16;
const OWED: usize = 17;
const MEMORY: usize = 18;
const OUT: usize = 26;
const BACK: usize = 50;

/// In a tile.
const WAIT: usize = 1;
const WAIT_WORD: usize = 2;
const WAIT_VALUE: usize = 3;
const WORDS: usize = 4;
const NOC1: usize = 12;
const NOC2: usize = 36;
const NOC3: usize = 60;

/// Phases of docs/LAYOUT.md.
const LOADING_FOR_LOAD: u64 = 1;
const LOADING_FOR_STORE: u64 = 2;
const ASKING_FOR_LOAD: u64 = 3;
const ASKING_FOR_STORE: u64 = 4;
const ASKING_FOR_EVICTION: u64 = 5;
const CLEARING_FOR_STORE: u64 = 6;
const CLEARING_FOR_EVICTION: u64 = 7;
const STORING: u64 = 8;

const LOADED: u64 = 1;
const STORED: u64 = 2;
const SENT: u64 = 3;
const OTHER: u64 = 0;

#[inline]
fn zero(words: &[u64]) -> bool {
    words.iter().fold(0, |sum, word| sum | word) == 0
}

#[inline]
fn bare(row: &[u64]) -> bool {
    zero(&row[1..ROW])
}

#[inline]
fn only_data(row: &[u64]) -> bool {
    row[1] | row[2] | row[3] == 0
}

#[inline]
fn request_ok(row: &[u64]) -> bool {
    match row[0] {
        LOAD_REQ | STORE_REQ => row[1] < 8 && zero(&row[2..ROW]),
        WBGUARD_REQ => bare(row),
        _ => false,
    }
}

#[inline]
fn forward_ok(row: &[u64]) -> bool {
    match row[0] {
        LOAD_FWD | STORE_FWD | INV_FWD => bare(row),
        DATA_ACK => row[1] == 0 && (S..=M).contains(&row[2]) && row[3] < 2,
        _ => false,
    }
}

#[inline]
fn reply_ok(row: &[u64]) -> bool {
    let data = |may: bool| row[1] == 0 && (row[3] == 1 && may || row[3] == 0 && zero(&row[4..ROW]));
    match row[0] {
        WB_REQ => only_data(row),
        LOAD_FWDACK => row[2] < 2 && data(row[2] == S),
        STORE_FWDACK => row[2] == 0 && data(true),
        INV_FWDACK => bare(row),
        _ => false,
    }
}

#[inline]
fn to_memory_ok(row: &[u64]) -> bool {
    match row[0] {
        LOAD_MEM => bare(row),
        STORE_MEM => only_data(row),
        _ => false,
    }
}

#[inline]
fn from_memory_ok(row: &[u64]) -> bool {
    match row[0] {
        LOAD_MEM_ACK => only_data(row),
        STORE_MEM_ACK => bare(row),
        _ => false,
    }
}

#[inline]
fn queue_ok(queue: &[u64], message_ok: impl Fn(&[u64]) -> bool) -> bool {
    let (first, second) = queue.split_at(ROW);
    if first[0] == 0 {
        zero(queue)
    } else if second[0] == 0 {
        message_ok(first) && zero(second)
    } else {
        message_ok(first) && message_ok(second)
    }
}

#[inline]
fn tile_ok(tile: &[u64; TILE]) -> bool {
    let waiting = match tile[WAIT] {
        0 => tile[WAIT_WORD] | tile[WAIT_VALUE] == 0,
        WAIT_LOAD => tile[WAIT_WORD] < 8 && tile[WAIT_VALUE] == 0,
        WAIT_STORE => tile[WAIT_WORD] < 8,
        _ => false,
    };
    waiting
        && tile[0] <= M
        && (tile[0] != I || zero(&tile[WORDS..NOC1]))
        && queue_ok(&tile[NOC1..NOC2], request_ok)
        && queue_ok(&tile[NOC2..NOC3], forward_ok)
        && queue_ok(&tile[NOC3..TILE], reply_ok)
}

fn home_ok(home: &[u64; HOME], tiles: u64) -> bool {
    let mask = u64::MAX >> (64 - tiles);
    let line = if home[VALID] == 0 {
        zero(&home[DIRTY..LAST])
    } else {
        home[VALID] == 1
            && home[DIRTY] < 2
            && match home[DIRECTORY] {
                I => home[HOLDERS] == 0,
                S => home[HOLDERS] & !mask == 0,
                E => home[HOLDERS] < tiles,
                _ => false,
            }
    };
    let (requester, owed) = (home[REQUESTER], home[OWED]);
    let phase = match home[PHASE] {
        IDLE | STORING => requester | owed == 0,
        LOADING_FOR_LOAD | LOADING_FOR_STORE => requester < tiles && owed == 0,
        ASKING_FOR_LOAD | ASKING_FOR_STORE => home[DIRECTORY] == E && requester < tiles && owed == 0,
        ASKING_FOR_EVICTION => home[DIRECTORY] == E && requester | owed == 0,
        CLEARING_FOR_STORE => home[DIRECTORY] == S && requester < tiles && owed & !mask == 0,
        CLEARING_FOR_EVICTION => home[DIRECTORY] == S && requester == 0 && owed & !mask == 0,
        _ => false,
    };
    line && phase
        && home[LAST] < tiles
        && home[MARKS] & !mask == 0
        && queue_ok(&home[OUT..BACK], to_memory_ok)
        && queue_ok(&home[BACK..HOME], from_memory_ok)
}

/// Do the words begin with a bench?
pub fn well_formed(w: &[u64]) -> bool {
    let Some((home, rest)) = w.split_first_chunk::<HOME>() else { return false };
    let tiles = home[0];
    if tiles == 0 || tiles > 64 || rest.len() < tiles as usize * TILE || !home_ok(home, tiles) {
        return false;
    }
    rest.chunks_exact(TILE).take(tiles as usize).all(|tile| tile_ok(tile.try_into().unwrap()))
}

fn refused(refusal: u64) -> Answer {
    Answer { refusal, ..Answer::default() }
}

fn accepted(kind: u64, value: u64, sent: u64, tiles: u64) -> Answer {
    Answer { refusal: 0, kind, value, sent, tiles }
}

fn room(w: &[u64], queue: usize) -> bool {
    w[queue + ROW] == 0
}

fn place(tile: u64) -> usize {
    HOME + TILE * tile as usize
}

/// Puts a message of a type and gives its place; what else it has is the caller's.
fn push(w: &mut [u64], queue: usize, kind: u64) -> usize {
    let at = if w[queue] == 0 { queue } else { queue + ROW };
    w[at] = kind;
    at
}

fn push_data(w: &mut [u64], queue: usize, kind: u64, words: usize) -> usize {
    let at = push(w, queue, kind);
    w.copy_within(words..words + 8, at + 4);
    at
}

fn pop(w: &mut [u64], queue: usize) {
    w.copy_within(queue + ROW..queue + QUEUE, queue);
    w[queue + ROW..queue + QUEUE].fill(0);
}

fn wait(w: &mut [u64], phase: u64, requester: u64, owed: u64) {
    w[PHASE] = phase;
    w[REQUESTER] = requester;
    w[OWED] = owed;
}

fn become_idle(w: &mut [u64]) {
    wait(w, IDLE, 0, 0);
}

fn load(w: &mut [u64], tile: u64, word: u64) -> Answer {
    if word >= 8 {
        return refused(WORD);
    }
    let at = place(tile);
    if w[at + WAIT] != 0 {
        return refused(WAITS);
    }
    if w[at] != I {
        return accepted(LOADED, w[at + WORDS + word as usize], 0, 0);
    }
    if !room(w, at + NOC1) {
        return refused(FULL);
    }
    w[at + WAIT] = WAIT_LOAD;
    w[at + WAIT_WORD] = word;
    let message = push(w, at + NOC1, LOAD_REQ);
    w[message + 1] = word;
    accepted(SENT, 0, 1, 1 << tile)
}

fn store(w: &mut [u64], tile: u64, word: u64, value: u64) -> Answer {
    if word >= 8 {
        return refused(WORD);
    }
    let at = place(tile);
    if w[at + WAIT] != 0 {
        return refused(WAITS);
    }
    if w[at] >= E {
        w[at] = M;
        w[at + WORDS + word as usize] = value;
        return accepted(STORED, 0, 0, 0);
    }
    if !room(w, at + NOC1) {
        return refused(FULL);
    }
    w[at + WAIT] = WAIT_STORE;
    w[at + WAIT_WORD] = word;
    w[at + WAIT_VALUE] = value;
    let message = push(w, at + NOC1, STORE_REQ);
    w[message + 1] = word;
    accepted(SENT, 0, 1, 1 << tile)
}

fn drop_words(w: &mut [u64], at: usize) {
    w[at] = I;
    w[at + WORDS..at + NOC1].fill(0);
}

fn evict(w: &mut [u64], tile: u64) -> Answer {
    let at = place(tile);
    if w[at] == I {
        return refused(NOTHING_TO_EVICT);
    }
    if w[at] != M {
        drop_words(w, at);
        return accepted(OTHER, 0, 0, 0);
    }
    if !room(w, at + NOC3) || !room(w, at + NOC1) {
        return refused(FULL);
    }
    push_data(w, at + NOC3, WB_REQ, at + WORDS);
    push(w, at + NOC1, WBGUARD_REQ);
    drop_words(w, at);
    accepted(SENT, 0, 6, 1 << tile)
}

/// DATA_ACK with the home's words, for which there is room. E and M make the tile the owner.
fn grant(w: &mut [u64], tile: u64, state: u64, miss: u64) -> u64 {
    if state != S {
        w[DIRECTORY] = E;
        w[HOLDERS] = tile;
    }
    become_idle(w);
    let message = push_data(w, place(tile) + NOC2, DATA_ACK, LINE);
    w[message + 2] = state;
    w[message + 3] = miss;
    1 << tile
}

/// INV_FWD to every tile of the mask, if there is room at all of them.
fn invalidate(w: &mut [u64], mask: u64) -> bool {
    let members = |mut left: u64| {
        std::iter::from_fn(move || {
            let tile = left.trailing_zeros();
            left &= left.wrapping_sub(1);
            (tile < 64).then_some(tile as u64)
        })
    };
    if members(mask).any(|tile| !room(w, place(tile) + NOC2)) {
        return false;
    }
    members(mask).for_each(|tile| {
        push(w, place(tile) + NOC2, INV_FWD);
    });
    true
}

fn arbitrate(w: &mut [u64]) -> Answer {
    if w[PHASE] != IDLE {
        return refused(NOT_IDLE);
    }
    let (tiles, after, marks) = (w[0], w[LAST] + 1, w[MARKS]);
    let can = |t: &u64| match w[place(*t) + NOC1] {
        0 => false,
        WBGUARD_REQ => marks >> t & 1 == 1,
        _ => true,
    };
    let Some(t) = (after..tiles).find(can).or_else(|| (0..after).find(can)) else { return refused(EMPTY) };
    let at = place(t);
    let kind = w[at + NOC1];
    if kind == WBGUARD_REQ {
        pop(w, at + NOC1);
        w[LAST] = t;
        w[MARKS] &= !(1 << t);
        return accepted(OTHER, t, 0, 0);
    }
    let is_load = kind == LOAD_REQ;
    let (sent, to) = if w[VALID] == 0 {
        if !room(w, OUT) {
            return refused(FULL);
        }
        wait(w, if is_load { LOADING_FOR_LOAD } else { LOADING_FOR_STORE }, t, 0);
        push(w, OUT, LOAD_MEM);
        (4, 0)
    } else if w[DIRECTORY] == E && w[HOLDERS] != t {
        let owner = w[HOLDERS];
        let queue = place(owner) + NOC2;
        if !room(w, queue) {
            return refused(FULL);
        }
        wait(w, if is_load { ASKING_FOR_LOAD } else { ASKING_FOR_STORE }, t, 0);
        push(w, queue, if is_load { LOAD_FWD } else { STORE_FWD });
        (2, 1 << owner)
    } else if w[DIRECTORY] == S && !is_load && w[HOLDERS] & !(1 << t) != 0 {
        let others = w[HOLDERS] & !(1 << t);
        if !invalidate(w, others) {
            return refused(FULL);
        }
        wait(w, CLEARING_FOR_STORE, t, others);
        (2, others)
    } else {
        if !room(w, at + NOC2) {
            return refused(FULL);
        }
        let shared = w[DIRECTORY] == S && is_load;
        if shared {
            w[HOLDERS] |= 1 << t;
        }
        (
            2,
            grant(
                w,
                t,
                if shared {
                    S
                } else if is_load {
                    E
                } else {
                    M
                },
                0,
            ),
        )
    };
    pop(w, at + NOC1);
    w[LAST] = t;
    accepted(SENT, t, sent, to)
}

fn to_tile(w: &mut [u64], tile: u64) -> Answer {
    let at = place(tile);
    let front = at + NOC2;
    let (kind, state, waits) = (w[front], w[at], w[at + WAIT]);
    // The ack's type, state and data, and the tile's next state.
    let (ack, ack_state, data, next) = match (kind, state) {
        (0, _) => return refused(EMPTY),
        (DATA_ACK, _) => {
            let granted = w[front + 2];
            let word = at + WORDS + w[at + WAIT_WORD] as usize;
            let fits = match waits {
                WAIT_LOAD => state == I && granted != M,
                WAIT_STORE => state <= S && granted == M,
                _ => false,
            };
            if !fits {
                return refused(DOES_NOT_FIT);
            }
            w[at] = granted;
            w.copy_within(front + 4..front + ROW, at + WORDS);
            let answer = if waits == WAIT_LOAD {
                accepted(LOADED, w[word], 0, 0)
            } else {
                w[word] = w[at + WAIT_VALUE];
                accepted(STORED, 0, 0, 0)
            };
            w[at + WAIT..at + WORDS].fill(0);
            pop(w, front);
            return answer;
        }
        (LOAD_FWD, M) => (LOAD_FWDACK, S, 1, S),
        (LOAD_FWD, E) => (LOAD_FWDACK, S, 0, S),
        (LOAD_FWD, I) => (LOAD_FWDACK, I, 0, I),
        (STORE_FWD, M) => (STORE_FWDACK, 0, 1, I),
        (STORE_FWD, E | I) => (STORE_FWDACK, 0, 0, I),
        (INV_FWD, S | I) => (INV_FWDACK, 0, 0, I),
        _ => return refused(DOES_NOT_FIT),
    };
    if !room(w, at + NOC3) {
        return refused(FULL);
    }
    let message = push(w, at + NOC3, ack);
    w[message + 2] = ack_state;
    if data == 1 {
        w[message + 3] = 1;
        w.copy_within(at + WORDS..at + NOC1, message + 4);
    }
    if next == I {
        drop_words(w, at);
    } else {
        w[at] = next;
    }
    pop(w, front);
    accepted(SENT, 0, 3, 1 << tile)
}

/// The ack leaves its queue; its data, if it has some, become the home's words.
fn take_ack(w: &mut [u64], front: usize) {
    if w[front + 3] == 1 {
        w.copy_within(front + 4..front + ROW, LINE);
        w[DIRTY] = 1;
    }
    pop(w, front);
}

fn drop_line(w: &mut [u64]) {
    w[VALID..LAST].fill(0);
    become_idle(w);
}

/// The end of an eviction: a dirty line goes to memory, where there is room, a clean one is dropped.
fn give_up_line(w: &mut [u64]) -> Answer {
    if w[DIRTY] == 1 {
        w[DIRECTORY] = I;
        w[HOLDERS] = 0;
        wait(w, STORING, 0, 0);
        push_data(w, OUT, STORE_MEM, LINE);
        accepted(SENT, 0, 4, 0)
    } else {
        drop_line(w);
        accepted(OTHER, 0, 0, 0)
    }
}

/// What the last ack does.
fn last_ack(w: &mut [u64], front: usize, for_store: bool) -> Answer {
    let requester = w[REQUESTER];
    let free = if for_store { room(w, place(requester) + NOC2) } else { w[DIRTY] | w[front + 3] == 0 || room(w, OUT) };
    if !free {
        return refused(FULL);
    }
    take_ack(w, front);
    if for_store {
        accepted(SENT, 0, 2, grant(w, requester, M, 0))
    } else {
        give_up_line(w)
    }
}

fn from_tile(w: &mut [u64], tile: u64) -> Answer {
    let front = place(tile) + NOC3;
    let phase = w[PHASE];
    let owns = w[DIRECTORY] == E && w[HOLDERS] == tile;
    match w[front] {
        0 => refused(EMPTY),
        WB_REQ => {
            let ready = phase == IDLE || (ASKING_FOR_LOAD..=ASKING_FOR_EVICTION).contains(&phase);
            if !owns || w[MARKS] >> tile & 1 == 1 || !ready {
                return refused(DOES_NOT_FIT);
            }
            w.copy_within(front + 4..front + ROW, LINE);
            w[DIRTY] = 1;
            w[MARKS] |= 1 << tile;
            if phase == IDLE {
                w[DIRECTORY] = I;
                w[HOLDERS] = 0;
            }
            pop(w, front);
            accepted(OTHER, 0, 0, 0)
        }
        LOAD_FWDACK if owns && phase == ASKING_FOR_LOAD => {
            let requester = w[REQUESTER];
            if !room(w, place(requester) + NOC2) {
                return refused(FULL);
            }
            let state = w[front + 2];
            take_ack(w, front);
            let to = if state == S {
                w[DIRECTORY] = S;
                w[HOLDERS] = 1 << tile | 1 << requester;
                grant(w, requester, S, 0)
            } else {
                grant(w, requester, E, 0)
            };
            accepted(SENT, 0, 2, to)
        }
        STORE_FWDACK if owns && phase == ASKING_FOR_STORE => last_ack(w, front, true),
        STORE_FWDACK if owns && phase == ASKING_FOR_EVICTION => last_ack(w, front, false),
        INV_FWDACK if w[OWED] >> tile & 1 == 1 => {
            let left = w[OWED] & !(1 << tile);
            if left == 0 {
                return last_ack(w, front, phase == CLEARING_FOR_STORE);
            }
            w[OWED] = left;
            pop(w, front);
            accepted(OTHER, 0, 0, 0)
        }
        _ => refused(DOES_NOT_FIT),
    }
}

fn memory_step(w: &mut [u64]) -> Answer {
    if w[OUT] == 0 {
        return refused(EMPTY);
    }
    if !room(w, BACK) {
        return refused(FULL);
    }
    if w[OUT] == LOAD_MEM {
        push_data(w, BACK, LOAD_MEM_ACK, MEMORY);
    } else {
        w.copy_within(OUT + 4..OUT + ROW, MEMORY);
        push(w, BACK, STORE_MEM_ACK);
    }
    pop(w, OUT);
    accepted(SENT, 0, 5, 0)
}

fn memory_ack(w: &mut [u64]) -> Answer {
    match (w[BACK], w[PHASE]) {
        (0, _) => refused(EMPTY),
        (LOAD_MEM_ACK, phase @ (LOADING_FOR_LOAD | LOADING_FOR_STORE)) => {
            let requester = w[REQUESTER];
            if !room(w, place(requester) + NOC2) {
                return refused(FULL);
            }
            w.copy_within(BACK + 4..BACK + ROW, LINE);
            w[VALID] = 1;
            w[DIRTY] = 0;
            pop(w, BACK);
            let state = if phase == LOADING_FOR_LOAD { E } else { M };
            accepted(SENT, 0, 2, grant(w, requester, state, 1))
        }
        (STORE_MEM_ACK, STORING) => {
            pop(w, BACK);
            drop_line(w);
            accepted(OTHER, 0, 0, 0)
        }
        _ => refused(DOES_NOT_FIT),
    }
}

fn home_eviction(w: &mut [u64]) -> Answer {
    if w[PHASE] != IDLE {
        return refused(NOT_IDLE);
    }
    if w[VALID] == 0 {
        return refused(NOTHING_TO_EVICT);
    }
    let holders = w[HOLDERS];
    if w[DIRECTORY] == E {
        let queue = place(holders) + NOC2;
        if !room(w, queue) {
            return refused(FULL);
        }
        push(w, queue, STORE_FWD);
        wait(w, ASKING_FOR_EVICTION, 0, 0);
        accepted(SENT, 0, 2, 1 << holders)
    } else if w[DIRECTORY] == S && holders != 0 {
        if !invalidate(w, holders) {
            return refused(FULL);
        }
        wait(w, CLEARING_FOR_EVICTION, 0, holders);
        accepted(SENT, 0, 2, holders)
    } else if w[DIRTY] == 1 && !room(w, OUT) {
        refused(FULL)
    } else {
        give_up_line(w)
    }
}

/// One call on lent words: 1, then 2, then what the call itself refuses.
pub fn call(w: &mut [u64], call: Call) -> Answer {
    if !well_formed(w) {
        return refused(MALFORMED);
    }
    let tiles = w[0];
    match call {
        Call::Load { tile, .. }
        | Call::Store { tile, .. }
        | Call::Evict { tile }
        | Call::ToTile { tile }
        | Call::FromTile { tile }
            if tile >= tiles =>
        {
            refused(model::refusal::TILE)
        }
        Call::Load { tile, word } => load(w, tile, word),
        Call::Store { tile, word, value } => store(w, tile, word, value),
        Call::Evict { tile } => evict(w, tile),
        Call::Arbitrate => arbitrate(w),
        Call::ToTile { tile } => to_tile(w, tile),
        Call::FromTile { tile } => from_tile(w, tile),
        Call::MemoryStep => memory_step(w),
        Call::MemoryAck => memory_ack(w),
        Call::HomeEviction => home_eviction(w),
    }
}

/// A fresh bench.
pub fn start(w: &mut [u64], tiles: u64, memory: &[u64; 8]) -> Answer {
    if tiles == 0 || tiles > 64 {
        return refused(model::refusal::TILE);
    }
    let Some(own) = w.get_mut(..place(tiles)) else { return refused(MALFORMED) };
    own.fill(0);
    own[0] = tiles;
    own[LAST] = tiles - 1;
    own[MEMORY..OUT].copy_from_slice(memory);
    accepted(OTHER, 0, 0, 0)
}
