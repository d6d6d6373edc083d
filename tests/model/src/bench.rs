//! Document 01, 'The bench': what a bench holds, the fresh bench, and when a bench is well formed.
//! Every place is a plain number, so that a bench made by hand can be wrong in any of them.

use crate::flits::*;
use crate::refusal;

pub const WORDS: usize = 8;
pub const MAX_TILES: u64 = 64;

/// What a bench keeps of a message. Places that the type does not use are 0; `has_data` is 1 where the eight words of
/// data are there.
#[derive(Clone, Copy, PartialEq, Eq, Hash, Debug, Default)]
pub struct Message {
    pub kind: u64,
    pub word: u64,
    pub state: u64,
    pub miss: u64,
    pub has_data: u64,
    pub data: [u64; WORDS],
}

/// 01's way: first in, first out, at most two messages. The front is `slots[0]`.
#[derive(Clone, Copy, PartialEq, Eq, Hash, Debug, Default)]
pub struct Queue {
    pub count: u64,
    pub slots: [Message; 2],
}

/// `Tile::wait`: none, a load, a store.
pub const NO_WAIT: u64 = 0;
pub const WAIT_LOAD: u64 = 1;
pub const WAIT_STORE: u64 = 2;

#[derive(Clone, Copy, PartialEq, Eq, Hash, Debug, Default)]
pub struct Tile {
    pub state: u64,
    pub wait: u64,
    pub wait_word: u64,
    pub wait_value: u64,
    pub words: [u64; WORDS],
    pub noc1: Queue,
    pub noc2: Queue,
    pub noc3: Queue,
}

/// `Home::phase`: idle, or what the home waits for.
pub const IDLE: u64 = 0;
pub const FOR_MEMORY_LOAD: u64 = 1;
pub const FOR_OWNER: u64 = 2;
pub const FOR_INVALIDATIONS: u64 = 3;
pub const FOR_MEMORY_STORE: u64 = 4;

/// `Home::reason`: on whose behalf the home waits; `NO_REASON` where it is idle.
pub const NO_REASON: u64 = 0;
pub const FOR_LOAD: u64 = 1;
pub const FOR_STORE: u64 = 2;
pub const FOR_EVICTION: u64 = 3;

#[derive(Clone, Copy, PartialEq, Eq, Hash, Debug, Default)]
pub struct Home {
    pub valid: u64,
    pub dirty: u64,
    pub words: [u64; WORDS],
    /// I, S or E, by the numbers of the states.
    pub directory: u64,
    /// 01's mask: bit t for tile t.
    pub sharers: u64,
    pub owner: u64,
    pub last_taken: u64,
    /// 01's marks: bit t for tile t.
    pub marks: u64,
    pub phase: u64,
    pub reason: u64,
    /// The tile whose request is served.
    pub requester: u64,
    /// Tiles that still owe an INV_FWDACK: bit t for tile t.
    pub owed: u64,
}

#[derive(Clone, PartialEq, Eq, Hash, Debug)]
pub struct Bench {
    pub tile_count: u64,
    pub home: Home,
    pub memory: [u64; WORDS],
    pub to_memory: Queue,
    pub from_memory: Queue,
    pub tiles: Vec<Tile>,
}

/// One of the ways of a bench.
#[derive(Clone, Copy, PartialEq, Eq, Hash, Debug)]
pub enum Way {
    Noc1(usize),
    Noc2(usize),
    Noc3(usize),
    ToMemory,
    FromMemory,
}

impl Queue {
    pub fn is_full(&self) -> bool {
        self.count >= 2
    }

    pub fn front(&self) -> Option<&Message> {
        if self.count == 0 {
            None
        } else {
            Some(&self.slots[0])
        }
    }

    /// Removes the front. The free place becomes 0.
    pub fn pop(&mut self) -> Message {
        let front = self.slots[0];
        self.slots[0] = self.slots[1];
        self.slots[1] = Message::default();
        self.count -= 1;
        front
    }

    pub fn push(&mut self, message: Message) {
        self.slots[self.count as usize] = message;
        self.count += 1;
    }
}

impl Bench {
    /// The fresh bench of 01, or refusal 2. (Refusal 1 of a start is about lent words, which this model has none of.)
    pub fn start(tile_count: u64, memory: [u64; WORDS]) -> Result<Bench, u64> {
        if tile_count == 0 || tile_count > MAX_TILES {
            return Err(refusal::TILE);
        }
        Ok(Bench {
            tile_count,
            home: Home { last_taken: tile_count - 1, ..Home::default() },
            memory,
            to_memory: Queue::default(),
            from_memory: Queue::default(),
            tiles: vec![Tile::default(); tile_count as usize],
        })
    }

    pub fn queue(&self, way: Way) -> &Queue {
        match way {
            Way::Noc1(t) => &self.tiles[t].noc1,
            Way::Noc2(t) => &self.tiles[t].noc2,
            Way::Noc3(t) => &self.tiles[t].noc3,
            Way::ToMemory => &self.to_memory,
            Way::FromMemory => &self.from_memory,
        }
    }

    pub fn queue_mut(&mut self, way: Way) -> &mut Queue {
        match way {
            Way::Noc1(t) => &mut self.tiles[t].noc1,
            Way::Noc2(t) => &mut self.tiles[t].noc2,
            Way::Noc3(t) => &mut self.tiles[t].noc3,
            Way::ToMemory => &mut self.to_memory,
            Way::FromMemory => &mut self.from_memory,
        }
    }

    /// 01: 'A bench is well formed when'.
    pub fn well_formed(&self) -> bool {
        let t = self.tile_count;
        t >= 1
            && t <= MAX_TILES
            && self.tiles.len() as u64 == t
            && home_well_formed(&self.home, t)
            && queue_well_formed(&self.to_memory, to_memory_carries)
            && queue_well_formed(&self.from_memory, from_memory_carries)
            && self.tiles.iter().all(tile_well_formed)
    }
}

/// A mask that names no tile from `t` up (t is 1 to 64).
fn mask_in_range(mask: u64, t: u64) -> bool {
    mask & !(u64::MAX >> (64 - t)) == 0
}

fn is_zero(words: &[u64; WORDS]) -> bool {
    words.iter().fold(0, |sum, w| sum | w) == 0
}

fn noc1_carries(kind: u64) -> bool {
    matches!(kind, LOAD_REQ | STORE_REQ | WBGUARD_REQ)
}

fn noc2_carries(kind: u64) -> bool {
    matches!(kind, LOAD_FWD | STORE_FWD | INV_FWD | DATA_ACK)
}

fn noc3_carries(kind: u64) -> bool {
    matches!(kind, WB_REQ | LOAD_FWDACK | STORE_FWDACK | INV_FWDACK)
}

fn to_memory_carries(kind: u64) -> bool {
    matches!(kind, LOAD_MEM | STORE_MEM)
}

fn from_memory_carries(kind: u64) -> bool {
    matches!(kind, LOAD_MEM_ACK | STORE_MEM_ACK)
}

fn queue_well_formed(q: &Queue, carries: fn(u64) -> bool) -> bool {
    if q.count > 2 {
        return false;
    }
    q.slots.iter().enumerate().all(|(place, m)| {
        if (place as u64) < q.count {
            carries(m.kind) && message_well_formed(m)
        } else {
            *m == Message::default()
        }
    })
}

/// The message keeps the flit table, and what its type does not use is 0.
fn message_well_formed(m: &Message) -> bool {
    let word = match m.kind {
        LOAD_REQ | STORE_REQ => m.word < 8,
        _ => m.word == 0,
    };
    let state = match m.kind {
        LOAD_FWDACK => m.state == S || (m.state == I && m.has_data == 0),
        DATA_ACK => m.state == S || m.state == E || m.state == M,
        _ => m.state == 0,
    };
    let miss = match m.kind {
        DATA_ACK => m.miss < 2,
        _ => m.miss == 0,
    };
    let data = match m.kind {
        LOAD_FWDACK | STORE_FWDACK => m.has_data < 2,
        WB_REQ | STORE_MEM | LOAD_MEM_ACK | DATA_ACK => m.has_data == 1,
        _ => m.has_data == 0,
    };
    word && state && miss && data && (m.has_data == 1 || is_zero(&m.data))
}

fn tile_well_formed(tile: &Tile) -> bool {
    let waiting = match tile.wait {
        NO_WAIT => tile.wait_word == 0 && tile.wait_value == 0,
        WAIT_LOAD => tile.wait_word < 8 && tile.wait_value == 0,
        WAIT_STORE => tile.wait_word < 8,
        _ => false,
    };
    tile.state <= M
        && waiting
        && (tile.state != I || is_zero(&tile.words))
        && queue_well_formed(&tile.noc1, noc1_carries)
        && queue_well_formed(&tile.noc2, noc2_carries)
        && queue_well_formed(&tile.noc3, noc3_carries)
}

fn home_well_formed(h: &Home, t: u64) -> bool {
    if h.valid > 1 || h.dirty > 1 || h.directory > E {
        return false;
    }
    // Tile numbers and masks in range.
    if h.owner >= t || h.last_taken >= t || h.requester >= t {
        return false;
    }
    if !mask_in_range(h.sharers, t) || !mask_in_range(h.marks, t) || !mask_in_range(h.owed, t) {
        return false;
    }
    // No line: directory I, not dirty, words 0.
    if h.valid == 0 && (h.directory != I || h.dirty != 0 || !is_zero(&h.words)) {
        return false;
    }
    // What the directory's state does not use.
    if (h.directory != S && h.sharers != 0) || (h.directory != E && h.owner != 0) {
        return false;
    }
    if h.phase != FOR_INVALIDATIONS && h.owed != 0 {
        return false;
    }
    // The requester is used by a request alone.
    if h.reason != FOR_LOAD && h.reason != FOR_STORE && h.requester != 0 {
        return false;
    }
    let request = h.reason == FOR_LOAD || h.reason == FOR_STORE;
    let eviction = h.reason == FOR_EVICTION;
    match h.phase {
        IDLE => h.reason == NO_REASON,
        FOR_MEMORY_LOAD => request,
        FOR_OWNER => h.directory == E && (request || eviction),
        FOR_INVALIDATIONS => h.directory == S && (h.reason == FOR_STORE || eviction),
        FOR_MEMORY_STORE => eviction,
        _ => false,
    }
}
