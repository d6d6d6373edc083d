//! Document 01, 'The bench': what each call does. A step tests all that can refuse it before it changes anything.

use crate::bench::*;
use crate::flits::*;
use crate::refusal;

#[derive(Clone, Copy, PartialEq, Eq, Hash, Debug)]
pub enum Call {
    Load {
        tile: u64,
        word: u64,
    },
    Store {
        tile: u64,
        word: u64,
        value: u64,
    },
    Evict {
        tile: u64,
    },
    /// 01's taking.
    Arbitrate,
    ToTile {
        tile: u64,
    },
    FromTile {
        tile: u64,
    },
    MemoryStep,
    MemoryAck,
    HomeEviction,
}

/// Refusal 0 is accepted. A refusal has kind 0 and value 0.
#[derive(Clone, Copy, PartialEq, Eq, Hash, Debug, Default)]
pub struct Answer {
    pub refusal: u64,
    pub kind: u64,
    pub value: u64,
}

/// A message that a call sent, and the way that took it.
#[derive(Clone, Copy, PartialEq, Eq, Debug)]
pub struct Sent {
    pub way: Way,
    pub message: Message,
}

const LOADED: u64 = 1;
const STORED: u64 = 2;
const SENT: u64 = 3;
const OTHER: u64 = 0;

/// Kind and value, or the refusal number.
type Outcome = Result<(u64, u64), u64>;

fn bit(tile: usize) -> u64 {
    1 << tile
}

fn plain(kind: u64) -> Message {
    Message { kind, ..Message::default() }
}

fn with_data(kind: u64, data: [u64; WORDS]) -> Message {
    Message { kind, has_data: 1, data, ..Message::default() }
}

fn room(queue: &Queue) -> Result<(), u64> {
    if queue.is_full() {
        Err(refusal::FULL)
    } else {
        Ok(())
    }
}

impl Bench {
    /// One call, with the test of well-formedness first. The messages sent are appended to `sent` in order of sending.
    pub fn call(&mut self, call: Call, sent: &mut Vec<Sent>) -> Answer {
        if !self.well_formed() {
            return Answer { refusal: refusal::MALFORMED, kind: 0, value: 0 };
        }
        self.step(call, sent)
    }

    /// One call on a bench that is known to be well formed.
    pub fn step(&mut self, call: Call, sent: &mut Vec<Sent>) -> Answer {
        let outcome = match call {
            Call::Load { tile, word } => self.load(tile, word, sent),
            Call::Store { tile, word, value } => self.store(tile, word, value, sent),
            Call::Evict { tile } => self.evict(tile, sent),
            Call::Arbitrate => self.arbitrate(sent),
            Call::ToTile { tile } => self.to_tile(tile, sent),
            Call::FromTile { tile } => self.from_tile(tile, sent),
            Call::MemoryStep => self.memory_step(sent),
            Call::MemoryAck => self.memory_ack(sent),
            Call::HomeEviction => self.home_eviction(sent),
        };
        match outcome {
            Ok((kind, value)) => Answer { refusal: 0, kind, value },
            Err(refusal) => Answer { refusal, kind: 0, value: 0 },
        }
    }

    fn tile_number(&self, tile: u64) -> Result<usize, u64> {
        if tile < self.tile_count {
            Ok(tile as usize)
        } else {
            Err(refusal::TILE)
        }
    }

    fn send(&mut self, way: Way, message: Message, sent: &mut Vec<Sent>) {
        self.queue_mut(way).push(message);
        sent.push(Sent { way, message });
    }

    fn load(&mut self, tile: u64, word: u64, sent: &mut Vec<Sent>) -> Outcome {
        let t = self.tile_number(tile)?;
        if word >= 8 {
            return Err(refusal::WORD);
        }
        let tile = &mut self.tiles[t];
        if tile.wait != NO_WAIT {
            return Err(refusal::WAITS);
        }
        if tile.state != I {
            return Ok((LOADED, tile.words[word as usize]));
        }
        room(&tile.noc1)?;
        tile.wait = WAIT_LOAD;
        tile.wait_word = word;
        self.send(Way::Noc1(t), Message { word, ..plain(LOAD_REQ) }, sent);
        Ok((SENT, 0))
    }

    fn store(&mut self, tile: u64, word: u64, value: u64, sent: &mut Vec<Sent>) -> Outcome {
        let t = self.tile_number(tile)?;
        if word >= 8 {
            return Err(refusal::WORD);
        }
        let tile = &mut self.tiles[t];
        if tile.wait != NO_WAIT {
            return Err(refusal::WAITS);
        }
        if tile.state == E || tile.state == M {
            tile.state = M;
            tile.words[word as usize] = value;
            return Ok((STORED, 0));
        }
        room(&tile.noc1)?;
        tile.wait = WAIT_STORE;
        tile.wait_word = word;
        tile.wait_value = value;
        self.send(Way::Noc1(t), Message { word, ..plain(STORE_REQ) }, sent);
        Ok((SENT, 0))
    }

    fn evict(&mut self, tile: u64, sent: &mut Vec<Sent>) -> Outcome {
        let t = self.tile_number(tile)?;
        let tile = &mut self.tiles[t];
        if tile.state == I {
            return Err(refusal::NOTHING_TO_EVICT);
        }
        if tile.state != M {
            tile.state = I;
            tile.words = [0; WORDS];
            return Ok((OTHER, 0));
        }
        room(&tile.noc3)?;
        room(&tile.noc1)?;
        let words = tile.words;
        tile.state = I;
        tile.words = [0; WORDS];
        self.send(Way::Noc3(t), with_data(WB_REQ, words), sent);
        self.send(Way::Noc1(t), plain(WBGUARD_REQ), sent);
        Ok((SENT, 0))
    }

    /// The front of the tile's NoC1 way is a request, or a guard with its mark set.
    fn can_be_taken(&self, t: usize) -> bool {
        match self.tiles[t].noc1.front() {
            None => false,
            Some(m) if m.kind == WBGUARD_REQ => self.home.marks & bit(t) != 0,
            Some(_) => true,
        }
    }

    fn arbitrate(&mut self, sent: &mut Vec<Sent>) -> Outcome {
        if self.home.phase != IDLE {
            return Err(refusal::NOT_IDLE);
        }
        let count = self.tile_count as usize;
        let after = self.home.last_taken as usize + 1;
        let mut circle = (after..count).chain(0..after);
        let Some(t) = circle.find(|&t| self.can_be_taken(t)) else { return Err(refusal::EMPTY) };
        match self.tiles[t].noc1.slots[0].kind {
            WBGUARD_REQ => {
                self.tiles[t].noc1.pop();
                self.home.last_taken = t as u64;
                self.home.marks &= !bit(t);
                Ok((OTHER, t as u64))
            }
            LOAD_REQ => self.take_load(t, sent),
            _ => self.take_store(t, sent),
        }
    }

    /// The request leaves its way and its tile becomes the last taken.
    fn take(&mut self, t: usize) {
        self.tiles[t].noc1.pop();
        self.home.last_taken = t as u64;
    }

    fn take_load(&mut self, t: usize, sent: &mut Vec<Sent>) -> Outcome {
        if self.home.valid == 0 {
            return self.fetch_line(t, FOR_LOAD, sent);
        }
        let owner = self.home.owner as usize;
        match self.home.directory {
            E if owner != t => self.ask_owner_for(t, FOR_LOAD, LOAD_FWD, sent),
            S => {
                room(&self.tiles[t].noc2)?;
                self.take(t);
                self.home.sharers |= bit(t);
                self.grant(t, S, 0, sent);
                Ok((SENT, t as u64))
            }
            _ => {
                room(&self.tiles[t].noc2)?;
                self.take(t);
                self.grant(t, E, 0, sent);
                Ok((SENT, t as u64))
            }
        }
    }

    fn take_store(&mut self, t: usize, sent: &mut Vec<Sent>) -> Outcome {
        if self.home.valid == 0 {
            return self.fetch_line(t, FOR_STORE, sent);
        }
        let owner = self.home.owner as usize;
        let others = self.home.sharers & !bit(t);
        match self.home.directory {
            E if owner != t => self.ask_owner_for(t, FOR_STORE, STORE_FWD, sent),
            S if others != 0 => {
                self.room_at_all(others)?;
                self.take(t);
                self.wait(FOR_INVALIDATIONS, FOR_STORE, t as u64);
                self.invalidate(others, sent);
                Ok((SENT, t as u64))
            }
            _ => {
                room(&self.tiles[t].noc2)?;
                self.take(t);
                self.grant(t, M, 0, sent);
                Ok((SENT, t as u64))
            }
        }
    }

    fn fetch_line(&mut self, t: usize, reason: u64, sent: &mut Vec<Sent>) -> Outcome {
        room(&self.to_memory)?;
        self.take(t);
        self.wait(FOR_MEMORY_LOAD, reason, t as u64);
        self.send(Way::ToMemory, plain(LOAD_MEM), sent);
        Ok((SENT, t as u64))
    }

    fn ask_owner_for(&mut self, t: usize, reason: u64, forward: u64, sent: &mut Vec<Sent>) -> Outcome {
        let owner = self.home.owner as usize;
        room(&self.tiles[owner].noc2)?;
        self.take(t);
        self.wait(FOR_OWNER, reason, t as u64);
        self.send(Way::Noc2(owner), plain(forward), sent);
        Ok((SENT, t as u64))
    }

    fn wait(&mut self, phase: u64, reason: u64, requester: u64) {
        self.home.phase = phase;
        self.home.reason = reason;
        self.home.requester = requester;
        self.home.owed = 0;
    }

    fn become_idle(&mut self) {
        self.wait(IDLE, NO_REASON, 0);
    }

    /// DATA_ACK with the home's words. E and M make the tile the owner; S leaves the directory to the caller.
    fn grant(&mut self, t: usize, state: u64, miss: u64, sent: &mut Vec<Sent>) {
        if state != S {
            self.home.directory = E;
            self.home.owner = t as u64;
            self.home.sharers = 0;
        }
        self.become_idle();
        let message = Message { state, miss, ..with_data(DATA_ACK, self.home.words) };
        self.send(Way::Noc2(t), message, sent);
    }

    fn room_at_all(&self, tiles: u64) -> Result<(), u64> {
        for (t, tile) in self.tiles.iter().enumerate() {
            if tiles & bit(t) != 0 {
                room(&tile.noc2)?;
            }
        }
        Ok(())
    }

    /// INV_FWD to each of the tiles in rising order; each then owes its ack.
    fn invalidate(&mut self, tiles: u64, sent: &mut Vec<Sent>) {
        self.home.owed = tiles;
        for t in 0..self.tiles.len() {
            if tiles & bit(t) != 0 {
                self.send(Way::Noc2(t), plain(INV_FWD), sent);
            }
        }
    }

    fn to_tile(&mut self, tile: u64, sent: &mut Vec<Sent>) -> Outcome {
        let t = self.tile_number(tile)?;
        let tile = &mut self.tiles[t];
        let Some(&message) = tile.noc2.front() else { return Err(refusal::EMPTY) };
        match (message.kind, tile.state) {
            (DATA_ACK, I) if tile.wait == WAIT_LOAD && message.state != M => {
                tile.noc2.pop();
                tile.state = message.state;
                tile.words = message.data;
                let value = tile.words[tile.wait_word as usize];
                tile.wait = NO_WAIT;
                tile.wait_word = 0;
                Ok((LOADED, value))
            }
            (DATA_ACK, I | S) if tile.wait == WAIT_STORE && message.state == M => {
                tile.noc2.pop();
                tile.state = M;
                tile.words = message.data;
                tile.words[tile.wait_word as usize] = tile.wait_value;
                tile.wait = NO_WAIT;
                tile.wait_word = 0;
                tile.wait_value = 0;
                Ok((STORED, 0))
            }
            (LOAD_FWD, M) => {
                let words = tile.words;
                self.acknowledge(t, S, Message { state: S, ..with_data(LOAD_FWDACK, words) }, sent)
            }
            (LOAD_FWD, E) => self.acknowledge(t, S, Message { state: S, ..plain(LOAD_FWDACK) }, sent),
            (LOAD_FWD, I) => self.acknowledge(t, I, Message { state: I, ..plain(LOAD_FWDACK) }, sent),
            (STORE_FWD, M) => {
                let words = tile.words;
                self.acknowledge(t, I, with_data(STORE_FWDACK, words), sent)
            }
            (STORE_FWD, E | I) => self.acknowledge(t, I, plain(STORE_FWDACK), sent),
            (INV_FWD, S | I) => self.acknowledge(t, I, plain(INV_FWDACK), sent),
            _ => Err(refusal::DOES_NOT_FIT),
        }
    }

    /// The forward leaves NoC2, the tile goes to `state`, the ack goes out on NoC3.
    fn acknowledge(&mut self, t: usize, state: u64, ack: Message, sent: &mut Vec<Sent>) -> Outcome {
        let tile = &mut self.tiles[t];
        room(&tile.noc3)?;
        tile.noc2.pop();
        tile.state = state;
        if state == I {
            tile.words = [0; WORDS];
        }
        self.send(Way::Noc3(t), ack, sent);
        Ok((SENT, 0))
    }

    fn from_tile(&mut self, tile: u64, sent: &mut Vec<Sent>) -> Outcome {
        let t = self.tile_number(tile)?;
        let Some(&message) = self.tiles[t].noc3.front() else { return Err(refusal::EMPTY) };
        let owns = self.home.directory == E && self.home.owner == t as u64;
        let asked = self.home.phase == FOR_OWNER && owns;
        let reason = self.home.reason;
        match message.kind {
            WB_REQ => {
                let ready = self.home.phase == IDLE || self.home.phase == FOR_OWNER;
                if !owns || self.home.marks & bit(t) != 0 || !ready {
                    return Err(refusal::DOES_NOT_FIT);
                }
                self.tiles[t].noc3.pop();
                self.home.words = message.data;
                self.home.dirty = 1;
                self.home.marks |= bit(t);
                if self.home.phase == IDLE {
                    self.home.directory = I;
                    self.home.owner = 0;
                }
                Ok((OTHER, 0))
            }
            LOAD_FWDACK if asked && reason == FOR_LOAD => {
                let requester = self.home.requester as usize;
                room(&self.tiles[requester].noc2)?;
                self.take_ack(t, &message);
                if message.state == S {
                    self.home.directory = S;
                    self.home.owner = 0;
                    self.home.sharers = bit(t) | bit(requester);
                    self.grant(requester, S, 0, sent);
                } else {
                    self.grant(requester, E, 0, sent);
                }
                Ok((SENT, 0))
            }
            STORE_FWDACK if asked && (reason == FOR_STORE || reason == FOR_EVICTION) => {
                self.room_for_last_ack(&message)?;
                self.take_ack(t, &message);
                Ok((self.after_last_ack(sent), 0))
            }
            INV_FWDACK if self.home.owed & bit(t) != 0 => {
                let left = self.home.owed & !bit(t);
                if left == 0 {
                    self.room_for_last_ack(&message)?;
                }
                self.take_ack(t, &message);
                self.home.owed = left;
                Ok((if left == 0 { self.after_last_ack(sent) } else { OTHER }, 0))
            }
            _ => Err(refusal::DOES_NOT_FIT),
        }
    }

    /// The ack leaves NoC3; its data, if it has some, become the home's words.
    fn take_ack(&mut self, t: usize, ack: &Message) {
        self.tiles[t].noc3.pop();
        if ack.has_data == 1 {
            self.home.words = ack.data;
            self.home.dirty = 1;
        }
    }

    /// Room for what the last ack sends: the grant, or STORE_MEM of a line that is dirty once the ack is in.
    fn room_for_last_ack(&self, ack: &Message) -> Result<(), u64> {
        if self.home.reason == FOR_STORE {
            room(&self.tiles[self.home.requester as usize].noc2)
        } else if self.home.dirty == 1 || ack.has_data == 1 {
            room(&self.to_memory)
        } else {
            Ok(())
        }
    }

    /// What the last ack does once it is in; gives the kind.
    fn after_last_ack(&mut self, sent: &mut Vec<Sent>) -> u64 {
        if self.home.reason == FOR_STORE {
            self.grant(self.home.requester as usize, M, 0, sent);
            SENT
        } else {
            self.give_up_line(sent)
        }
    }

    /// The end of an eviction: directory I; a dirty line goes to memory, a clean one is dropped. Gives the kind.
    fn give_up_line(&mut self, sent: &mut Vec<Sent>) -> u64 {
        self.home.directory = I;
        self.home.sharers = 0;
        self.home.owner = 0;
        if self.home.dirty == 1 {
            self.wait(FOR_MEMORY_STORE, FOR_EVICTION, 0);
            self.send(Way::ToMemory, with_data(STORE_MEM, self.home.words), sent);
            SENT
        } else {
            self.drop_line();
            OTHER
        }
    }

    fn drop_line(&mut self) {
        let home = &mut self.home;
        home.valid = 0;
        home.dirty = 0;
        home.words = [0; WORDS];
        home.directory = I;
        home.sharers = 0;
        home.owner = 0;
        self.become_idle();
    }

    fn memory_step(&mut self, sent: &mut Vec<Sent>) -> Outcome {
        if self.to_memory.count == 0 {
            return Err(refusal::EMPTY);
        }
        room(&self.from_memory)?;
        let message = self.to_memory.pop();
        let ack = if message.kind == LOAD_MEM {
            with_data(LOAD_MEM_ACK, self.memory)
        } else {
            self.memory = message.data;
            plain(STORE_MEM_ACK)
        };
        self.send(Way::FromMemory, ack, sent);
        Ok((SENT, 0))
    }

    fn memory_ack(&mut self, sent: &mut Vec<Sent>) -> Outcome {
        let Some(&message) = self.from_memory.front() else { return Err(refusal::EMPTY) };
        match (message.kind, self.home.phase) {
            (LOAD_MEM_ACK, FOR_MEMORY_LOAD) => {
                let requester = self.home.requester as usize;
                room(&self.tiles[requester].noc2)?;
                self.from_memory.pop();
                self.home.words = message.data;
                self.home.valid = 1;
                self.home.dirty = 0;
                let state = if self.home.reason == FOR_LOAD { E } else { M };
                self.grant(requester, state, 1, sent);
                Ok((SENT, 0))
            }
            (STORE_MEM_ACK, FOR_MEMORY_STORE) => {
                self.from_memory.pop();
                self.drop_line();
                Ok((OTHER, 0))
            }
            _ => Err(refusal::DOES_NOT_FIT),
        }
    }

    fn home_eviction(&mut self, sent: &mut Vec<Sent>) -> Outcome {
        if self.home.phase != IDLE {
            return Err(refusal::NOT_IDLE);
        }
        if self.home.valid == 0 {
            return Err(refusal::NOTHING_TO_EVICT);
        }
        match self.home.directory {
            E => {
                let owner = self.home.owner as usize;
                room(&self.tiles[owner].noc2)?;
                self.wait(FOR_OWNER, FOR_EVICTION, 0);
                self.send(Way::Noc2(owner), plain(STORE_FWD), sent);
                Ok((SENT, 0))
            }
            S if self.home.sharers != 0 => {
                let sharers = self.home.sharers;
                self.room_at_all(sharers)?;
                self.wait(FOR_INVALIDATIONS, FOR_EVICTION, 0);
                self.invalidate(sharers, sent);
                Ok((SENT, 0))
            }
            _ => {
                if self.home.dirty == 1 {
                    room(&self.to_memory)?;
                }
                Ok((self.give_up_line(sent), 0))
            }
        }
    }
}
