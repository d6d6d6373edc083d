//! docs/LAYOUT.md: a bench of the model in words and back, and the calls on lent words. Decoding keeps every number as it
//! stands, so that `Bench::well_formed` judges it.

use crate::bench::*;
use crate::flits::*;
use crate::refusal;
use crate::steps::*;

const ROW: usize = 12;
const HOME: usize = 74;
const TILE: usize = 84;

/// The words that `tiles` tiles need.
pub fn need(tiles: u64) -> usize {
    HOME + TILE * tiles as usize
}

/// The place of a tile's block.
pub fn tile_place(tile: u64) -> usize {
    need(tile)
}

/// 'The home is .. on behalf of', by phase number.
pub const PHASES: [(u64, u64); 9] = [
    (IDLE, NO_REASON),
    (FOR_MEMORY_LOAD, FOR_LOAD),
    (FOR_MEMORY_LOAD, FOR_STORE),
    (FOR_OWNER, FOR_LOAD),
    (FOR_OWNER, FOR_STORE),
    (FOR_OWNER, FOR_EVICTION),
    (FOR_INVALIDATIONS, FOR_STORE),
    (FOR_INVALIDATIONS, FOR_EVICTION),
    (FOR_MEMORY_STORE, FOR_EVICTION),
];

fn eight(words: &[u64], at: usize) -> [u64; WORDS] {
    words[at..at + WORDS].try_into().unwrap()
}

/// The flag of an ack says that it has data; of any other message it is L2 miss, and the type says whether it has data.
fn message_at(words: &[u64], at: usize) -> Message {
    let [kind, word, state, flag] = words[at..at + 4].try_into().unwrap();
    let (miss, has_data) = match kind {
        LOAD_FWDACK | STORE_FWDACK => (0, flag),
        WB_REQ | STORE_MEM | LOAD_MEM_ACK | DATA_ACK => (flag, 1),
        _ => (flag, 0),
    };
    Message { kind, word, state, miss, has_data, data: eight(words, at + 4) }
}

/// Type 0 is no message; what stands behind a free place is no message either, and must be 0 like it.
fn queue_at(words: &[u64], at: usize) -> Queue {
    let slots = [message_at(words, at), message_at(words, at + ROW)];
    let count = slots.iter().take_while(|m| m.kind != 0).count() as u64;
    Queue { count, slots }
}

fn tile_at(words: &[u64], at: usize) -> Tile {
    Tile {
        state: words[at],
        wait: words[at + 1],
        wait_word: words[at + 2],
        wait_value: words[at + 3],
        words: eight(words, at + 4),
        noc1: queue_at(words, at + 12),
        noc2: queue_at(words, at + 36),
        noc3: queue_at(words, at + 60),
    }
}

fn home_of(words: &[u64]) -> Home {
    let number = words[1];
    let (phase, reason) = match usize::try_from(number) {
        Ok(n) if n < PHASES.len() => PHASES[n],
        _ => (number, NO_REASON),
    };
    let directory = words[4];
    let (sharers, owner) = if directory == E { (0, words[5]) } else { (words[5], 0) };
    Home {
        valid: words[2],
        dirty: words[3],
        words: eight(words, 6),
        directory,
        sharers,
        owner,
        last_taken: words[14],
        marks: words[15],
        phase,
        reason,
        requester: words[16],
        owed: words[17],
    }
}

/// The bench that the words hold, or refusal 1: fewer words than T tiles need, or malformed.
pub fn decode(words: &[u64]) -> Result<Bench, u64> {
    let tile_count = *words.first().ok_or(refusal::MALFORMED)?;
    if !(1..=MAX_TILES).contains(&tile_count) || words.len() < need(tile_count) {
        return Err(refusal::MALFORMED);
    }
    let bench = Bench {
        tile_count,
        home: home_of(words),
        memory: eight(words, 18),
        to_memory: queue_at(words, 26),
        from_memory: queue_at(words, 50),
        tiles: (0..tile_count).map(|t| tile_at(words, tile_place(t))).collect(),
    };
    if bench.well_formed() {
        Ok(bench)
    } else {
        Err(refusal::MALFORMED)
    }
}

fn put_message(out: &mut Vec<u64>, m: &Message) {
    let flag = match m.kind {
        LOAD_FWDACK | STORE_FWDACK => m.has_data,
        _ => m.miss,
    };
    out.extend([m.kind, m.word, m.state, flag]);
    out.extend(m.data);
}

fn put_queue(out: &mut Vec<u64>, q: &Queue) {
    q.slots.iter().for_each(|m| put_message(out, m));
}

fn put_tile(out: &mut Vec<u64>, tile: &Tile) {
    out.extend([tile.state, tile.wait, tile.wait_word, tile.wait_value]);
    out.extend(tile.words);
    put_queue(out, &tile.noc1);
    put_queue(out, &tile.noc2);
    put_queue(out, &tile.noc3);
}

/// The words of a bench that is well formed.
pub fn encode(bench: &Bench) -> Vec<u64> {
    let h = &bench.home;
    let phase = PHASES.iter().position(|&p| p == (h.phase, h.reason)).expect("a phase of LAYOUT.md") as u64;
    let mut out = vec![bench.tile_count, phase, h.valid, h.dirty, h.directory, h.sharers | h.owner];
    out.extend(h.words);
    out.extend([h.last_taken, h.marks, h.requester, h.owed]);
    out.extend(bench.memory);
    put_queue(&mut out, &bench.to_memory);
    put_queue(&mut out, &bench.from_memory);
    bench.tiles.iter().for_each(|tile| put_tile(&mut out, tile));
    out
}

/// An answer on lent words: with the two numbers that say which messages were sent.
#[derive(Clone, Copy, PartialEq, Eq, Debug, Default)]
pub struct CallAnswer {
    pub answer: Answer,
    pub sent: u64,
    pub tiles: u64,
}

fn refused(refusal: u64) -> CallAnswer {
    CallAnswer { answer: Answer { refusal, ..Answer::default() }, ..CallAnswer::default() }
}

/// 'Which messages a call sent'.
pub fn call_answer(answer: Answer, sent: &[Sent]) -> CallAnswer {
    let ways: Vec<Way> = sent.iter().map(|s| s.way).collect();
    let on = match ways[..] {
        [] => 0,
        [Way::Noc3(_), Way::Noc1(_)] => 6,
        [Way::Noc1(_)] => 1,
        [Way::Noc3(_)] => 3,
        [Way::ToMemory] => 4,
        [Way::FromMemory] => 5,
        _ => 2,
    };
    let tiles = ways.iter().fold(0, |mask, way| match way {
        Way::Noc1(t) | Way::Noc2(t) | Way::Noc3(t) => mask | 1 << t,
        Way::ToMemory | Way::FromMemory => mask,
    });
    CallAnswer { answer, sent: on, tiles }
}

/// One call on lent words. A refusal changes no word, and the words behind the bench stay.
pub fn call(words: &mut [u64], call: Call) -> CallAnswer {
    call_sending(words, call, &mut vec![])
}

/// The same, with the messages that it sends, appended to `sent`, which is empty before it.
pub fn call_sending(words: &mut [u64], call: Call, sent: &mut Vec<Sent>) -> CallAnswer {
    let mut bench = match decode(words) {
        Ok(bench) => bench,
        Err(number) => return refused(number),
    };
    let answer = bench.call(call, sent);
    if answer.refusal == 0 {
        put(words, &bench);
    }
    call_answer(answer, sent)
}

/// A start on lent words: 2, then the number of words for 1.
pub fn start(words: &mut [u64], tiles: u64, memory: [u64; WORDS]) -> CallAnswer {
    match Bench::start(tiles, memory) {
        Err(number) => refused(number),
        Ok(_) if words.len() < need(tiles) => refused(refusal::MALFORMED),
        Ok(bench) => {
            put(words, &bench);
            CallAnswer::default()
        }
    }
}

fn put(words: &mut [u64], bench: &Bench) {
    words[..need(bench.tile_count)].copy_from_slice(&encode(bench));
}
