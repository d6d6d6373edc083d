//! One call on the reference, the model, and the benchmark's code by hand, each on its own copy of the words.

use crate::reference::Named;
use crate::{first_difference, hex, inplace, reference, tight, Counts, Outcome, Wrong};
use model::bench::*;
use model::flits::*;
use model::messages::{self, MAX_FLITS};
use model::random::Random;
use model::refusal;
use model::steps::{Call, Sent};
use model::words::{self, need, tile_place, CallAnswer};

/// The lent words of each side, equal before each call.
#[derive(Clone)]
pub struct Sides {
    pub reference: Vec<u64>,
    pub model: Vec<u64>,
    pub inplace: Vec<u64>,
}

impl Sides {
    pub fn of(words: &[u64]) -> Sides {
        Sides { reference: words.to_vec(), model: words.to_vec(), inplace: words.to_vec() }
    }

    pub fn set(&mut self, words: &[u64]) {
        for side in [&mut self.reference, &mut self.model, &mut self.inplace] {
            side.clear();
            side.extend_from_slice(words);
        }
    }
}

/// What stands in words for an answer before a call.
const UNTOUCHED: u64 = 0xA5A5_5A5A_1234_8765;

pub fn five(call_answer: &CallAnswer) -> [u64; 5] {
    [call_answer.answer.refusal, call_answer.answer.kind, call_answer.answer.value, call_answer.sent, call_answer.tiles]
}

/// The words of an answer, those behind it too.
fn show(answer: &[u64]) -> String {
    match answer {
        [refusal, kind, value, sent, tiles] => {
            format!("refusal {refusal} kind {kind} value {value} sent {sent} tiles {tiles:X}")
        }
        _ => format!("{answer:X?} in {} words for an answer", answer.len()),
    }
}

/// Words for an answer: at times too few, at times more than are used.
pub fn answer_words(r: &mut Random, used: usize) -> Vec<u64> {
    let n = match r.below(16) {
        0 => r.below(used as u64) as usize,
        1 => used + 1 + r.below(3) as usize,
        _ => used,
    };
    vec![UNTOUCHED; n]
}

/// What the words of an answer are after the call.
pub fn answered(out: &[u64], answer: &[u64]) -> Vec<u64> {
    let mut after = vec![UNTOUCHED; out.len()];
    if answer.len() <= out.len() {
        after[..answer.len()].copy_from_slice(answer);
    }
    after
}

/// What a place of a bench holds (docs/LAYOUT.md).
fn place_name(place: usize, tiles: u64) -> String {
    let row = |names: [&str; 4], i: usize| match i {
        0..=3 => names[i].to_string(),
        _ => format!("word {}", i - 4),
    };
    let message = |i| row(["type", "word", "state", "flag"], i);
    let in_queue =
        |name: &str, i: usize| format!("{name}, {} message, {}", ["first", "second"][i / 12], message(i % 12));
    match place {
        0 => "T".into(),
        1 => "phase".into(),
        2..=13 => format!("home's line, {}", row(["valid", "dirty", "directory", "mask or owner"], place - 2)),
        14..=25 => format!("control, {}", row(["last taken", "marks", "requester", "owed"], place - 14)),
        26..=49 => in_queue("to memory", place - 26),
        50..=73 => in_queue("from memory", place - 50),
        _ if tiles <= 64 && place < need(tiles) => {
            let (tile, i) = ((place - 74) / 84, (place - 74) % 84);
            let what = match i {
                0..=11 => row(["state", "waits for", "its word", "its value"], i),
                12..=35 => in_queue("NoC1", i - 12),
                36..=59 => in_queue("NoC2", i - 36),
                _ => in_queue("NoC3", i - 60),
            };
            format!("tile {tile}, {what}")
        }
        _ => "behind the bench".into(),
    }
}

fn words_differ(what: &str, ours: &[u64], model: &[u64]) -> Outcome {
    if ours == model {
        return Ok(());
    }
    let place = first_difference(ours, model).unwrap();
    let name = place_name(place, *model.first().unwrap_or(&0));
    Err(format!(
        "words after the call: first at place {place} ({name})\n{what}: {:X}\nmodel: {:X}\n",
        ours[place], model[place]
    ))
}

fn answers_differ(what: &str, ours: &[u64], model: &[u64]) -> Outcome {
    if ours == model {
        return Ok(());
    }
    Err(format!("answer\n{what}: {}\nmodel: {}\n", show(ours), show(model)))
}

/// The test of well-formedness alone.
pub fn well_formed(words: &[u64], wrong: Wrong) -> Outcome {
    let model = match words::decode(words) {
        Err(_) if wrong == Wrong::Formed && words.len() >= 74 && words[14] >= words[0] => 1,
        decoded => decoded.is_ok() as u64,
    };
    let ours = reference::well_formed(words);
    let inplace = inplace::well_formed(words) as u64;
    if ours == model && inplace == model {
        return Ok(());
    }
    Err(format!("well formed\nreference: {ours}\nmodel: {model}\nin place: {inplace}\n"))
}

/// One call on each side, compared: the answer, all lent words, the messages of an accepted call as flits.
pub fn call(
    sides: &mut Sides,
    call: Call,
    line: u64,
    r: &mut Random,
    wrong: Wrong,
    counts: &mut Counts,
) -> Result<CallAnswer, String> {
    let mut sent = vec![];
    let mut call_answer = words::call_sending(&mut sides.model, call, &mut sent);
    match wrong {
        Wrong::Answer if call_answer.answer.kind == 2 && matches!(call, Call::ToTile { .. }) => {
            call_answer.answer.value = 1
        }
        Wrong::Refusal if call_answer.answer.refusal == 9 => call_answer.answer.refusal = 8,
        Wrong::Words if call_answer.sent == 5 && sent[0].message.kind == STORE_MEM_ACK => sides.model[25] ^= 1,
        _ => {}
    }
    let expected = five(&call_answer);
    let mut out = answer_words(r, 5);
    let returned = reference::call(&mut sides.reference, call, &mut out);
    let after = answered(&out, &expected);
    if out != after {
        answers_differ("reference", &out, &after)?;
    }
    if returned != expected[0] {
        return Err(format!("number returned\nreference: {returned}\nmodel: {}\n", expected[0]));
    }
    words_differ("reference", &sides.reference, &sides.model)?;
    let inplace = inplace::call(&mut sides.inplace, call);
    let mut out = [0; 5];
    inplace.put(&mut out);
    answers_differ("in place", &out, &expected)?;
    words_differ("in place", &sides.inplace, &sides.model)?;
    counts.calls += 1;
    counts.refusals[expected[0] as usize] += 1;
    counts.messages += sent.len() as u64;
    counts.most = counts.most.max(sent.len() as u64);
    sent_messages(&sides.reference, &call_answer, &sent, line, r, wrong)?;
    Ok(call_answer)
}

fn sent_messages(
    words: &[u64],
    call_answer: &CallAnswer,
    sent: &[Sent],
    line: u64,
    r: &mut Random,
    wrong: Wrong,
) -> Outcome {
    let count = reference::message_count(call_answer.sent, call_answer.tiles);
    if count != sent.len() as u64 {
        return Err(format!("number of messages\nreference: {count}\nmodel: {}\n", sent.len()));
    }
    for (i, message) in sent.iter().enumerate() {
        let named = Named { sent: call_answer.sent, tiles: call_answer.tiles, i: i as u64 };
        message_flits(words, named, Some(message), line, r, wrong)?;
    }
    Ok(())
}

/// The flits of a message that is named, or of none, at some place of a buffer.
pub fn message_flits(
    words: &[u64],
    named: Named,
    message: Option<&Sent>,
    line: u64,
    r: &mut Random,
    wrong: Wrong,
) -> Outcome {
    let before: Vec<u64> = vec![UNTOUCHED; 11 + r.below(6) as usize];
    let place = if r.below(16) == 0 { r.next() >> r.below(64) } else { r.below(6) };
    let mut flits = [0; MAX_FLITS];
    let written = match message {
        None => Err(refusal::TYPE),
        Some(sent) => messages::write(sent, line, &mut flits),
    };
    if let (Wrong::Message, Ok(9)) = (wrong, written) {
        flits[8] ^= 1;
    }
    let mut model = before.clone();
    let expected = match written {
        Err(number) => [number, 0],
        Ok(used) if place > before.len() as u64 || (before.len() as u64) - place < used as u64 => [refusal::PLACE, 0],
        Ok(used) => {
            model[place as usize..place as usize + used].copy_from_slice(&flits[..used]);
            [0, used as u64]
        }
    };
    let (mut buffer, mut own) = (before.clone(), before);
    let mut out = answer_words(r, 2);
    let mut other = out.clone();
    let returned = reference::message_flits(words, named, line, &mut buffer, place, &mut out);
    let by_hand = tight::message_flits(words, named, line, &mut own, place as usize, &mut other);
    let after = answered(&out, &expected);
    let same = returned == expected[0] && out == after && buffer == model;
    if same && by_hand == expected[0] && other == after && own == model {
        return Ok(());
    }
    Err(format!(
        "flits of message {} (sent {}, tiles {:X}) of line {line:X}, at place {place}\nreference: {returned} {out:?} {}\nmodel: {} {after:?} {}\nby hand: {by_hand} {other:?} {}\n",
        named.i,
        named.sent,
        named.tiles,
        hex(&buffer),
        expected[0],
        hex(&model),
        hex(&own),
    ))
}

/// The flits of a message out of any words, where the model has no bench to name it: the reference and the code by hand.
pub fn message_flits_of_any(words: &[u64], named: Named, line: u64, r: &mut Random) -> Outcome {
    let mut sides = [(); 2].map(|_| (vec![UNTOUCHED; 16], [UNTOUCHED; 2]));
    let place = r.below(8);
    let [(flits, report), (own, other)] = &mut sides;
    let returned = reference::message_flits(words, named, line, flits, place, report);
    let by_hand = tight::message_flits(words, named, line, own, place as usize, other);
    if returned == by_hand && flits == own && report == other {
        return Ok(());
    }
    Err(format!(
        "flits of message {} (sent {}, tiles {:X}) of line {line:X}, at place {place}\nreference: {returned} {report:?} {}\nby hand: {by_hand} {other:?} {}\n",
        named.i,
        named.sent,
        named.tiles,
        hex(flits),
        hex(own),
    ))
}

/// The message that an answer's numbers name, by docs/LAYOUT.md, 'Which messages a call sent'.
pub fn named_message(bench: &Bench, named: Named) -> Option<Sent> {
    let tile = |n: u64| (0..64).filter(|t| named.tiles >> t & 1 == 1).nth(n as usize);
    let way = match (named.sent, named.i) {
        (1, i) => Way::Noc1(tile(i)?),
        (2, i) => Way::Noc2(tile(i)?),
        (3, i) => Way::Noc3(tile(i)?),
        (4, 0) => Way::ToMemory,
        (5, 0) => Way::FromMemory,
        (6, 0) => Way::Noc3(tile(0)?),
        (6, 1) => Way::Noc1(tile(0)?),
        _ => return None,
    };
    if let Way::Noc1(t) | Way::Noc2(t) | Way::Noc3(t) = way {
        bench.tiles.get(t)?;
    }
    let queue = bench.queue(way);
    let last = queue.count.checked_sub(1)?;
    Some(Sent { way, message: queue.slots[last as usize] })
}

/// A start on each side, compared.
pub fn start(sides: &mut Sides, tiles: u64, memory: &[u64], r: &mut Random, counts: &mut Counts) -> Outcome {
    let call_answer = match memory.try_into() {
        Ok(eight) => words::start(&mut sides.model, tiles, eight),
        Err(_) => CallAnswer { answer: model::steps::Answer { refusal: 1, kind: 0, value: 0 }, sent: 0, tiles: 0 },
    };
    let expected = five(&call_answer);
    let mut out = answer_words(r, 5);
    let returned = reference::start(&mut sides.reference, tiles, memory, &mut out);
    counts.calls += 1;
    counts.refusals[expected[0] as usize] += 1;
    let after = answered(&out, &expected);
    if out != after || returned != expected[0] {
        return Err(format!(
            "start of {tiles} tiles\nreference: {returned} {out:?}\nmodel: {} {after:?}\n",
            expected[0]
        ));
    }
    words_differ("reference", &sides.reference, &sides.model)?;
    if let Ok(eight) = memory.try_into() {
        inplace::start(&mut sides.inplace, tiles, eight);
        words_differ("in place", &sides.inplace, &sides.model)?;
    }
    Ok(())
}

/// Numbers at and past the ends of every range.
pub fn odd_number(r: &mut Random, limit: u64) -> u64 {
    match r.below(8) {
        0 => limit,
        1 => limit + 1,
        2 => 63 + r.below(3),
        3 => 255 + r.below(2),
        4 => 1 << r.below(64),
        5 => u64::MAX,
        6 => (1 << 32) + r.below(limit.max(1)),
        _ => r.next(),
    }
}

/// A line's address, at times one that is none.
pub fn any_line(r: &mut Random) -> u64 {
    let line = r.below(1 << 48) & !63;
    match r.below(24) {
        0 => line | r.below(64),
        1 => line | 1 << (48 + r.below(16)),
        2 => u64::MAX - r.below(64),
        3 => (1 << 48) - 1 - r.below(64),
        _ => line,
    }
}

/// How eager a list's calls are, and which tiles they are about.
pub struct Style {
    hot: Vec<u64>,
    /// Of 100 calls, loads, stores and evictions of tiles, and home evictions.
    accesses: u64,
    home: u64,
    /// Of 100 accesses.
    stores: u64,
    evictions: u64,
}

impl Style {
    pub fn any(r: &mut Random, tiles: u64) -> Style {
        if r.below(4) == 0 {
            // Many share before one stores.
            return Style {
                hot: (0..tiles).collect(),
                accesses: 25 + r.below(10),
                home: r.below(2),
                stores: 1,
                evictions: 0,
            };
        }
        let hot = match r.below(3) {
            0 => (0..tiles).collect(),
            1 => (0..3).map(|_| r.below(tiles)).collect(),
            _ => (0..8).map(|_| r.below(tiles)).collect(),
        };
        Style { hot, accesses: 20 + r.below(40), home: r.below(6), stores: 10 + r.below(60), evictions: 12 }
    }
}

fn delivery(words: &[u64], r: &mut Random) -> Option<Call> {
    let tiles = words[0];
    let mut can = vec![];
    if words[1] == 0 && (0..tiles).any(|t| words[tile_place(t) + 12] != 0) {
        can.push(Call::Arbitrate);
    }
    if words[26] != 0 {
        can.push(Call::MemoryStep);
    }
    if words[50] != 0 {
        can.push(Call::MemoryAck);
    }
    for tile in 0..tiles {
        if words[tile_place(tile) + 36] != 0 {
            can.push(Call::ToTile { tile });
        }
        if words[tile_place(tile) + 60] != 0 {
            can.push(Call::FromTile { tile });
        }
    }
    (!can.is_empty()).then(|| can[r.below(can.len() as u64) as usize])
}

/// The next call of a list: mostly one that moves the bench on, at times any call with any numbers.
pub fn next_call(words: &[u64], style: &Style, r: &mut Random) -> Call {
    let tiles = words[0];
    let hot = style.hot[r.below(style.hot.len() as u64) as usize];
    let tile = if r.below(64) == 0 { odd_number(r, tiles) } else { hot };
    let word = if r.below(64) == 0 { odd_number(r, 8) } else { r.below(8) };
    let value = if r.below(4) == 0 { r.below(3) } else { r.next() };
    let access = |r: &mut Random| match r.below(100) {
        n if n < style.stores => Call::Store { tile, word, value },
        n if n < style.stores + style.evictions => Call::Evict { tile },
        _ => Call::Load { tile, word },
    };
    match r.below(100) {
        n if n < style.home => Call::HomeEviction,
        n if n < style.home + 8 => {
            [Call::Arbitrate, Call::ToTile { tile }, Call::FromTile { tile }, Call::MemoryStep, Call::MemoryAck]
                [r.below(5) as usize]
        }
        n if n < style.home + 8 + style.accesses => access(r),
        _ => delivery(words, r).unwrap_or_else(|| access(r)),
    }
}
