//! Benches made by hand: well formed ones, most of them not reachable, and damaged ones.

use crate::calls::{self, odd_number, Sides};
use crate::reference::Named;
use crate::runs::line_of;
use crate::{Counts, Outcome, Wrong};
use model::random::Random;
use model::samples::{any_bench, any_message, TYPES};
use model::steps::Call;
use model::words::{encode, need, tile_place};

fn any_count(r: &mut Random) -> u64 {
    match r.below(32) {
        0 => 64,
        1 => 1 + r.below(64),
        2..=5 => 1 + r.below(12),
        _ => 1 + r.below(4),
    }
}

/// The words that are not 0.
fn describe(words: &[u64], why: &str) -> String {
    let mut text = format!("on {} words ({why}), those that are not 0 by place:\n", words.len());
    for (place, word) in words.iter().enumerate().filter(|(_, &word)| word != 0) {
        text += &format!("{place}:{word:X} ");
    }
    text + "\n"
}

/// Every call there is, at some tiles, each on these words.
fn every_call(words: &[u64], why: &str, r: &mut Random, wrong: Wrong, counts: &mut Counts) -> Outcome {
    let tiles = words.first().map_or(1, |&n| n.clamp(1, 64));
    let mut list = vec![Call::Arbitrate, Call::MemoryStep, Call::MemoryAck, Call::HomeEviction];
    let some = if tiles <= 2 { tiles } else { 3 };
    for i in 0..some {
        let tile = if tiles <= 2 { i } else { r.below(tiles) };
        let word = if r.below(16) == 0 { odd_number(r, 8) } else { r.below(8) };
        list.push(Call::Load { tile, word });
        list.push(Call::Store { tile, word, value: r.next() });
        list.push(Call::Evict { tile });
        list.push(Call::ToTile { tile });
        list.push(Call::FromTile { tile });
    }
    let (tile, word) = (odd_number(r, tiles), odd_number(r, 8));
    list.push(
        [Call::Load { tile, word }, Call::Evict { tile }, Call::ToTile { tile }, Call::FromTile { tile }]
            [r.below(4) as usize],
    );
    let line = calls::any_line(r);
    calls::well_formed(words, wrong).map_err(|what| what + &describe(words, why))?;
    let mut sides = Sides::of(words);
    for call in list {
        let refused = calls::call(&mut sides, call, line, r, wrong, counts)
            .map_err(|what| format!("{what}call {}{}", line_of(call), describe(words, why)))?
            .answer
            .refusal;
        if refused == 0 {
            sides.set(words);
        } else if sides.reference != words {
            return Err(format!("refused, and words changed\ncall {}{}", line_of(call), describe(words, why)));
        }
    }
    Ok(())
}

/// One thing wrong with the words, or with how many are lent.
fn damage(words: &mut Vec<u64>, r: &mut Random) -> String {
    let tiles = words[0];
    let place = if r.below(3) == 0 { r.below(74) } else { r.below(words.len() as u64) } as usize;
    let was = words[place];
    match r.below(12) {
        0 => {
            let n = match r.below(3) {
                0 => words.len() - 1,
                1 => [0, 1, 73, 74, 75][r.below(5) as usize],
                _ => r.below(words.len() as u64) as usize,
            };
            words.truncate(n);
            return format!("cut to {n}");
        }
        1 => {
            words[0] = odd_number(r, tiles);
            return "another T".into();
        }
        2 => {
            // A message of any type on any queue.
            let queues: Vec<usize> = [26, 38, 50, 62]
                .into_iter()
                .chain([12, 24, 36, 48, 60, 72].map(|at| tile_place(r.below(tiles)) + at))
                .collect();
            let at = queues[r.below(queues.len() as u64) as usize];
            let kind = TYPES[r.below(16) as usize];
            let m = any_message(r, kind);
            let flag = if kind == 21 || kind == 22 { m.has_data } else { m.miss };
            words[at..at + 4].copy_from_slice(&[m.kind, m.word, m.state, flag]);
            words[at + 4..at + 12].copy_from_slice(&m.data);
            return format!("a message put at {at}");
        }
        3 => words[place] = r.next(),
        4 => words[place] ^= 1 << r.below(64),
        5 => words[place] = was.wrapping_add(1),
        6 => words[place] = was.wrapping_sub(1),
        7 => words[place] = 0,
        8 => words[place] = 1,
        9 => words[place] = tiles,
        10 => words[place] = 1 << tiles.min(63),
        _ => words[place] = r.below(34),
    }
    format!("word {place} was {was:X}")
}

fn any_name(r: &mut Random) -> Named {
    Named { sent: r.below(8), tiles: r.next() >> r.below(64), i: r.below(4) }
}

/// A message of any numbers, most of them near the allowed ones, as the second of a queue; and its name.
fn put_any_numbers(words: &mut [u64], r: &mut Random) -> Named {
    let (sent, tile) = (1 + r.below(5), r.below(words[0]));
    let second = match sent {
        4 => 38,
        5 => 62,
        _ => tile_place(tile) + 24 * sent as usize,
    };
    let head = [32, 8, 4, 2].map(|limit| if r.below(12) == 0 { odd_number(r, limit) } else { r.below(limit + 1) });
    words[second..second + 4].copy_from_slice(&head);
    Named { sent, tiles: 1 << tile, i: 0 }
}

pub fn case(_: u64, r: &mut Random, wrong: Wrong, counts: &mut Counts) -> Outcome {
    let tiles = any_count(r);
    let bench = any_bench(r, tiles);
    let mut words = encode(&bench);
    assert_eq!(words.len(), need(tiles));
    every_call(&words, "well formed", r, wrong, counts)?;
    for _ in 0..4 {
        let named = any_name(r);
        let message = calls::named_message(&bench, named);
        calls::message_flits(&words, named, message.as_ref(), calls::any_line(r), r, wrong)
            .map_err(|what| what + &describe(&words, "well formed"))?;
    }
    let mut damaged = words.clone();
    let why = damage(&mut damaged, r);
    every_call(&damaged, &why, r, wrong, counts)?;
    for _ in 0..4 {
        let named = any_name(r);
        calls::message_flits_of_any(&damaged, named, calls::any_line(r), r)
            .map_err(|what| what + &describe(&damaged, &why))?;
    }
    let mut odd = words.clone();
    for _ in 0..4 {
        let named = put_any_numbers(&mut odd, r);
        calls::message_flits_of_any(&odd, named, calls::any_line(r), r)
            .map_err(|what| what + &describe(&odd, "messages of any numbers"))?;
    }
    words.extend((0..1 + r.below(30)).map(|_| r.next()));
    every_call(&words, "words behind", r, wrong, counts)
}
