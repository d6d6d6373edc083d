//! docs/LAYOUT.md: round trips, and every damage of one word judged as 01 says.

use model::bench::*;
use model::flits::*;
use model::random::Random;
use model::samples::{all_calls, full, plain, queue, DATA};
use model::steps::*;
use model::words::{call, decode, encode, need, start, tile_place, CallAnswer};

const MAX: u64 = u64::MAX;

/// Numbers at the ends of every range that 01 names, and all types.
fn numbers() -> Vec<u64> {
    (0..34).chain([63, 64, 65, 1 << 32, 1 << 63, MAX]).collect()
}

/// What a place of a bench may hold: any of the numbers, or these.
enum May {
    Any,
    Be(&'static [u64]),
}

const NOTHING: May = May::Be(&[0]);

/// Each place takes exactly what `may` says, the other places staying as they are.
fn judge_each(words: &[u64], may: impl Fn(usize) -> May) {
    assert!(decode(words).is_ok());
    for place in 0..words.len() {
        for number in numbers() {
            let mut damaged = words.to_vec();
            damaged[place] = number;
            let fits = match may(place) {
                May::Any => true,
                May::Be(these) => these.contains(&number),
            };
            assert_eq!(decode(&damaged).is_ok(), fits, "place {place} number {number}");
            if !fits {
                refused_everywhere(&damaged);
            }
        }
    }
}

fn refused_everywhere(words: &[u64]) {
    for c in all_calls(99, 99) {
        let mut after = words.to_vec();
        let call_answer = call(&mut after, c);
        assert_eq!(call_answer, CallAnswer { answer: Answer { refusal: 1, kind: 0, value: 0 }, sent: 0, tiles: 0 });
        assert_eq!(after, words);
    }
}

#[test]
fn sizes() {
    assert_eq!([1, 2, 64].map(need), [158, 242, 5450]);
    assert!((1..=64).all(|t| need(t) <= 128 * (t as usize + 1)));
}

#[test]
fn a_fresh_bench() {
    let mut words = vec![77; need(2)];
    assert_eq!(start(&mut words, 2, DATA), CallAnswer::default());
    judge_each(&words, |place| match place {
        0 => May::Be(&[2]),
        1 => May::Be(&[0, 1, 2, 8]),
        2 => May::Be(&[0, 1]),
        14 => May::Be(&[0, 1]),
        15 => May::Be(&[0, 1, 2, 3]),
        18..=25 => May::Any,
        26 => May::Be(&[0, 19, 20]),
        50 => May::Be(&[0, 24, 25]),
        0..=73 => NOTHING,
        _ => match (place - 74) % 84 {
            0 => May::Be(&[0, 1, 2, 3]),
            1 => May::Be(&[0, 1, 2]),
            12 => May::Be(&[0, 2, 13, 31]),
            36 => May::Be(&[0, 16, 17, 18]),
            60 => May::Be(&[0, 12, 21, 22, 23]),
            _ => NOTHING,
        },
    });
}

/// One tile, every place in use: M, a waiting store, every queue full, the home waiting for invalidations.
fn busy() -> Bench {
    let mut b = Bench::start(1, DATA).unwrap();
    b.home = Home { valid: 1, dirty: 1, words: DATA, directory: S, sharers: 1, marks: 1, ..b.home };
    b.home = Home { phase: FOR_INVALIDATIONS, reason: FOR_STORE, owed: 1, ..b.home };
    b.to_memory = queue(&[full(STORE_MEM), plain(LOAD_MEM)]);
    b.from_memory = queue(&[full(LOAD_MEM_ACK), plain(STORE_MEM_ACK)]);
    b.tiles[0] = Tile {
        state: M,
        wait: WAIT_STORE,
        wait_word: 7,
        wait_value: MAX,
        words: DATA,
        noc1: queue(&[Message { word: 7, ..plain(LOAD_REQ) }, plain(WBGUARD_REQ)]),
        noc2: queue(&[Message { state: E, miss: 1, ..full(DATA_ACK) }, plain(INV_FWD)]),
        noc3: queue(&[Message { state: S, ..full(LOAD_FWDACK) }, full(STORE_FWDACK)]),
    };
    b
}

#[test]
fn a_busy_bench() {
    judge_each(&encode(&busy()), |place| match place {
        0 => May::Be(&[1]),
        1 => May::Be(&[6, 7]),
        2 => May::Be(&[1]),
        3 => May::Be(&[0, 1]),
        4 => May::Be(&[1]),
        5 => May::Be(&[0, 1]),
        6..=13 | 18..=25 => May::Any,
        15 | 17 => May::Be(&[0, 1]),
        26 => May::Be(&[20]),
        30..=37 => May::Any,
        38 => May::Be(&[0, 19, 20]),
        50 => May::Be(&[24]),
        54..=61 => May::Any,
        62 => May::Be(&[0, 24, 25]),
        0..=73 => NOTHING,
        _ => match place - 74 {
            0 => May::Be(&[1, 2, 3]),
            1 => May::Be(&[2]),
            2 => May::Be(&[0, 1, 2, 3, 4, 5, 6, 7]),
            3..=11 => May::Any,
            12 => May::Be(&[2, 31]),
            13 => May::Be(&[0, 1, 2, 3, 4, 5, 6, 7]),
            24 => May::Be(&[0, 2, 13, 31]),
            36 => May::Be(&[29]),
            38 => May::Be(&[1, 2, 3]),
            39 => May::Be(&[0, 1]),
            40..=47 => May::Any,
            48 => May::Be(&[0, 16, 17, 18]),
            60 => May::Be(&[21]),
            62 => May::Be(&[1]),
            63 => May::Be(&[1]),
            64..=71 => May::Any,
            72 => May::Be(&[22]),
            75 => May::Be(&[1]),
            76..=83 => May::Any,
            _ => NOTHING,
        },
    });
}

/// Whatever the words, decoding keeps them: what decodes is the encoding of what it decodes to.
#[test]
fn words_that_decode_are_an_encoding() {
    let mut r = Random(4);
    let mut kept = 0;
    for words in [encode(&busy()), encode(&Bench::start(2, DATA).unwrap())] {
        for _ in 0..200_000 {
            let mut damaged = words.clone();
            for _ in 0..1 + r.below(3) {
                let place = r.below(words.len() as u64) as usize;
                damaged[place] = numbers()[r.below(40) as usize];
            }
            if let Ok(bench) = decode(&damaged) {
                assert_eq!(encode(&bench), damaged[..need(bench.tile_count)]);
                kept += 1;
            }
        }
    }
    assert!(kept > 10_000);
}

#[test]
fn runs_in_words_are_runs_of_benches() {
    let mut r = Random(5);
    for tiles in [1, 2, 3, 64] {
        let mut bench = Bench::start(tiles, DATA).unwrap();
        let mut words = vec![MAX; need(tiles) + 3];
        assert_eq!(start(&mut words, tiles, DATA), CallAnswer::default());
        for _ in 0..1000 {
            let tile = r.below(tiles.min(4));
            let c = all_calls(tile, r.below(8))[r.below(9) as usize];
            let mut sent = vec![];
            let answer = bench.call(c, &mut sent);
            let call_answer = call(&mut words, c);
            assert_eq!(call_answer, model::words::call_answer(answer, &sent));
            assert_eq!(encode(&bench), words[..need(tiles)]);
            assert_eq!(words[need(tiles)..], [MAX; 3]);
            assert_eq!(decode(&words).as_ref(), Ok(&bench));
        }
    }
}

#[test]
fn too_few_words() {
    for tiles in [1, 2, 64] {
        let words = encode(&Bench::start(tiles, DATA).unwrap());
        assert_eq!(words.len(), need(tiles));
        for room in [0, 1, 73, 74, need(tiles) - 1] {
            refused_everywhere(&words[..room]);
            let mut lent = words[..room].to_vec();
            assert_eq!(start(&mut lent, tiles, DATA).answer.refusal, 1);
            assert_eq!(start(&mut lent, 65, DATA).answer.refusal, 2);
            assert_eq!(lent, words[..room]);
        }
    }
    assert_eq!(tile_place(1), need(1));
}
