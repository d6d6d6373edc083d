//! 01's own examples: the listing, and the beats P1 to P10 and those that follow them.

use model::bench::*;
use model::flits::{self, *};
use model::job;
use model::steps::*;
use model::text;

const LISTING: &str = "\
bench 1 000080001040
1 0 3 0
> 000000000087C000 0000800010400400 0000000000000000
2 0 3 0
> 000000008084C000 0000800010400700 0000000000000000
3 0 3 0
> 0000000002060000 0000000000000007 0000000000000000 0000000000000000 0000000000000000 0000000000000000 0000000000000000 0000000000000000 0000000000000000
4 0 3 0
> 0000000002074028 0000000000000007 0000000000000000 0000000000000000 0000000000000000 0000000000000000 0000000000000000 0000000000000000 0000000000000000
5 0 1 7
end 5
";

#[test]
fn listing() {
    let bytes = [
        &[1, 0, 1, 1][..],
        &[2, 0, 6, 0, 0, 0x80, 0, 0x10, 0x40],
        &[3, 0, 64, 0, 0, 0, 0, 0, 0, 0, 7],
        &[0; 56],
        &[16, 0, 2, 0, 0, 19, 0, 0, 22, 0, 0, 23, 0, 0, 20, 0, 1, 0],
    ]
    .concat();
    assert_eq!(job::run(&bytes), LISTING);
    let example = std::fs::read(concat!(env!("CARGO_MANIFEST_DIR"), "/../../jobs/example.txt")).unwrap();
    assert_eq!(text::to_job(&example).unwrap(), bytes);
}

/// A bench under test: each call says which answer it wants and how many messages it sends.
struct Run(Bench);

impl Run {
    fn call(&mut self, call: Call) -> (Answer, Vec<Message>) {
        let before = self.0.clone();
        let mut sent = Vec::new();
        let answer = self.0.call(call, &mut sent);
        if answer.refusal != 0 {
            assert_eq!(self.0, before);
            assert!(sent.is_empty());
        }
        (answer, sent.iter().map(|s| s.message).collect())
    }

    /// The call is accepted with this kind and value and sends messages of these types.
    fn gives(&mut self, call: Call, kind: u64, value: u64, types: &[u64]) {
        let (answer, sent) = self.call(call);
        assert_eq!(answer, Answer { refusal: 0, kind, value }, "{call:?}");
        assert_eq!(sent.iter().map(|m| m.kind).collect::<Vec<_>>(), types, "{call:?}");
    }

    fn refuses(&mut self, call: Call, refusal: u64) {
        assert_eq!(self.call(call).0, Answer { refusal, kind: 0, value: 0 }, "{call:?}");
    }
}

#[test]
fn beats() {
    let load = |tile, word| Call::Load { tile, word };
    let store = |tile, word, value| Call::Store { tile, word, value };
    let evict = |tile| Call::Evict { tile };
    let to = |tile| Call::ToTile { tile };
    let from = |tile| Call::FromTile { tile };
    let mut r = Run(Bench::start(2, [7, 0, 0, 0, 0, 0, 0, 0]).unwrap());

    // P1
    r.gives(load(0, 0), 3, 0, &[LOAD_REQ]);
    r.gives(Call::Arbitrate, 3, 0, &[LOAD_MEM]);
    r.gives(Call::MemoryStep, 3, 0, &[LOAD_MEM_ACK]);
    r.gives(Call::MemoryAck, 3, 0, &[DATA_ACK]);
    r.gives(to(0), 1, 7, &[]);
    assert_eq!(r.0.tiles[0].state, E);
    // P2
    r.gives(store(0, 0, 9), 2, 0, &[]);
    assert_eq!(r.0.tiles[0].state, M);
    // P3
    r.gives(load(1, 0), 3, 0, &[LOAD_REQ]);
    r.gives(Call::Arbitrate, 3, 1, &[LOAD_FWD]);
    r.gives(to(0), 3, 0, &[LOAD_FWDACK]);
    r.gives(from(0), 3, 0, &[DATA_ACK]);
    r.gives(to(1), 1, 9, &[]);
    assert_eq!((r.0.tiles[0].state, r.0.tiles[1].state), (S, S));
    assert_eq!(r.0.home.sharers, 3);
    // P4
    r.gives(store(1, 0, 4), 3, 0, &[STORE_REQ]);
    r.gives(Call::Arbitrate, 3, 1, &[INV_FWD]);
    assert_eq!((r.0.home.sharers, r.0.home.owed), (3, 1));
    r.gives(to(0), 3, 0, &[INV_FWDACK]);
    r.gives(from(0), 3, 0, &[DATA_ACK]);
    r.gives(to(1), 2, 0, &[]);
    assert_eq!((r.0.tiles[0].state, r.0.tiles[1].state), (I, M));
    assert_eq!(r.0.home.words[0], 9);
    // P5
    r.gives(evict(1), 3, 0, &[WB_REQ, WBGUARD_REQ]);
    r.gives(load(1, 0), 3, 0, &[LOAD_REQ]);
    r.refuses(Call::Arbitrate, 7);
    r.gives(from(1), 0, 0, &[]);
    assert_eq!((r.0.home.directory, r.0.home.dirty, r.0.home.marks), (I, 1, 2));
    // P6
    r.gives(Call::Arbitrate, 0, 1, &[]);
    r.gives(Call::Arbitrate, 3, 1, &[DATA_ACK]);
    r.gives(to(1), 1, 4, &[]);
    assert_eq!(r.0.tiles[1].state, E);
    // P7
    r.gives(evict(1), 0, 0, &[]);
    r.gives(load(0, 0), 3, 0, &[LOAD_REQ]);
    r.gives(Call::Arbitrate, 3, 0, &[LOAD_FWD]);
    r.gives(to(1), 3, 0, &[LOAD_FWDACK]);
    assert_eq!(r.0.tiles[1].noc3.slots[0].state, I);
    r.gives(from(1), 3, 0, &[DATA_ACK]);
    assert_eq!(r.0.tiles[0].noc2.slots[0].state, E);
    r.gives(to(0), 1, 4, &[]);
    // P8
    r.gives(Call::HomeEviction, 3, 0, &[STORE_FWD]);
    r.gives(to(0), 3, 0, &[STORE_FWDACK]);
    r.gives(from(0), 3, 0, &[STORE_MEM]);
    r.gives(Call::MemoryStep, 3, 0, &[STORE_MEM_ACK]);
    assert_eq!(r.0.memory[0], 4);
    r.gives(Call::MemoryAck, 0, 0, &[]);
    assert_eq!(r.0.home, Home { last_taken: 0, ..Home::default() });
    // P9
    r.refuses(load(2, 0), 2);
    r.refuses(load(0, 8), 3);
    r.refuses(load(2, 8), 2);
    r.gives(load(1, 7), 3, 0, &[LOAD_REQ]);
}

#[test]
fn p10_and_flit_cases() {
    let front = [0x0000_0000_0005_C041];
    let read = flits::read(&front).unwrap();
    assert_eq!(read.fields, Fields { kind: INV_FWDACK, tag: 1, last: 1, ..Fields::default() });
    assert_eq!((read.used, read.data.len()), (1, 0));
    assert_eq!(flits::read(&[0x0000_0000_0005_C040]), Err(16));

    let data_ack = [0x0000_0000_0207_4028, 7, 0, 0, 0, 0, 0, 0, 0];
    let read = flits::read(&data_ack).unwrap();
    assert_eq!(read.fields, Fields { kind: DATA_ACK, state: E, miss: 1, ..Fields::default() });
    assert_eq!(read.used, 9);
    // The data are those words of the caller's flits, not a copy.
    assert_eq!(read.data.as_ptr(), data_ack[1..].as_ptr());
    assert_eq!(read.data.len(), 8);
    assert_eq!(flits::read(&data_ack[..8]), Err(13));
}

#[test]
fn tile_counts() {
    assert!(Bench::start(64, [0; 8]).unwrap().well_formed());
    assert_eq!(Bench::start(65, [0; 8]), Err(2));
    assert_eq!(Bench::start(0, [0; 8]), Err(2));
    assert_eq!(Bench::start(1, [0; 8]).unwrap().home.last_taken, 0);
    assert_eq!(Bench::start(64, [0; 8]).unwrap().home.last_taken, 63);
}
