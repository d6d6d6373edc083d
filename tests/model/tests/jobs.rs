//! Jobs: the check and its refusals, the listing, and the text form both ways.

use model::job::{self, Job, Refused};
use model::random::Random;
use model::steps::Call;
use model::text;

fn header() -> Vec<u8> {
    job::bytes(&Job { tiles: 2, line: 0x40, memory: [1, 2, 3, 4, 5, 6, 7, 8], calls: vec![] })
}

#[track_caller]
fn refused(bytes: &[u8], number: u64, offset: usize) {
    assert_eq!(job::check(bytes), Err(Refused { number, offset }));
    assert_eq!(job::run(bytes), format!("job refused {number} at {offset}\n"));
}

#[test]
fn refusals() {
    let head = header();
    assert_eq!(head.len(), 80);
    let after = |more: &[u8]| [&head, more].concat();
    refused(&[], 23, 0);
    refused(&[1], 20, 0);
    refused(&[1, 0], 20, 0);
    // A bad tag or length is not looked at before three bytes are there.
    refused(&[0, 9], 20, 0);
    refused(&[0, 0, 0], 21, 0);
    refused(&[25, 0, 0], 21, 0);
    refused(&[4, 9, 9], 21, 0);
    refused(&[1, 0, 0], 22, 0);
    refused(&[1, 1, 1, 5], 22, 0);
    refused(&[1, 0, 2, 0, 0], 22, 0);
    // Length before the cut value, the cut value before the place, the place before the value.
    refused(&[2, 0, 5], 22, 0);
    refused(&[2, 0, 6, 1], 20, 0);
    refused(&[2, 0, 6, 0, 0, 0, 0, 0, 1], 23, 0);
    refused(&[1, 0, 1, 0], 24, 0);
    refused(&[1, 0, 1, 65], 24, 0);
    refused(&[1, 0, 1, 255], 24, 0);
    refused(&[1, 0, 1, 64], 23, 4);
    refused(&[1, 0, 1, 64, 1, 0, 1, 64], 23, 4);
    refused(&[1, 0, 1, 64, 1, 0, 1, 0], 23, 4);
    refused(&[1, 0, 1, 64, 19, 0, 0], 23, 4);
    refused(&[1, 0, 1, 64, 2, 0, 6, 0, 0, 0, 0, 0, 32], 24, 4);
    refused(&[1, 0, 1, 64, 2, 0, 6, 0, 0, 0, 0, 0, 64], 23, 13);
    refused(&[1, 0, 1, 64, 2, 0, 6, 0, 0, 0, 0, 0, 64, 19, 0, 0], 23, 13);
    refused(&after(&[1, 0, 1, 2]), 23, 80);
    refused(&after(&[2, 0, 6, 0, 0, 0, 0, 0, 1]), 23, 80);
    refused(&after(&[19, 0, 0, 19, 0]), 20, 83);
    refused(&after(&[19, 0, 0, 16, 0, 2, 0]), 20, 83);
    refused(&after(&[19, 0, 1]), 22, 80);
    // The first bad field counts, not the lowest number.
    refused(&after(&[19, 0, 0, 26, 0, 0, 16]), 21, 83);
    for tag in 0..=255u8 {
        let known = matches!(tag, 1..=3 | 16..=24);
        let number = if known { 20 } else { 21 };
        refused(&after(&[tag, 0]), 20, 80);
        if !known || matches!(tag, 1..=3 | 16..=18 | 20 | 21) {
            let length = match tag {
                2 => 6,
                3 => 64,
                16 => 2,
                17 => 10,
                _ => 1,
            };
            refused(&after(&[tag, 0, length]), number, 80);
        }
    }
    // Tile and word numbers of calls are the bench's business.
    assert_eq!(job::run(&after(&[16, 0, 2, 200, 200])), "bench 2 000000000040\n1 2 0 0\nend 1\n");
    assert_eq!(job::run(&head), "bench 2 000000000040\nend 0\n");
}

#[test]
fn cuts() {
    let whole = [header(), job::call_field(Call::Store { tile: 0, word: 0, value: 1 })].concat();
    for n in 0..whole.len() {
        let (number, offset) = match n {
            0 | 4 | 13 => (23, n),
            80 => {
                assert!(job::check(&whole[..n]).is_ok());
                continue;
            }
            1..=3 => (20, 0),
            5..=12 => (20, 4),
            14..=79 => (20, 13),
            _ => (20, 80),
        };
        refused(&whole[..n], number, offset);
    }
}

#[test]
fn too_long() {
    let mut bytes = header();
    // 65,456 bytes are left: 5,034 fields of 13, two of 5, one of 4.
    for _ in 0..5_034 {
        bytes.extend(job::call_field(Call::Store { tile: 0, word: 0, value: 0 }));
    }
    for _ in 0..2 {
        bytes.extend(job::call_field(Call::Load { tile: 0, word: 0 }));
    }
    bytes.extend(job::call_field(Call::Evict { tile: 0 }));
    assert_eq!(bytes.len(), 65_536);
    assert!(job::check(&bytes).is_ok());
    bytes.push(19);
    refused(&bytes, 25, 65_536);
    refused(&vec![0; 65_537], 25, 65_536);
    refused(&vec![0; 65_536], 21, 0);
    refused(&vec![0; 1_000_000], 25, 65_536);
}

fn random_job(r: &mut Random) -> Job {
    let number = |r: &mut Random| {
        let n = r.next();
        if n % 2 == 0 {
            n >> 48
        } else {
            n
        }
    };
    let mut calls = vec![];
    for _ in 0..r.below(40) {
        let (tile, word) = (r.below(256), r.below(256));
        calls.push(match r.below(9) {
            0 => Call::Load { tile, word },
            1 => Call::Store { tile, word, value: number(r) },
            2 => Call::Evict { tile },
            3 => Call::Arbitrate,
            4 => Call::ToTile { tile },
            5 => Call::FromTile { tile },
            6 => Call::MemoryStep,
            7 => Call::MemoryAck,
            _ => Call::HomeEviction,
        });
    }
    Job { tiles: 1 + r.below(64), line: r.below(1 << 42) * 64, memory: std::array::from_fn(|_| number(r)), calls }
}

#[test]
fn round_trips() {
    let mut r = Random(7);
    for _ in 0..2_000 {
        let j = random_job(&mut r);
        let bytes = job::bytes(&j);
        assert_eq!(job::check(&bytes).as_ref(), Ok(&j));
        let t = text::from_job(&bytes).unwrap();
        assert_eq!(text::to_job(t.as_bytes()).as_ref(), Ok(&bytes));
        // A damaged job is refused alike by the check and by the converter; one that is accepted goes round too.
        let mut bad = bytes.clone();
        match r.below(3) {
            0 => bad.truncate(r.below(bad.len() as u64) as usize),
            1 => bad[r.below(80) as usize] ^= 1 << r.below(8),
            _ => bad.insert(r.below(bytes.len() as u64) as usize, r.below(26) as u8),
        }
        match text::from_job(&bad) {
            Ok(t) => assert_eq!(text::to_job(t.as_bytes()), Ok(bad)),
            Err(refused) => assert_eq!(job::run(&bad), format!("{refused}\n")),
        }
    }
}

#[test]
fn texts_that_are_taken() {
    let plain = text::to_job(b"tiles 2\nline 0x40\nmemory 1 2 3 4 5 6 7 8\ntaking\n").unwrap();
    assert_eq!(plain, [header(), vec![19, 0, 0]].concat());
    let loose = b"# a comment\r\n\r\n\t tiles  0x2 # two\nline 64\nmemory 1 2 3 4 5 6 7 0x008#\n\n#\ntaking\n   ";
    assert_eq!(text::to_job(loose).as_ref(), Ok(&plain));
    // No newline at the end; fewer than eight words.
    let short = text::to_job(b"tiles 2\nline 0x40\nmemory 7").unwrap();
    assert_eq!(job::check(&short).unwrap().memory, [7, 0, 0, 0, 0, 0, 0, 0]);
    let text = "tiles 64\nline 0xFFFFFFFFFFC0\nmemory 65535 0x10000 0xFFFFFFFFFFFFFFFF 0 0 0 0 0\nload 255 255\nstore 1 2 0xDEADBEEF\n\
                evict 0\ntaking\nto-tile 0\nfrom-tile 0\nmemory-step\nmemory-ack\nhome-eviction\n";
    assert_eq!(text::from_job(&text::to_job(text.as_bytes()).unwrap()).unwrap(), text);
}

#[test]
fn texts_that_are_refused() {
    let cases: &[(&str, usize, &str)] = &[
        ("", 1, "the text ends without `tiles`"),
        ("# nothing\n\n", 2, "the text ends without `tiles`"),
        ("tiles 1\n", 1, "the text ends without `line`"),
        ("tiles 1\nline 0\n\n", 3, "the text ends without `memory`"),
        ("tiles 0\n", 1, "0 tiles: the count is 1 to 64"),
        ("tiles 65\n", 1, "65 tiles: the count is 1 to 64"),
        ("tiles\n", 1, "the form is `tiles COUNT`"),
        ("tiles 1 1\n", 1, "the form is `tiles COUNT`"),
        ("tiles one\n", 1, "`one` is not a number (decimal, or hexadecimal after 0x)"),
        ("tiles -1\n", 1, "`-1` is not a number (decimal, or hexadecimal after 0x)"),
        ("tiles +1\n", 1, "`+1` is not a number (decimal, or hexadecimal after 0x)"),
        ("tiles 0x\n", 1, "`0x` is not a number (decimal, or hexadecimal after 0x)"),
        ("tiles 0x+1\n", 1, "`0x+1` is not a number (decimal, or hexadecimal after 0x)"),
        ("\nline 0x40\n", 2, "`line` where `tiles` must stand (first tiles, line, memory, in this order)"),
        ("tiles 1\n\n# x\nload 0 0\n", 4, "`load` where `line` must stand (first tiles, line, memory, in this order)"),
        ("Tiles 1\n", 1, "`Tiles` is not a field"),
        ("tiles 1\nline 0x41\n", 2, "line address 0x41 is not a multiple of 64"),
        ("tiles 1\nline 0x1000000000000\n", 2, "line address 0x1000000000000 is above 48 bits"),
        ("tiles 1\nline 0\nmemory\n", 3, "memory takes one to eight words, not 0"),
        ("tiles 1\nline 0\nmemory 1 2 3 4 5 6 7 8 9\n", 3, "memory takes one to eight words, not 9"),
        ("tiles 1\nline 0\nmemory 18446744073709551616\n", 3, "18446744073709551616 is above 64 bits"),
        ("tiles 1\nline 0\nmemory 0x10000000000000000\n", 3, "0x10000000000000000 is above 64 bits"),
        ("tiles 1\nline 0\nmemory 0\nmemory 0\n", 4, "`memory` appears a second time"),
        ("tiles 1\nline 0\nmemory 0\nload 256 0\n", 4, "tile 256 is above 255"),
        ("tiles 1\nline 0\nmemory 0\nstore 0 0x100 1\n", 4, "word 0x100 is above 255"),
        ("tiles 1\nline 0\nmemory 0\nload 0\n", 4, "the form is `load TILE WORD`"),
        ("tiles 1\nline 0\nmemory 0\ntaking 0\n", 4, "the form is `taking`"),
        ("tiles 1\nline 0\nmemory 0\ntaking\nstep\n", 5, "`step` is not a field"),
    ];
    for (text, line, what) in cases {
        let bad = text::to_job(text.as_bytes()).unwrap_err();
        assert_eq!((bad.line, bad.what.as_str()), (*line, *what), "{text:?}");
    }
    assert_eq!(text::to_job(b"tiles 1\nl\xFFne 0\n").unwrap_err().line, 2);
    let long = format!("tiles 1\nline 0\nmemory 0\n{}", "taking\n".repeat(21_819));
    let bad = text::to_job(long.as_bytes()).unwrap_err();
    assert_eq!(bad.to_string(), "line 21822: the job passes 65536 bytes here");
}
