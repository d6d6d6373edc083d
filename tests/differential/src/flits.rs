//! Messages in flits: read at any place, whole, damaged, cut or random; written from any fields to any place, and read back.

use crate::calls::{answer_words, answered};
use crate::{hex, reference, tight, Counts, Outcome, Wrong};
use model::flits::{self, Fields};
use model::random::Random;
use model::refusal;
use model::samples::{any_fields, TYPES};

const EACH: usize = 210;

/// In the order of the C interface: type, tag, destination, options, address and what goes with it, source.
pub fn to_words(f: &Fields) -> [u64; 18] {
    [
        f.kind,
        f.tag,
        f.chip,
        f.x,
        f.y,
        f.port,
        f.state,
        f.miss,
        f.address_5_4,
        f.last,
        f.address,
        f.vector,
        f.icache,
        f.size,
        f.source_chip,
        f.source_x,
        f.source_y,
        f.source_port,
    ]
}

pub fn of_words(w: &[u64; 18]) -> Fields {
    Fields {
        kind: w[0],
        tag: w[1],
        chip: w[2],
        x: w[3],
        y: w[4],
        port: w[5],
        state: w[6],
        miss: w[7],
        address_5_4: w[8],
        last: w[9],
        address: w[10],
        vector: w[11],
        icache: w[12],
        size: w[13],
        source_chip: w[14],
        source_x: w[15],
        source_y: w[16],
        source_port: w[17],
    }
}

/// Refusal, flits used, where the data start, the fields.
pub fn model_read(flits: &[u64], at: u64) -> [u64; 21] {
    let from = usize::try_from(at).unwrap_or(usize::MAX).min(flits.len());
    let mut answer = [0; 21];
    match flits::read(&flits[from..]) {
        Err(number) => answer[0] = number,
        Ok(front) => {
            answer[1] = front.used as u64;
            answer[2] = (front.used - front.data.len()) as u64;
            answer[3..].copy_from_slice(&to_words(&front.fields));
        }
    }
    answer
}

fn read(list: &[u64], at: u64, r: &mut Random, wrong: Wrong, counts: &mut Counts) -> Outcome {
    let mut expected = model_read(list, at);
    if wrong == Wrong::Reading && expected[0] == refusal::RESERVED {
        expected[0] = refusal::FIELD;
    }
    let mut out = answer_words(r, 21);
    let mut other = out.clone();
    let returned = reference::read(list, at, &mut out);
    let by_hand = tight::read(list, at as usize, &mut other);
    counts.read += 1;
    counts.refusals[expected[0] as usize] += 1;
    let after = answered(&out, &expected);
    if returned == expected[0] && out == after && by_hand == expected[0] && other == after {
        return Ok(());
    }
    Err(format!(
        "read at {at} of flits {}\nreference: {returned} {out:X?}\nmodel: {} {after:X?}\nby hand: {by_hand} {other:X?}\n",
        hex(list),
        expected[0]
    ))
}

/// A number for a field: near its ends, or any.
fn any_number(r: &mut Random) -> u64 {
    match r.below(4) {
        0 => r.below(34),
        1 => 1 << r.below(64),
        2 => r.next() >> r.below(64),
        _ => [0, 1, 7, 8, 15, 16, 255, 256, u64::MAX][r.below(9) as usize],
    }
}

fn any_kind(r: &mut Random) -> u64 {
    TYPES[r.below(16) as usize]
}

fn any_data(r: &mut Random, count: usize) -> Vec<u64> {
    (0..count).map(|_| r.next()).collect()
}

/// Flits to read, and a place that is mostly that of a message.
fn any_flits(r: &mut Random) -> (Vec<u64>, u64) {
    if r.below(16) == 0 {
        let count = r.below(14) as usize;
        return (any_data(r, count), r.below(3));
    }
    let before = r.below(4) as usize;
    let mut list = any_data(r, before);
    let (fields, count) = any_fields(any_kind(r), r);
    let mut flits = [0; 11];
    let data = any_data(r, count);
    let used = flits::write(&mut flits, 0, &fields, &data).expect("accepted fields");
    list.extend(&flits[..used]);
    let behind = r.below(4) as usize;
    list.extend(any_data(r, behind));
    let header = before + r.below(used.min(3) as u64) as usize;
    match r.below(10) {
        0 => list[header] ^= 1 << r.below(64),
        1 => list[before] ^= 1 << (14 + r.below(16)),
        2 => list[before] = list[before] & !(0xFF << 14) | r.below(34) << 14,
        3 => list[before] = list[before] & !(0xFF << 22) | [0, 2, 8, 10, r.below(256)][r.below(5) as usize] << 22,
        4 => list[header] = list[header] & !(0xF << 30) | r.below(16) << 30,
        5 => list.truncate(r.below(list.len() as u64 + 1) as usize),
        6 => {
            // One field of the header set to another value, in its place.
            let (low, width) = [(0, 1), (1, 2), (3, 1), (4, 2), (8, 3), (11, 1), (12, 4), (16, 6)][r.below(8) as usize];
            list[header] = list[header] & !(((1 << width) - 1) << low) | r.below(1 << width) << low;
        }
        _ => {}
    }
    let at = match r.below(24) {
        0 => list.len() as u64 + r.below(2),
        1 => any_number(r),
        _ => before as u64,
    };
    (list, at)
}

/// Fields that are mostly accepted, or with one or two of them damaged.
fn any_header(r: &mut Random) -> ([u64; 18], usize) {
    let (fields, count) = any_fields(any_kind(r), r);
    let mut words = to_words(&fields);
    if r.below(2) == 0 {
        for _ in 0..1 + r.below(2) {
            let field = r.below(18) as usize;
            words[field] = match r.below(4) {
                0 => words[field].wrapping_add(1),
                1 => words[field] ^ 1 << r.below(64),
                _ => any_number(r),
            };
        }
    }
    (words, count)
}

fn write(r: &mut Random, wrong: Wrong, counts: &mut Counts) -> Outcome {
    let (fields, mut count) = any_header(r);
    if r.below(12) == 0 {
        count = r.below(12) as usize;
    }
    let data = any_data(r, count);
    let room = if r.below(8) == 0 { r.below(12) } else { 11 + r.below(6) } as usize;
    let before = any_data(r, room);
    let at = match r.below(16) {
        0 => any_number(r),
        1 => room as u64 + r.below(2),
        _ => r.below(6),
    };
    // At times other than the 18 fields.
    let given = if r.below(64) == 0 { r.below(20) as usize } else { 18 };
    let list: Vec<u64> = fields.into_iter().chain([0, 0]).take(given).collect();
    let mut model = before.clone();
    let mut stated = of_words(&fields);
    if wrong == Wrong::Writing && stated.kind == flits::LOAD_REQ {
        stated.size = 0;
    }
    let expected = match flits::write(&mut model, at, &stated, &data) {
        _ if given != 18 => {
            model.copy_from_slice(&before);
            [refusal::MALFORMED, 0]
        }
        Ok(used) => [0, used as u64],
        Err(number) => [number, 0],
    };
    let (mut buffer, mut own) = (before.clone(), before.clone());
    let mut out = answer_words(r, 2);
    let mut other = out.clone();
    let returned = reference::write(&mut buffer, at, &list, &data, &mut out);
    let by_hand = tight::write(&mut own, at as usize, &list, &data, &mut other);
    counts.written += 1;
    counts.refusals[expected[0] as usize] += 1;
    let after = answered(&out, &expected);
    let same = returned == expected[0] && out == after && buffer == model;
    if !same || by_hand != expected[0] || other != after || own != model {
        return Err(format!(
            "written at {at}: fields {list:X?}, data {}, into {}\nreference: {returned} {out:X?} {}\nmodel: {} {after:X?} {}\nby hand: {by_hand} {other:X?} {}\n",
            hex(&data),
            hex(&before),
            hex(&buffer),
            expected[0],
            hex(&model),
            hex(&own)
        ));
    }
    if returned != 0 {
        return Ok(());
    }
    let mut back = [0; 21];
    reference::read(&buffer, at, &mut back);
    counts.read += 1;
    let from = at as usize + back[2] as usize;
    if back[0] == 0 && back[1] == expected[1] && back[3..] == list && buffer[from..from + data.len()] == data {
        return Ok(());
    }
    Err(format!("read back at {at} of {}\nwritten: {list:X?}\nreference: {back:X?}\n", hex(&buffer)))
}

pub fn case(_: u64, r: &mut Random, wrong: Wrong, counts: &mut Counts) -> Outcome {
    for _ in 0..EACH {
        let (list, at) = any_flits(r);
        read(&list, at, r, wrong, counts)?;
        write(r, wrong, counts)?;
    }
    Ok(())
}
