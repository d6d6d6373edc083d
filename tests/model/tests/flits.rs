//! The flit part: each type, each refusal, ties, and the round trips.

use model::flits::{self, *};
use model::random::Random;
use model::samples::{any_fields, three_headers, TYPES};

fn written(f: &Fields, data: &[u64]) -> Vec<u64> {
    let mut buffer = [0; 11];
    let used = flits::write(&mut buffer, 0, f, data).unwrap();
    buffer[..used].to_vec()
}

#[test]
fn what_is_written_reads_back() {
    let mut r = Random(1);
    for _ in 0..20_000 {
        for kind in TYPES {
            let (f, count) = any_fields(kind, &mut r);
            let data: Vec<u64> = (0..count).map(|_| r.next()).collect();
            let room = r.below(14) as usize;
            let place = r.below(16);
            let before: Vec<u64> = (0..room).map(|_| r.next()).collect();
            let mut buffer = before.clone();
            let used = if three_headers(kind) { 3 + count } else { 1 + count };
            let answer = flits::write(&mut buffer, place, &f, &data);
            if place as usize + used <= room {
                assert_eq!(answer, Ok(used));
                let place = place as usize;
                let front = flits::read(&buffer[place..]).unwrap();
                assert_eq!((front.fields, front.used, front.data), (f, used, &data[..]));
                assert_eq!(buffer[..place], before[..place]);
                assert_eq!(buffer[place + used..], before[place + used..]);
                assert_eq!(flits::read(&buffer[place..place + used - 1]).err(), Some(if used == 1 { 10 } else { 13 }));
            } else {
                assert_eq!(answer, Err(17));
                assert_eq!(buffer, before);
            }
        }
    }
}

#[test]
fn any_place_is_refused_and_not_counted_past_the_end() {
    let f = Fields { kind: STORE_MEM_ACK, ..Fields::default() };
    let mut buffer = [5; 3];
    for place in [3, 4, u64::MAX - 1, u64::MAX] {
        assert_eq!(flits::write(&mut buffer, place, &f, &[]), Err(17));
    }
    assert_eq!(buffer, [5; 3]);
    assert_eq!(flits::write(&mut buffer, 2, &f, &[]), Ok(1));
    assert_eq!(flits::write(&mut [], 0, &f, &[]), Err(17));
}

/// Flits that are accepted are exactly what writing their fields gives, also after one or two bits were turned over.
#[test]
fn what_is_read_writes_back() {
    let mut r = Random(2);
    let mut accepted = 0;
    for _ in 0..60_000 {
        for kind in TYPES {
            let (f, count) = any_fields(kind, &mut r);
            let data: Vec<u64> = (0..count).map(|_| r.next()).collect();
            let mut m = written(&f, &data);
            for _ in 0..r.below(3) {
                let flit = r.below(m.len().min(3) as u64) as usize;
                m[flit] ^= 1 << r.below(64);
            }
            m.extend([r.next(), r.next()]);
            if let Ok(front) = flits::read(&m) {
                accepted += 1;
                assert_eq!(written(&front.fields, front.data), m[..front.used]);
            }
        }
    }
    assert!(accepted > 100_000);
}

#[test]
fn types_and_lengths() {
    for kind in 0..256u64 {
        for length in 0..256u64 {
            let lengths: &[u64] = match kind {
                31 | 2 | 19 | 13 | 16 | 17 | 18 => &[2],
                12 | 20 => &[10],
                21 | 22 => &[0, 8],
                23 | 25 | 28 => &[0],
                24 | 29 => &[8],
                _ => &[],
            };
            let first = length << 22 | kind << 14;
            let answer = flits::read(&[first]).map(|f| f.used as u64);
            if lengths.is_empty() {
                assert_eq!(answer, Err(11));
            } else if !lengths.contains(&length) {
                assert_eq!(answer, Err(12));
            } else if length > 0 {
                assert_eq!(answer, Err(13));
            } else {
                // Options 0: last is missing on 21 to 23.
                assert_eq!(answer, if kind < 24 { Err(16) } else { Ok(1) });
            }
        }
    }
    assert_eq!(flits::read(&[]), Err(10));
}

/// All options of the types with one header flit.
#[test]
fn options() {
    for kind in [21, 22, 23, 24, 25, 28, 29u64] {
        for length in [0, 8u64] {
            for options in 0..64u64 {
                let (state, miss, low, last) = (options >> 4, options >> 3 & 1, options >> 1 & 3, options & 1);
                let mut m = [0; 9];
                m[0] = length << 22 | kind << 14 | options;
                let ack = last == 1 && miss == 0 && low == 0;
                let expected = match (kind, length) {
                    (23 | 25 | 28, 8) | (24 | 29, 0) => Err(12),
                    (24 | 25, _) if options != 0 => Err(15),
                    (24 | 25, _) => Ok(()),
                    (21, 0) if ack && state < 2 => Ok(()),
                    (21, 8) if ack && state == 1 => Ok(()),
                    (22 | 23, _) if ack && state == 0 => Ok(()),
                    (28, _) if last == 0 => Ok(()),
                    (29, _) if last == 0 && state != 0 => Ok(()),
                    _ => Err(16),
                };
                assert_eq!(flits::read(&m).map(|_| ()), expected, "{kind} {length} {options}");
            }
        }
    }
}

/// Low bits of the address, vector, icache bit and size of the types with three header flits.
#[test]
fn second_flits() {
    for kind in [31, 2, 12, 20, 19, 13, 16, 17, 18u64] {
        for low in 0..1 << 14u64 {
            let (address, vector, icache, size) = (low >> 8, low >> 4 & 15, low >> 3 & 1, low & 7);
            let length = if kind == 12 || kind == 20 { 10 } else { 2 };
            let mut m = [0; 11];
            m[0] = length << 22 | kind << 14;
            m[1] = 0xFFFF_FFFF_FFC0 << 16 | address << 16 | vector << 12 | icache << 11 | size << 8;
            let expected = match kind {
                31 => vector == 0,
                2 => vector == 0 && icache == 0,
                12 | 20 | 19 => size == 7 && vector == 0 && icache == 0 && address == 0,
                13 => size == 0 && vector == 0 && icache == 0 && address == 0,
                _ => size == 0 && vector == 15 && icache == 0 && address == 0,
            };
            assert_eq!(flits::read(&m).map(|f| f.used), if expected { Ok(length as usize + 1) } else { Err(16) });
        }
    }
}

#[test]
fn ports_and_reserved_bits_and_their_ties() {
    let mut r = Random(3);
    for kind in TYPES {
        let (f, count) = any_fields(kind, &mut r);
        let data = vec![r.next(); count];
        let m = written(&f, &data);
        for port in 0..16u64 {
            let listed = [0, 2, 3, 4, 5].contains(&port);
            let mut bad = m.clone();
            bad[0] = bad[0] & !(15 << 30) | port << 30;
            assert_eq!(flits::read(&bad).map(|_| ()), if listed { Ok(()) } else { Err(14) });
            if three_headers(kind) {
                let mut bad = m.clone();
                bad[2] = bad[2] & !(15 << 30) | port << 30;
                assert_eq!(flits::read(&bad).map(|_| ()), if listed { Ok(()) } else { Err(14) });
                // 14 of the third flit wins over 15 of the first and 16 of the second.
                bad[0] |= 1;
                assert_eq!(flits::read(&bad).map(|_| ()), if listed { Err(15) } else { Err(14) });
                bad[1] ^= 1 << 12;
                assert_eq!(flits::read(&bad).map(|_| ()), if listed { Err(15) } else { Err(14) });
                // 13 wins over all of them.
                assert_eq!(flits::read(&bad[..m.len() - 1]).err(), Some(13));
            }
        }
        let reserved: Vec<(usize, u32)> = if three_headers(kind) {
            (0..6).map(|b| (0, b)).chain((0..8).map(|b| (1, b))).chain((0..30).map(|b| (2, b))).collect()
        } else if kind == 24 || kind == 25 {
            (0..6).map(|b| (0, b)).collect()
        } else {
            vec![]
        };
        for (flit, bit) in reserved {
            let mut bad = m.clone();
            bad[flit] |= 1 << bit;
            assert_eq!(flits::read(&bad).err(), Some(15));
        }
    }
}

#[test]
fn writing_refuses_in_order() {
    let mut r = Random(4);
    for kind in TYPES {
        let (f, count) = any_fields(kind, &mut r);
        let data = vec![r.next(); count];
        let mut buffer = [9; 11];
        let mut answer = |f: &Fields, data: &[u64], place| {
            let answer = flits::write(&mut buffer, place, f, data);
            assert_eq!(buffer, [9; 11]);
            answer.err()
        };
        let wrong_count = [0; 3];
        let all_wrong = Fields { chip: 1 << 14, port: 1, ..f };
        assert_eq!(answer(&Fields { kind: 1, ..all_wrong }, &wrong_count, 99), Some(11));
        assert_eq!(answer(&Fields { kind: kind + 256, ..f }, &data, 0), Some(11));
        assert_eq!(answer(&all_wrong, &wrong_count, 99), Some(12));
        assert_eq!(answer(&all_wrong, &data, 99), Some(14));
        assert_eq!(answer(&Fields { port: 16, ..f }, &data, 99), Some(14));
        assert_eq!(answer(&Fields { port: 1 << 40, ..f }, &data, 99), Some(14));
        assert_eq!(answer(&Fields { chip: 1 << 14, ..f }, &data, 99), Some(16));
        assert_eq!(answer(&f, &data, 99), Some(17));
        assert_eq!(answer(&f, &data, u64::MAX), Some(17));
        for f in [
            Fields { x: 256, ..f },
            Fields { y: 256, ..f },
            Fields { tag: 256, ..f },
            Fields { tag: u64::MAX, ..f },
            Fields { state: f.state + 4, ..f },
            Fields { miss: 2, ..f },
            Fields { address_5_4: 4, ..f },
            Fields { last: f.last ^ 1, ..f },
            Fields { last: f.last + 2, ..f },
            Fields { address: 1 << 48, ..f },
            Fields { vector: f.vector + 16, ..f },
            Fields { vector: f.vector ^ 1, ..f },
            Fields { icache: 2, ..f },
            Fields { size: f.size + 8, ..f },
            Fields { source_chip: 1 << 14, ..f },
            Fields { source_x: 256, ..f },
            Fields { source_y: 256, ..f },
        ] {
            assert_eq!(answer(&f, &data, 99), Some(16));
        }
        let source_port = Fields { source_port: 1, ..f };
        assert_eq!(answer(&source_port, &data, 99), Some(if three_headers(kind) { 14 } else { 16 }));
        let source_port = Fields { source_port: 2, ..f };
        assert_eq!(answer(&source_port, &data, 99), Some(if three_headers(kind) { 17 } else { 16 }));
    }
    let i = Fields { kind: LOAD_FWDACK, last: 1, state: I, ..Fields::default() };
    assert_eq!(flits::write(&mut [0; 11], 0, &i, &[0; 8]), Err(16));
    assert_eq!(flits::write(&mut [0; 11], 0, &i, &[]), Ok(1));
}
