//! Flits as a Rust programmer writes them for speed: one table of rows by type, tests that leave early, one branch on three header
//! flits or one, and no fields in between. The calls are those of the C interface (include/duzhmarqi.h), with the same reports. The
//! benchmark's other side; the differential test compares it too.

use crate::reference::Named;
use model::flits::*;
use model::refusal::*;

/// A row of 01's table.
struct Row {
    /// Options that are allowed, bit n for options n: without data, with data.
    options: [u64; 2],
    /// The bits of flit 2 that are fixed, and their value.
    fixed: u32,
    value: u32,
    /// What a bench's message has in flit 2 below its address, or in the options beside state and miss.
    sent: u32,
    /// Header flits, 1 or 3; 0 where the type is not in the table.
    headers: u8,
    /// The length, and the bit of it that is free: 8 where the message may come with data or without.
    length: u8,
    free: u8,
    /// The bits of flit 1 that are reserved.
    reserved: u8,
}

const OPTIONS: u8 = 0x3F;
/// The length of eight words of data.
const DATA: u8 = 8;

/// Fields of flit 2, by their lowest bit and in place.
const VECTOR: u32 = 12;
const SIZE: u32 = 8;
const IN_LINE: u32 = 0x3F_0000;
const ALL_OF_VECTOR: u32 = 0xF000;
const ICACHE: u32 = 0x800;
const ALL_OF_SIZE: u32 = 0x700;

const fn three(length: u8, fixed: u32, value: u32, sent: u32) -> Row {
    Row { options: [1; 2], fixed, value, sent, headers: 3, length, free: 0, reserved: OPTIONS }
}

const fn request(icache: u32) -> Row {
    three(2, ALL_OF_VECTOR | icache, 0, 4 << SIZE)
}

const fn of_line(length: u8, value: u32) -> Row {
    three(length, IN_LINE | ALL_OF_VECTOR | ICACHE | ALL_OF_SIZE, value, value)
}

const fn one(length: u8, free: u8, options: [u64; 2], sent: u32) -> Row {
    Row { options, fixed: 0, value: 0, sent, headers: 1, length, free, reserved: 0 }
}

const fn without_options(length: u8) -> Row {
    Row { reserved: OPTIONS, ..one(length, 0, [1; 2], 0) }
}

/// Options of this state with last 1, and all else 0.
const fn last(state: u64) -> u64 {
    1 << (state << 4 | 1)
}

/// All options from this state on with last 0.
const fn from(state: u64) -> u64 {
    0x5555_5555_5555_5555 << (state << 4)
}

static ROWS: [Row; 32] = {
    let mut rows = [const { Row { headers: 0, ..one(0, 0, [0; 2], 0) } }; 32];
    rows[LOAD_REQ as usize] = request(0);
    rows[STORE_REQ as usize] = request(ICACHE);
    rows[WB_REQ as usize] = of_line(2 + DATA, 7 << SIZE);
    rows[STORE_MEM as usize] = of_line(2 + DATA, 7 << SIZE);
    rows[LOAD_MEM as usize] = of_line(2, 7 << SIZE);
    rows[WBGUARD_REQ as usize] = of_line(2, 0);
    rows[LOAD_FWD as usize] = of_line(2, 15 << VECTOR);
    rows[STORE_FWD as usize] = of_line(2, 15 << VECTOR);
    rows[INV_FWD as usize] = of_line(2, 15 << VECTOR);
    rows[LOAD_FWDACK as usize] = one(0, DATA, [last(I) | last(S), last(S)], 1);
    rows[STORE_FWDACK as usize] = one(0, DATA, [last(I); 2], 1);
    rows[INV_FWDACK as usize] = one(0, 0, [last(I); 2], 1);
    rows[LOAD_MEM_ACK as usize] = without_options(DATA);
    rows[STORE_MEM_ACK as usize] = without_options(0);
    rows[NODATA_ACK as usize] = one(0, 0, [from(I); 2], 0);
    rows[DATA_ACK as usize] = one(DATA, 0, [from(S); 2], 0);
    rows
};

impl Row {
    #[inline]
    fn has_length(&self, length: u64) -> bool {
        (length ^ self.length as u64) & !(self.free as u64) == 0
    }

    #[inline]
    fn has_second(&self, second: u64) -> bool {
        second as u32 & self.fixed == self.value
    }

    #[inline]
    fn has_options(&self, length: u64, options: u64) -> bool {
        self.options[(length / DATA as u64 % 2) as usize] >> options & 1 == 1
    }
}

/// Ports that are listed, bit n for port n.
const PORTS: u64 = 0b11_1101;

/// The same of any number.
#[inline]
fn listed(port: u64) -> bool {
    (port < 6) & (port != 1)
}

#[cold]
fn not_read(out: &mut [u64], refusal: u64) -> u64 {
    if let Some(out) = out.first_chunk_mut::<21>() {
        *out = [0; 21];
        out[0] = refusal;
    }
    refusal
}

/// The front message of the flits from a place on. `out`: refusal, flits used, where the data start, the fields.
// Not inlined, as the archive's function is not.
#[inline(never)]
pub fn read(flits: &[u64], at: usize, out: &mut [u64]) -> u64 {
    let Some(flits @ &[first, ..]) = flits.get(at..) else { return not_read(out, NO_FLIT) };
    let kind = first >> 14 & 0xFF;
    let Some(row) = ROWS.get(kind as usize) else { return not_read(out, TYPE) };
    if row.headers == 0 {
        return not_read(out, TYPE);
    }
    let length = first >> 22 & 0xFF;
    if !row.has_length(length) {
        return not_read(out, LENGTH);
    }
    if flits.len() as u64 <= length {
        return not_read(out, TOO_FEW_FLITS);
    }
    let port = first >> 30 & 0xF;
    if row.headers == 3 {
        let &[_, second, third, ..] = flits else { return not_read(out, TOO_FEW_FLITS) };
        let source_port = third >> 30 & 0xF;
        if PORTS >> port & PORTS >> source_port & 1 == 0 {
            return not_read(out, PORT);
        }
        if first & 0x3F | second & 0xFF | third & 0x3FFF_FFFF != 0 {
            return not_read(out, RESERVED);
        }
        if !row.has_second(second) {
            return not_read(out, FIELD);
        }
        if let Some(out) = out.first_chunk_mut() {
            *out = [
                0,
                length + 1,
                3,
                kind,
                first >> 6 & 0xFF,
                first >> 50,
                first >> 42 & 0xFF,
                first >> 34 & 0xFF,
                port,
                0,
                0,
                0,
                0,
                second >> 16,
                second >> 12 & 0xF,
                second >> 11 & 1,
                second >> 8 & 7,
                third >> 50,
                third >> 42 & 0xFF,
                third >> 34 & 0xFF,
                source_port,
            ];
        }
    } else {
        if PORTS >> port & 1 == 0 {
            return not_read(out, PORT);
        }
        if first & row.reserved as u64 != 0 {
            return not_read(out, RESERVED);
        }
        if !row.has_options(length, first & 0x3F) {
            return not_read(out, FIELD);
        }
        if let Some(out) = out.first_chunk_mut() {
            *out = [
                0,
                length + 1,
                1,
                kind,
                first >> 6 & 0xFF,
                first >> 50,
                first >> 42 & 0xFF,
                first >> 34 & 0xFF,
                port,
                first >> 4 & 3,
                first >> 3 & 1,
                first >> 1 & 3,
                first & 1,
                0,
                0,
                0,
                0,
                0,
                0,
                0,
                0,
            ];
        }
    }
    0
}

#[inline]
fn tell_written(out: &mut [u64], refusal: u64, flits: u64) -> u64 {
    if let Some(out) = out.first_chunk_mut() {
        *out = [refusal, flits];
    }
    refusal
}

#[cold]
#[inline(never)]
fn not_written(out: &mut [u64], refusal: u64) -> u64 {
    tell_written(out, refusal, 0)
}

/// Puts a message's flits at a place of the buffer, if there is room.
#[inline]
fn put<const N: usize>(buffer: &mut [u64], at: usize, headers: [u64; N], data: Option<&[u64; 8]>) -> bool {
    let Some((own, rest)) = buffer.get_mut(at..).and_then(|rest| rest.split_first_chunk_mut()) else { return false };
    if let Some(data) = data {
        let Some(own) = rest.first_chunk_mut() else { return false };
        *own = *data;
    }
    *own = headers;
    true
}

/// A message written at a place of the buffer. `out`: refusal, flits written.
#[inline(never)]
pub fn write(buffer: &mut [u64], at: usize, fields: &[u64], words: &[u64], out: &mut [u64]) -> u64 {
    let Ok(f) = <&[u64; 18]>::try_from(fields) else { return not_written(out, MALFORMED) };
    let kind = f[0];
    let Some(row) = ROWS.get(kind as usize) else { return not_written(out, TYPE) };
    if row.headers == 0 {
        return not_written(out, TYPE);
    }
    let length = row.headers as u64 - 1 + words.len() as u64;
    if !row.has_length(length) {
        return not_written(out, LENGTH);
    }
    let data = words.try_into().ok();
    let &[_, tag, chip, x, y, port, ..] = f;
    let first = chip << 50 | x << 42 | y << 34 | port << 30 | length << 22 | kind << 14 | tag << 6;
    let wide = chip >> 14 | (x | y | tag) >> 8;
    let written = if row.headers == 3 {
        let &[.., address, vector, icache, size, source_chip, source_x, source_y, source_port] = f;
        if !listed(port) | !listed(source_port) {
            return not_written(out, PORT);
        }
        let wide = wide | source_chip >> 14 | (source_x | source_y) >> 8;
        let wide = wide | address >> 48 | vector >> 4 | icache >> 1 | size >> 3;
        if wide | f[6] | f[7] | f[8] | f[9] != 0 {
            return not_written(out, FIELD);
        }
        let second = address << 16 | vector << 12 | icache << 11 | size << 8;
        if !row.has_second(second) {
            return not_written(out, FIELD);
        }
        let third = source_chip << 50 | source_x << 42 | source_y << 34 | source_port << 30;
        put(buffer, at, [first, second, third], data)
    } else {
        let &[_, _, _, _, _, _, state, miss, address_5_4, last, ..] = f;
        if !listed(port) {
            return not_written(out, PORT);
        }
        let wide = wide | (state | address_5_4) >> 2 | (miss | last) >> 1;
        if wide | f[10] | f[11] | f[12] | f[13] | f[14] | f[15] | f[16] | f[17] != 0 {
            return not_written(out, FIELD);
        }
        let options = state << 4 | miss << 3 | address_5_4 << 1 | last;
        if !row.has_options(length, options) {
            return not_written(out, FIELD);
        }
        put(buffer, at, [first | options], data)
    };
    if !written {
        return not_written(out, PLACE);
    }
    tell_written(out, 0, length + 1)
}

/// Numbers of the queues; NoC2 is 2.
const NOC1: u64 = 1;
const NOC3: u64 = 3;
const TO_MEMORY: u64 = 4;
const FROM_MEMORY: u64 = 5;
const NOC3_NOC1: u64 = 6;

/// The queue of a message that is named, and its tile.
#[inline]
fn queue_of(named: Named) -> Option<(u64, u64)> {
    let first_from = |index: u64| {
        let mut tiles = named.tiles;
        for _ in 0..index {
            if tiles == 0 {
                break;
            }
            tiles &= tiles - 1;
        }
        (tiles != 0).then(|| tiles.trailing_zeros() as u64)
    };
    match (named.sent, named.i) {
        (NOC1..=NOC3, i) => Some((named.sent, first_from(i)?)),
        (TO_MEMORY | FROM_MEMORY, 0) => Some((named.sent, 0)),
        (NOC3_NOC1, 0) => Some((NOC3, first_from(0)?)),
        (NOC3_NOC1, 1) => Some((NOC1, first_from(0)?)),
        _ => None,
    }
}

/// The last message of a queue.
#[inline]
fn last_of(words: &[u64], queue: u64, tile: u64) -> Option<&[u64; 12]> {
    let place = match queue {
        TO_MEMORY => 26,
        FROM_MEMORY => 50,
        _ if tile < *words.first()? => 74 + 84 * tile as usize + 24 * queue as usize - 12,
        _ => return None,
    };
    let (front, second) = words.get(place..place + 24)?.split_at(12);
    (if second[0] == 0 { front } else { second }).try_into().ok()
}

/// The flits of a message of a call's answer, out of the words that it left. `out`: refusal, flits written.
#[inline(never)]
pub fn message_flits(words: &[u64], named: Named, line: u64, buffer: &mut [u64], at: usize, out: &mut [u64]) -> u64 {
    let Some((queue, tile)) = queue_of(named) else { return not_written(out, TYPE) };
    let Some(message) = last_of(words, queue, tile) else { return not_written(out, TYPE) };
    let (&[kind, word, state, flag], data) = message.split_first_chunk().unwrap();
    let Some(row) = ROWS.get(kind as usize) else { return not_written(out, TYPE) };
    if row.headers == 0 {
        return not_written(out, TYPE);
    }
    let length = row.length as u64 | if flag == 0 { 0 } else { row.free as u64 };
    let data = if length / DATA as u64 % 2 == 1 { data.try_into().ok() } else { None };
    // The tile or the memory: the destination on the queues with even numbers, else the source. The other node, the home, is all 0.
    let node = if queue > NOC3 { 2 << 30 } else { tile % 8 << 42 | tile / 8 << 34 };
    let to = if queue % 2 == 0 { node } else { 0 };
    let first = to | length << 22 | kind << 14 | tile << 6;
    let written = if row.headers == 3 {
        let is_request = row.fixed & IN_LINE == 0;
        let offset = if is_request { word << 3 } else { 0 };
        let address = line.saturating_add(offset);
        let second = address << 16 | row.sent as u64;
        if (address >> 48 | state != 0) | (is_request & (word > 7)) | !row.has_second(second) {
            return not_written(out, FIELD);
        }
        put(buffer, at, [first, second, node ^ to], data)
    } else {
        let miss = if kind < NODATA_ACK { 0 } else { flag };
        let options = state << 4 | miss << 3 | row.sent as u64;
        if (state >> 2 | miss >> 1 != 0) || !row.has_options(length, options) {
            return not_written(out, FIELD);
        }
        put(buffer, at, [first | options], data)
    };
    if !written {
        return not_written(out, PLACE);
    }
    tell_written(out, 0, length + 1)
}
