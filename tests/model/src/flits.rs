//! Document 01, 'Flit words': reading the front message of a run of flits, writing a message into a buffer.

use crate::refusal;

pub const STORE_REQ: u64 = 2;
pub const WB_REQ: u64 = 12;
pub const WBGUARD_REQ: u64 = 13;
pub const LOAD_FWD: u64 = 16;
pub const STORE_FWD: u64 = 17;
pub const INV_FWD: u64 = 18;
pub const LOAD_MEM: u64 = 19;
pub const STORE_MEM: u64 = 20;
pub const LOAD_FWDACK: u64 = 21;
pub const STORE_FWDACK: u64 = 22;
pub const INV_FWDACK: u64 = 23;
pub const LOAD_MEM_ACK: u64 = 24;
pub const STORE_MEM_ACK: u64 = 25;
pub const NODATA_ACK: u64 = 28;
pub const DATA_ACK: u64 = 29;
pub const LOAD_REQ: u64 = 31;

pub const I: u64 = 0;
pub const S: u64 = 1;
pub const E: u64 = 2;
pub const M: u64 = 3;

/// Every field that a message can have, but for its length, which follows from the type and the data. A field that the
/// type does not have is 0.
#[derive(Clone, Copy, PartialEq, Eq, Debug, Default)]
pub struct Fields {
    pub chip: u64,
    pub x: u64,
    pub y: u64,
    pub port: u64,
    pub kind: u64,
    pub tag: u64,
    pub state: u64,
    pub miss: u64,
    pub address_5_4: u64,
    pub last: u64,
    pub address: u64,
    pub vector: u64,
    pub icache: u64,
    pub size: u64,
    pub source_chip: u64,
    pub source_x: u64,
    pub source_y: u64,
    pub source_port: u64,
}

/// The front message: its fields, how many flits it takes, and its data as a part of the flits that were read.
#[derive(Clone, Copy, PartialEq, Eq, Debug)]
pub struct Front<'a> {
    pub fields: Fields,
    pub used: usize,
    pub data: &'a [u64],
}

/// A row of 01's table: header flits (1 or 3), and whether the message may come with no data and with eight words.
#[derive(Clone, Copy)]
struct Row {
    headers: usize,
    bare: bool,
    full: bool,
}

fn row(kind: u64) -> Option<Row> {
    let (headers, bare, full) = match kind {
        LOAD_REQ | STORE_REQ => (3, true, false),
        WB_REQ | STORE_MEM => (3, false, true),
        LOAD_MEM | WBGUARD_REQ => (3, true, false),
        LOAD_FWD | STORE_FWD | INV_FWD => (3, true, false),
        LOAD_FWDACK | STORE_FWDACK => (1, true, true),
        INV_FWDACK | STORE_MEM_ACK | NODATA_ACK => (1, true, false),
        LOAD_MEM_ACK | DATA_ACK => (1, false, true),
        _ => return None,
    };
    Some(Row { headers, bare, full })
}

impl Row {
    fn takes(&self, data: usize) -> bool {
        (self.bare && data == 0) || (self.full && data == 8)
    }
}

/// Bits `high`..`low` of a flit.
fn bits(flit: u64, high: u32, low: u32) -> u64 {
    (flit >> low) & (u64::MAX >> (63 - (high - low)))
}

fn listed(port: u64) -> bool {
    matches!(port, 0 | 2 | 3 | 4 | 5)
}

fn is_line(address: u64) -> bool {
    address % 64 == 0
}

/// 01's rule 16: every field narrow enough and allowed for the type, and a field that the type lacks is 0.
/// Ports are not looked at where the type has them: rule 14 does that.
fn allowed(f: &Fields, row: Row, data: usize) -> bool {
    if f.chip >> 14 != 0 || f.x >> 8 != 0 || f.y >> 8 != 0 || f.tag >> 8 != 0 {
        return false;
    }
    if row.headers == 3 {
        if f.state != 0 || f.miss != 0 || f.address_5_4 != 0 || f.last != 0 {
            return false;
        }
        if f.address >> 48 != 0 || f.source_chip >> 14 != 0 || f.source_x >> 8 != 0 || f.source_y >> 8 != 0 {
            return false;
        }
        let line = is_line(f.address);
        match f.kind {
            LOAD_REQ => f.size < 8 && f.vector == 0 && f.icache < 2,
            STORE_REQ => f.size < 8 && f.vector == 0 && f.icache == 0,
            WB_REQ | STORE_MEM | LOAD_MEM => f.size == 7 && f.vector == 0 && f.icache == 0 && line,
            WBGUARD_REQ => f.size == 0 && f.vector == 0 && f.icache == 0 && line,
            _ => f.size == 0 && f.vector == 15 && f.icache == 0 && line,
        }
    } else {
        if f.address != 0 || f.vector != 0 || f.icache != 0 || f.size != 0 {
            return false;
        }
        if f.source_chip != 0 || f.source_x != 0 || f.source_y != 0 || f.source_port != 0 {
            return false;
        }
        let ack = f.last == 1 && f.miss == 0 && f.address_5_4 == 0;
        let answer = f.last == 0 && f.miss < 2 && f.address_5_4 < 4;
        match f.kind {
            LOAD_FWDACK => ack && (f.state == S || (f.state == I && data == 0)),
            STORE_FWDACK | INV_FWDACK => ack && f.state == I,
            NODATA_ACK => answer && f.state < 4,
            DATA_ACK => answer && (f.state == S || f.state == E || f.state == M),
            _ => f.state == 0 && f.miss == 0 && f.address_5_4 == 0 && f.last == 0,
        }
    }
}

/// Reads the front message, or gives the lowest refusal number 10 to 16 over the whole message.
pub fn read(flits: &[u64]) -> Result<Front<'_>, u64> {
    let Some(&first) = flits.first() else { return Err(refusal::NO_FLIT) };
    let kind = bits(first, 21, 14);
    let Some(row) = row(kind) else { return Err(refusal::TYPE) };
    let used = bits(first, 29, 22) as usize + 1;
    if used < row.headers || !row.takes(used - row.headers) {
        return Err(refusal::LENGTH);
    }
    if flits.len() < used {
        return Err(refusal::TOO_FEW_FLITS);
    }
    let mut f = Fields {
        chip: bits(first, 63, 50),
        x: bits(first, 49, 42),
        y: bits(first, 41, 34),
        port: bits(first, 33, 30),
        kind,
        tag: bits(first, 13, 6),
        ..Fields::default()
    };
    let mut reserved = 0;
    if row.headers == 3 {
        let (second, third) = (flits[1], flits[2]);
        f.address = bits(second, 63, 16);
        f.vector = bits(second, 15, 12);
        f.icache = bits(second, 11, 11);
        f.size = bits(second, 10, 8);
        f.source_chip = bits(third, 63, 50);
        f.source_x = bits(third, 49, 42);
        f.source_y = bits(third, 41, 34);
        f.source_port = bits(third, 33, 30);
        reserved |= bits(first, 5, 0) | bits(second, 7, 0) | bits(third, 29, 0);
    } else if kind == LOAD_MEM_ACK || kind == STORE_MEM_ACK {
        reserved |= bits(first, 5, 0);
    } else {
        f.state = bits(first, 5, 4);
        f.miss = bits(first, 3, 3);
        f.address_5_4 = bits(first, 2, 1);
        f.last = bits(first, 0, 0);
    }
    if !listed(f.port) || (row.headers == 3 && !listed(f.source_port)) {
        return Err(refusal::PORT);
    }
    if reserved != 0 {
        return Err(refusal::RESERVED);
    }
    if !allowed(&f, row, used - row.headers) {
        return Err(refusal::FIELD);
    }
    Ok(Front { fields: f, used, data: &flits[row.headers..used] })
}

/// Writes a message at a place of the buffer and gives the number of its flits. A refusal leaves the buffer as it is.
pub fn write(buffer: &mut [u64], place: u64, f: &Fields, data: &[u64]) -> Result<usize, u64> {
    let Some(row) = row(f.kind) else { return Err(refusal::TYPE) };
    if !row.takes(data.len()) {
        return Err(refusal::LENGTH);
    }
    if !listed(f.port) || (row.headers == 3 && !listed(f.source_port)) {
        return Err(refusal::PORT);
    }
    if !allowed(f, row, data.len()) {
        return Err(refusal::FIELD);
    }
    let used = row.headers + data.len();
    let start = match usize::try_from(place) {
        Ok(p) if p <= buffer.len() && buffer.len() - p >= used => p,
        _ => return Err(refusal::PLACE),
    };
    let own = &mut buffer[start..start + used];
    own[0] = f.chip << 50
        | f.x << 42
        | f.y << 34
        | f.port << 30
        | (used as u64 - 1) << 22
        | f.kind << 14
        | f.tag << 6
        | f.state << 4
        | f.miss << 3
        | f.address_5_4 << 1
        | f.last;
    if row.headers == 3 {
        own[1] = f.address << 16 | f.vector << 12 | f.icache << 11 | f.size << 8;
        own[2] = f.source_chip << 50 | f.source_x << 42 | f.source_y << 34 | f.source_port << 30;
    }
    own[row.headers..].copy_from_slice(data);
    Ok(used)
}
