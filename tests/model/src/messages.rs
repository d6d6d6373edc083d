//! Document 01, 'Flits of a bench': the flits of a message on a way of the bench.

use crate::bench::Way;
use crate::flits::{self, *};
use crate::steps::Sent;

/// The most flits of a message: three header flits and eight words.
pub const MAX_FLITS: usize = 11;

/// chip, x, y, port
type Node = (u64, u64, u64, u64);
const HOME: Node = (0, 0, 0, 0);
const MEMORY: Node = (0, 0, 0, 2);

fn tile(t: usize) -> Node {
    (0, t as u64 % 8, t as u64 / 8, 0)
}

/// All fields of the message, at a bench whose line has this address.
pub fn fields(sent: &Sent, line: u64) -> Fields {
    let m = &sent.message;
    let (from, to, tag) = match sent.way {
        Way::Noc1(t) | Way::Noc3(t) => (tile(t), HOME, t as u64),
        Way::Noc2(t) => (HOME, tile(t), t as u64),
        Way::ToMemory => (HOME, MEMORY, 0),
        Way::FromMemory => (MEMORY, HOME, 0),
    };
    let mut f = Fields {
        chip: to.0,
        x: to.1,
        y: to.2,
        port: to.3,
        kind: m.kind,
        tag,
        state: m.state,
        miss: m.miss,
        ..Fields::default()
    };
    match m.kind {
        LOAD_REQ | STORE_REQ => {
            f.address = line.saturating_add(8 * m.word);
            f.size = 4;
        }
        WB_REQ | LOAD_MEM | STORE_MEM => {
            f.address = line;
            f.size = 7;
        }
        WBGUARD_REQ => f.address = line,
        LOAD_FWD | STORE_FWD | INV_FWD => {
            f.address = line;
            f.vector = 15;
        }
        LOAD_FWDACK | STORE_FWDACK | INV_FWDACK => f.last = 1,
        _ => {}
    }
    if matches!(
        m.kind,
        LOAD_REQ | STORE_REQ | WBGUARD_REQ | WB_REQ | LOAD_MEM | STORE_MEM | LOAD_FWD | STORE_FWD | INV_FWD
    ) {
        (f.source_chip, f.source_x, f.source_y, f.source_port) = from;
    }
    f
}

/// Writes the message's flits at the start of the buffer and gives their number, or a refusal of the flit writer.
pub fn write(sent: &Sent, line: u64, buffer: &mut [u64]) -> Result<usize, u64> {
    let data = if sent.message.has_data == 0 { &[][..] } else { &sent.message.data[..] };
    flits::write(buffer, 0, &fields(sent, line), data)
}
