//! What crates/message_vectors must write, from this model: the flits of a message of each kind.

use model::bench::*;
use model::flits::*;
use model::messages;
use model::steps::Sent;
use std::fs;
use std::path::Path;

const LINE: u64 = 0x8000_1040;
const LAST: u64 = 0xFFFF_FFFF_FFC0;

fn plain(kind: u64, word: u64, state: u64) -> Message {
    Message { kind, word, state, ..Message::default() }
}

fn with(data: [u64; 8], kind: u64, state: u64, miss: u64) -> Message {
    Message { has_data: 1, data, miss, ..plain(kind, 0, state) }
}

fn line_of(line: u64, way: Way, message: Message) -> String {
    let mut buffer = [0; messages::MAX_FLITS];
    match messages::write(&Sent { way, message }, line, &mut buffer) {
        Ok(used) => buffer[..used].iter().fold(">".to_string(), |s, f| format!("{s} {f:016x}")),
        Err(n) => format!("refused {n}"),
    }
}

#[test]
fn stored_output() {
    let seven = [7, 0, 0, 0, 0, 0, 0, 0];
    let full = [1, 2, 3, 4, 5, 6, 7, u64::MAX];
    let mut lines = Vec::new();
    let mut show = |line, way, message| lines.push(line_of(line, way, message));
    show(LINE, Way::Noc1(0), plain(LOAD_REQ, 0, 0));
    show(LINE, Way::ToMemory, plain(LOAD_MEM, 0, 0));
    show(LINE, Way::FromMemory, with(seven, LOAD_MEM_ACK, 0, 0));
    show(LINE, Way::Noc2(0), with(seven, DATA_ACK, 2, 1));
    show(LAST, Way::Noc1(13), plain(LOAD_REQ, 7, 0));
    show(LAST, Way::Noc1(13), plain(STORE_REQ, 7, 0));
    show(LAST, Way::Noc1(13), plain(WBGUARD_REQ, 0, 0));
    show(LAST, Way::Noc3(13), with(full, WB_REQ, 0, 0));
    show(LAST, Way::Noc3(13), plain(LOAD_FWDACK, 0, 0));
    show(LAST, Way::Noc3(13), plain(LOAD_FWDACK, 0, 1));
    show(LAST, Way::Noc3(13), with(full, LOAD_FWDACK, 1, 0));
    show(LAST, Way::Noc3(13), plain(STORE_FWDACK, 0, 0));
    show(LAST, Way::Noc3(13), with(full, STORE_FWDACK, 0, 0));
    show(LAST, Way::Noc3(13), plain(INV_FWDACK, 0, 0));
    show(LAST, Way::Noc2(13), plain(LOAD_FWD, 0, 0));
    show(LAST, Way::Noc2(13), plain(STORE_FWD, 0, 0));
    show(LAST, Way::Noc2(13), plain(INV_FWD, 0, 0));
    show(LAST, Way::Noc2(13), with(full, DATA_ACK, 1, 0));
    show(LAST, Way::Noc2(13), with(full, DATA_ACK, 2, 0));
    show(LAST, Way::Noc2(13), with(full, DATA_ACK, 3, 1));
    show(LAST, Way::ToMemory, plain(LOAD_MEM, 0, 0));
    show(LAST, Way::ToMemory, with(full, STORE_MEM, 0, 0));
    show(LAST, Way::FromMemory, with(full, LOAD_MEM_ACK, 0, 0));
    show(LAST, Way::FromMemory, plain(STORE_MEM_ACK, 0, 0));
    show(LAST, Way::Noc1(13), plain(0, 0, 0));
    show(LAST, Way::Noc2(13), with(full, DATA_ACK, 0, 0));
    show(1 << 48, Way::Noc1(13), plain(LOAD_REQ, 0, 0));
    show(1 << 48, Way::Noc1(13), plain(WBGUARD_REQ, 0, 0));
    let expected = lines.join("\n") + "\n";
    let stored = Path::new(env!("CARGO_MANIFEST_DIR")).join("../../crates/message_vectors/stdout");
    assert_eq!(fs::read_to_string(stored).unwrap(), expected);
}
