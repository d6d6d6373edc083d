//! The archive of the proved crates, by its C interface (include/duzhmarqi.h).

use model::steps::Call;

mod c {
    extern "C" {
        pub fn duzh_start(
            w: *mut u64,
            n: usize,
            tiles: u64,
            memory: *const u64,
            memory_n: usize,
            out: *mut u64,
            m: usize,
        ) -> u64;
        pub fn duzh_load(w: *mut u64, n: usize, tile: u64, word: u64, out: *mut u64, m: usize) -> u64;
        pub fn duzh_store(w: *mut u64, n: usize, tile: u64, word: u64, value: u64, out: *mut u64, m: usize) -> u64;
        pub fn duzh_evict(w: *mut u64, n: usize, tile: u64, out: *mut u64, m: usize) -> u64;
        pub fn duzh_taking(w: *mut u64, n: usize, out: *mut u64, m: usize) -> u64;
        pub fn duzh_to_tile(w: *mut u64, n: usize, tile: u64, out: *mut u64, m: usize) -> u64;
        pub fn duzh_from_tile(w: *mut u64, n: usize, tile: u64, out: *mut u64, m: usize) -> u64;
        pub fn duzh_memory_step(w: *mut u64, n: usize, out: *mut u64, m: usize) -> u64;
        pub fn duzh_memory_ack(w: *mut u64, n: usize, out: *mut u64, m: usize) -> u64;
        pub fn duzh_home_eviction(w: *mut u64, n: usize, out: *mut u64, m: usize) -> u64;
        pub fn duzh_well_formed(w: *const u64, n: usize) -> u64;
        pub fn duzh_message_count(sent: u64, tiles: u64) -> u64;
        pub fn duzh_message_flits(
            w: *const u64,
            n: usize,
            sent: u64,
            tiles: u64,
            i: u64,
            line: u64,
            buffer: *mut u64,
            k: usize,
            at: u64,
            out: *mut u64,
            m: usize,
        ) -> u64;
        pub fn duzh_read(flits: *const u64, n: usize, at: u64, out: *mut u64, m: usize) -> u64;
        pub fn duzh_write(
            buffer: *mut u64,
            n: usize,
            at: u64,
            fields: *const u64,
            fields_n: usize,
            data: *const u64,
            data_n: usize,
            out: *mut u64,
            m: usize,
        ) -> u64;
        pub fn duzh_check_job(job: *const u8, n: usize, out: *mut u64, m: usize) -> u64;
        pub fn duzh_run_call(
            w: *mut u64,
            n: usize,
            job: *const u8,
            job_n: usize,
            at: u64,
            number: u64,
            line: u64,
            text: *mut u8,
            k: usize,
            p: u64,
            out: *mut u64,
            m: usize,
        ) -> u64;
    }
}

/// A start: `out` is left as it is where it has fewer than five words.
pub fn start(w: &mut [u64], tiles: u64, memory: &[u64], out: &mut [u64]) -> u64 {
    unsafe { c::duzh_start(w.as_mut_ptr(), w.len(), tiles, memory.as_ptr(), memory.len(), out.as_mut_ptr(), out.len()) }
}

/// One call on lent words.
#[inline]
pub fn call(w: &mut [u64], call: Call, out: &mut [u64]) -> u64 {
    let (p, n, o, m) = (w.as_mut_ptr(), w.len(), out.as_mut_ptr(), out.len());
    unsafe {
        match call {
            Call::Load { tile, word } => c::duzh_load(p, n, tile, word, o, m),
            Call::Store { tile, word, value } => c::duzh_store(p, n, tile, word, value, o, m),
            Call::Evict { tile } => c::duzh_evict(p, n, tile, o, m),
            Call::Arbitrate => c::duzh_taking(p, n, o, m),
            Call::ToTile { tile } => c::duzh_to_tile(p, n, tile, o, m),
            Call::FromTile { tile } => c::duzh_from_tile(p, n, tile, o, m),
            Call::MemoryStep => c::duzh_memory_step(p, n, o, m),
            Call::MemoryAck => c::duzh_memory_ack(p, n, o, m),
            Call::HomeEviction => c::duzh_home_eviction(p, n, o, m),
        }
    }
}

pub fn well_formed(w: &[u64]) -> u64 {
    unsafe { c::duzh_well_formed(w.as_ptr(), w.len()) }
}

pub fn message_count(sent: u64, tiles: u64) -> u64 {
    unsafe { c::duzh_message_count(sent, tiles) }
}

/// What names a message of an answer: its numbers `sent` and `tiles`, and which of them.
#[derive(Clone, Copy, Debug)]
pub struct Named {
    pub sent: u64,
    pub tiles: u64,
    pub i: u64,
}

pub fn message_flits(w: &[u64], named: Named, line: u64, buffer: &mut [u64], at: u64, out: &mut [u64]) -> u64 {
    let Named { sent, tiles, i } = named;
    unsafe {
        c::duzh_message_flits(
            w.as_ptr(),
            w.len(),
            sent,
            tiles,
            i,
            line,
            buffer.as_mut_ptr(),
            buffer.len(),
            at,
            out.as_mut_ptr(),
            out.len(),
        )
    }
}

#[inline]
pub fn read(flits: &[u64], at: u64, out: &mut [u64]) -> u64 {
    unsafe { c::duzh_read(flits.as_ptr(), flits.len(), at, out.as_mut_ptr(), out.len()) }
}

#[inline]
pub fn write(buffer: &mut [u64], at: u64, fields: &[u64], data: &[u64], out: &mut [u64]) -> u64 {
    unsafe {
        c::duzh_write(
            buffer.as_mut_ptr(),
            buffer.len(),
            at,
            fields.as_ptr(),
            fields.len(),
            data.as_ptr(),
            data.len(),
            out.as_mut_ptr(),
            out.len(),
        )
    }
}

pub fn check_job(job: &[u8], out: &mut [u64]) -> u64 {
    unsafe { c::duzh_check_job(job.as_ptr(), job.len(), out.as_mut_ptr(), out.len()) }
}

/// A call of a job: where it stands, its number, and the line's address.
#[derive(Clone, Copy, Debug)]
pub struct JobCall {
    pub at: u64,
    pub number: u64,
    pub line: u64,
}

pub fn run_call(w: &mut [u64], job: &[u8], call: JobCall, text: &mut [u8], place: u64, out: &mut [u64]) -> u64 {
    unsafe {
        c::duzh_run_call(
            w.as_mut_ptr(),
            w.len(),
            job.as_ptr(),
            job.len(),
            call.at,
            call.number,
            call.line,
            text.as_mut_ptr(),
            text.len(),
            place,
            out.as_mut_ptr(),
            out.len(),
        )
    }
}

/// The listing of an accepted job by the archive's calls: the check, a start, then call by call into `text`, from which whole
/// pieces go to `listing`.
pub fn run_job(bytes: &[u8], w: &mut [u64], text: &mut [u8], listing: &mut Vec<u8>) {
    listing.clear();
    let mut out = [0; 5];
    if check_job(bytes, &mut out) != 0 {
        listing.extend_from_slice(format!("job refused {} at {}\n", out[0], out[1]).as_bytes());
        return;
    }
    let big = |at: usize, n: usize| bytes[at..at + n].iter().fold(0, |sum, &b| sum << 8 | b as u64);
    let (tiles, line) = (big(3, 1), big(7, 6));
    let memory: [u64; 8] = std::array::from_fn(|i| big(16 + 8 * i, 8));
    start(w, tiles, &memory, &mut out);
    listing.extend_from_slice(format!("bench {tiles} {line:012X}\n").as_bytes());
    let (mut at, mut number, mut place) = (80, 0, 0);
    while at < bytes.len() as u64 {
        number += 1;
        if text.len() as u64 - place < 12_180 {
            listing.extend_from_slice(&text[..place as usize]);
            place = 0;
        }
        run_call(w, bytes, JobCall { at, number, line }, text, place, &mut out);
        (place, at) = (out[0], out[1]);
    }
    listing.extend_from_slice(&text[..place as usize]);
    listing.extend_from_slice(format!("end {number}\n").as_bytes());
}
