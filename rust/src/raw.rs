//! The header's declarations and a thin call for each: the only unsafe code of the crate.
//!
//! Why each call is sound. The kit's contracts cover every input whose memory is as the caller says; include/notchbadger.h lists what breaks
//! that, and a Rust slice rules each out:
//!  - its pointer is never null and never dangles within its length, also where it is empty;
//!  - its length is that of the memory behind it;
//!  - a `&mut` slice overlaps no other argument, and no other thread touches what is lent, for as long as the call lasts.
//!
//! The kit keeps nothing between calls, so no pointer outlives the borrow. Lengths are the kit's to check: it answers a wrong one with a
//! number and touches nothing. The structs have the header's fields in the header's order, integers alone, so any bytes that come back are a
//! value of them.

/// `nb_state`.
#[repr(C)]
#[derive(Clone, Copy, Debug, PartialEq, Eq)]
pub struct NbState {
    pub id: u32,
    pub recording: u64,
    pub capacity: usize,
    pub zone: usize,
    pub position: usize,
    pub closed: u8,
    pub marks: usize,
}

/// `nb_wrote`.
#[repr(C)]
pub struct NbWrote {
    pub state: NbState,
    pub reply: u8,
    pub number: u8,
}

/// `nb_got`.
#[repr(C)]
pub struct NbGot {
    pub outcome: u8,
    pub number: u8,
    pub data: usize,
    pub next: usize,
}

/// `nb_part`.
#[repr(C)]
pub struct NbPart {
    pub offset: usize,
    pub length: usize,
}

/// `nb_spaced`.
#[repr(C)]
pub struct NbSpaced {
    pub kind: u8,
    pub number: u8,
    pub position: usize,
    pub marks: usize,
}

/// `nb_tally`.
#[repr(C)]
pub struct NbTally {
    pub number: u8,
    pub records: usize,
    pub marks: usize,
    pub ends: usize,
    pub bads: usize,
    pub strays: usize,
    pub cuts: usize,
}

#[rustfmt::skip]
extern "C" {
    fn nb_version() -> u32;
    fn nb_permute(state: *mut u8, state_len: usize) -> u8;
    fn nb_permute_back(state: *mut u8, state_len: usize) -> u8;
    fn nb_round(state: *mut u8, state_len: usize, key: *const u8, key_len: usize) -> u8;
    fn nb_round_back(state: *mut u8, state_len: usize, key: *const u8, key_len: usize) -> u8;
    fn nb_minibox(x: u8) -> u8;
    fn nb_put(state: *mut u8, state_len: usize, bytes: *const u8, bytes_len: usize, domain: u8) -> u8;
    fn nb_get(state: *mut u8, state_len: usize, out: *mut u8, out_len: usize, domain: u8) -> u8;
    fn nb_enc(state: *mut u8, state_len: usize, message: *const u8, message_len: usize, out: *mut u8, out_len: usize, domain: u8) -> u8;
    fn nb_dec(state: *mut u8, state_len: usize, cipher: *const u8, cipher_len: usize, out: *mut u8, out_len: usize, domain: u8) -> u8;
    fn nb_seal(key: *const u8, key_len: usize, nonce: *const u8, nonce_len: usize, data: *const u8, data_len: usize,
               message: *const u8, message_len: usize, out: *mut u8, out_len: usize) -> u8;
    fn nb_open(key: *const u8, key_len: usize, nonce: *const u8, nonce_len: usize, data: *const u8, data_len: usize,
               sealed: *const u8, sealed_len: usize, out: *mut u8, out_len: usize) -> u8;
    fn nb_start(id: u32, recording: u64, zone: usize, image: *mut u8, image_len: usize) -> NbWrote;
    fn nb_record(state: NbState, key: *const u8, key_len: usize, bytes: *const u8, bytes_len: usize, image: *mut u8, image_len: usize) -> NbWrote;
    fn nb_mark(state: NbState, key: *const u8, key_len: usize, image: *mut u8, image_len: usize) -> NbWrote;
    fn nb_close(state: NbState, key: *const u8, key_len: usize, image: *mut u8, image_len: usize) -> NbWrote;
    fn nb_read(key: *const u8, key_len: usize, id: u32, recording: u64, image: *const u8, image_len: usize, p: usize,
               buffer: *mut u8, buffer_len: usize) -> NbGot;
    fn nb_record_part(buffer: *const u8, buffer_len: usize, length: usize) -> NbPart;
    fn nb_look(image: *const u8, image_len: usize, p: usize) -> NbPart;
    fn nb_look_number(image: *const u8, image_len: usize, p: usize) -> u8;
    fn nb_space(key: *const u8, key_len: usize, id: u32, recording: u64, image: *const u8, image_len: usize, p: usize, n: usize) -> NbSpaced;
    fn nb_report(key: *const u8, key_len: usize, id: u32, recording: u64, image: *const u8, image_len: usize) -> NbTally;
}

pub fn version() -> u32 {
    unsafe { nb_version() }
}

pub fn permute(state: &mut [u8]) -> u8 {
    unsafe { nb_permute(state.as_mut_ptr(), state.len()) }
}

pub fn permute_back(state: &mut [u8]) -> u8 {
    unsafe { nb_permute_back(state.as_mut_ptr(), state.len()) }
}

pub fn round(state: &mut [u8], key: &[u8]) -> u8 {
    unsafe { nb_round(state.as_mut_ptr(), state.len(), key.as_ptr(), key.len()) }
}

pub fn round_back(state: &mut [u8], key: &[u8]) -> u8 {
    unsafe { nb_round_back(state.as_mut_ptr(), state.len(), key.as_ptr(), key.len()) }
}

pub fn minibox(x: u8) -> u8 {
    unsafe { nb_minibox(x) }
}

pub fn put(state: &mut [u8], bytes: &[u8], domain: u8) -> u8 {
    unsafe { nb_put(state.as_mut_ptr(), state.len(), bytes.as_ptr(), bytes.len(), domain) }
}

pub fn get(state: &mut [u8], out: &mut [u8], domain: u8) -> u8 {
    unsafe { nb_get(state.as_mut_ptr(), state.len(), out.as_mut_ptr(), out.len(), domain) }
}

pub fn enc(state: &mut [u8], message: &[u8], out: &mut [u8], domain: u8) -> u8 {
    unsafe { nb_enc(state.as_mut_ptr(), state.len(), message.as_ptr(), message.len(), out.as_mut_ptr(), out.len(), domain) }
}

pub fn dec(state: &mut [u8], cipher: &[u8], out: &mut [u8], domain: u8) -> u8 {
    unsafe { nb_dec(state.as_mut_ptr(), state.len(), cipher.as_ptr(), cipher.len(), out.as_mut_ptr(), out.len(), domain) }
}

#[rustfmt::skip]
pub fn seal(key: &[u8], nonce: &[u8], data: &[u8], message: &[u8], out: &mut [u8]) -> u8 {
    unsafe {
        nb_seal(key.as_ptr(), key.len(), nonce.as_ptr(), nonce.len(), data.as_ptr(), data.len(),
                message.as_ptr(), message.len(), out.as_mut_ptr(), out.len())
    }
}

#[rustfmt::skip]
pub fn open(key: &[u8], nonce: &[u8], data: &[u8], sealed: &[u8], out: &mut [u8]) -> u8 {
    unsafe {
        nb_open(key.as_ptr(), key.len(), nonce.as_ptr(), nonce.len(), data.as_ptr(), data.len(),
                sealed.as_ptr(), sealed.len(), out.as_mut_ptr(), out.len())
    }
}

pub fn start(id: u32, recording: u64, zone: usize, image: &mut [u8]) -> NbWrote {
    unsafe { nb_start(id, recording, zone, image.as_mut_ptr(), image.len()) }
}

pub fn record(state: NbState, key: &[u8], bytes: &[u8], image: &mut [u8]) -> NbWrote {
    unsafe { nb_record(state, key.as_ptr(), key.len(), bytes.as_ptr(), bytes.len(), image.as_mut_ptr(), image.len()) }
}

pub fn mark(state: NbState, key: &[u8], image: &mut [u8]) -> NbWrote {
    unsafe { nb_mark(state, key.as_ptr(), key.len(), image.as_mut_ptr(), image.len()) }
}

pub fn close(state: NbState, key: &[u8], image: &mut [u8]) -> NbWrote {
    unsafe { nb_close(state, key.as_ptr(), key.len(), image.as_mut_ptr(), image.len()) }
}

pub fn read(key: &[u8], id: u32, recording: u64, image: &[u8], p: usize, buffer: &mut [u8]) -> NbGot {
    unsafe { nb_read(key.as_ptr(), key.len(), id, recording, image.as_ptr(), image.len(), p, buffer.as_mut_ptr(), buffer.len()) }
}

pub fn record_part(buffer: &[u8], length: usize) -> NbPart {
    unsafe { nb_record_part(buffer.as_ptr(), buffer.len(), length) }
}

pub fn look(image: &[u8], p: usize) -> NbPart {
    unsafe { nb_look(image.as_ptr(), image.len(), p) }
}

pub fn look_number(image: &[u8], p: usize) -> u8 {
    unsafe { nb_look_number(image.as_ptr(), image.len(), p) }
}

pub fn space(key: &[u8], id: u32, recording: u64, image: &[u8], p: usize, n: usize) -> NbSpaced {
    unsafe { nb_space(key.as_ptr(), key.len(), id, recording, image.as_ptr(), image.len(), p, n) }
}

pub fn report(key: &[u8], id: u32, recording: u64, image: &[u8]) -> NbTally {
    unsafe { nb_report(key.as_ptr(), key.len(), id, recording, image.as_ptr(), image.len()) }
}
