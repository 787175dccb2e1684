//! libzvbi: a reader that nobody here wrote.
use crate::command::ENVIRONMENT;
use std::os::raw::{c_int, c_uint, c_void};

#[repr(C)]
struct ProgramId {
    channel: c_uint,
    cni_type: c_uint,
    cni: c_uint,
    pil: c_uint,
    luf: c_int,
    mi: c_int,
    prf: c_int,
    pcs_audio: c_uint,
    pty: c_uint,
    tape_delayed: c_int,
    reserved2: [*mut c_void; 2],
    reserved3: [c_int; 4],
}

#[link(name = "zvbi")]
extern "C" {
    static _vbi_hamm8_inv: [i8; 256];
    fn vbi_ham24p(bytes: *mut u8, value: c_uint);
    fn vbi_unham24p(bytes: *const u8) -> c_int;
    fn vbi_decode_teletext_8302_pdc(pid: *mut ProgramId, buffer: *const u8) -> c_int;
    // time_t is 64 bits wide on every system that the tests run on
    fn vbi_pil_lto_to_time(pil: c_uint, start: i64, seconds_east: c_int) -> i64;
    fn vbi_pil_lto_validity_window(begin: *mut i64, end: *mut i64, pil: c_uint, start: i64, seconds_east: c_int) -> c_int;
}

/// `vbi_unham8`, which is this look into a table.
pub fn unham8(b: u8) -> Option<u8> {
    let v = unsafe { _vbi_hamm8_inv[b as usize] };
    u8::try_from(v).ok()
}

/// The eighteen bits of three bytes; of damaged ones the data bits as they stand, as libzvbi has them beside its sign.
pub fn unham24(bytes: [u8; 3]) -> Result<u32, u32> {
    match unsafe { vbi_unham24p(bytes.as_ptr()) } {
        value @ 0.. => Ok(value as u32),
        damaged => Err((damaged & i32::MAX) as u32),
    }
}

/// The three bytes of eighteen bits.
pub fn ham24(value: u32) -> [u8; 3] {
    let mut bytes = [0; 3];
    unsafe { vbi_ham24p(bytes.as_mut_ptr(), value) };
    bytes
}

/// What libzvbi gives of a label: it has neither the spare bit nor the designation.
#[derive(Clone, Copy, Debug, PartialEq, Eq)]
pub struct Pid {
    pub lci: u8,
    pub luf: u8,
    pub prf: u8,
    pub pcs: u8,
    pub mi: u8,
    pub cni: u16,
    pub pil: u32,
    pub pty: u8,
}

pub fn read(packet: &[u8; 42]) -> Option<Pid> {
    let mut p: ProgramId = unsafe { std::mem::zeroed() };
    if unsafe { vbi_decode_teletext_8302_pdc(&mut p, packet.as_ptr()) } == 0 {
        return None;
    }
    Some(Pid {
        lci: p.channel as u8,
        luf: p.luf as u8,
        prf: p.prf as u8,
        pcs: p.pcs_audio as u8,
        mi: p.mi as u8,
        cni: p.cni as u16,
        pil: p.pil,
        pty: p.pty as u8,
    })
}

/// What libzvbi gives as the window of a PIL near a time, all as Unix time in UTC; none where it refuses.
pub fn window(pil: u32, near: i64) -> Option<(i64, i64)> {
    // it sets the time zone for as long as a call takes
    let _held = ENVIRONMENT.lock().unwrap();
    let (mut begin, mut end) = (0, 0);
    let given = unsafe { vbi_pil_lto_validity_window(&mut begin, &mut end, pil, near, 0) };
    (given != 0).then_some((begin, end))
}

/// The date and time of a PIL near a time, in the same way.
pub fn announced(pil: u32, near: i64) -> Option<i64> {
    let _held = ENVIRONMENT.lock().unwrap();
    let given = unsafe { vbi_pil_lto_to_time(pil, near, 0) };
    (given != -1).then_some(given)
}
