//! The product's static library: its calls as `include/nuvkerd.h` declares them, and safe ones around them.
//! All unsafe code of this folder is here.
//!
//! Every call takes any bytes, any words and any lengths, so nothing is asked of the caller of the safe ones.

#![allow(unsafe_code)]

use std::mem::MaybeUninit;

pub const LEVELS: u32 = 0;
pub const HEADS: u32 = 1;
pub const BAD_KIND: u32 = 101;
pub const BAD_LAYERS: u32 = 102;
pub const WRONG_KIND: u32 = 103;

const RIG_WORDS: usize = 151;
const HOST_WORDS: usize = 952;

/// One record of the log, 44 bytes.
#[repr(C)]
#[derive(Clone, Copy, Debug, Default)]
pub struct Record {
    pub place: u32,
    pub part: u8,
    pub kind: u8,
    pub refusal: u8,
    pub detail: u8,
    pub missed: u8,
    pub count: u8,
    /// Holds nothing in a record that the product wrote.
    pub unused: [u8; 2],
    pub words: [u32; 8],
}

/// What opening or running a show gave.
#[repr(C)]
#[derive(Clone, Copy, Debug, PartialEq, Eq)]
pub struct Outcome {
    pub refusal: u32,
    /// The record that refusal 3 names.
    pub at: u32,
    pub commands: u32,
}

#[repr(C)]
struct RawRig(MaybeUninit<[u64; RIG_WORDS]>);

#[repr(C)]
struct RawHost(MaybeUninit<[u64; HOST_WORDS]>);

unsafe extern "C" {
    fn nuvkerd_rig_new(kind: u32, layers: u32, cells: usize, refusal: *mut u32) -> RawRig;
    fn nuvkerd_rig_grant(rig: *mut RawRig, cell: usize, part: u8, mode: u8) -> u32;
    fn nuvkerd_rig_swap(rig: *mut RawRig, cell: usize) -> u32;
    fn nuvkerd_rig_port(rig: *mut RawRig, port: u8, senders: u8, receivers: u8) -> u32;
    fn nuvkerd_rig_upstream(rig: *const RawRig, part: u8) -> u8;
    fn nuvkerd_make(rig: *const RawRig, cells: *const u32, cells_len: usize, refusal: *mut u32) -> RawHost;
    fn nuvkerd_open(show: *const u8, show_len: usize) -> Outcome;
    fn nuvkerd_run(
        host: *mut RawHost,
        cells: *mut u32,
        cells_len: usize,
        show: *const u8,
        show_len: usize,
        log: *mut Record,
        log_len: usize,
    ) -> Outcome;
    fn nuvkerd_run_levels(
        host: *mut RawHost,
        cells: *mut u32,
        cells_len: usize,
        show: *const u8,
        show_len: usize,
        log: *mut Record,
        log_len: usize,
        args: *mut u8,
        args_len: usize,
        results: *mut u8,
        results_len: usize,
    ) -> Outcome;
    fn nuvkerd_command(
        host: *mut RawHost,
        cells: *mut u32,
        cells_len: usize,
        place: u32,
        bytes: *const u8,
        bytes_len: usize,
    ) -> Record;
}

/// The access sheet, the ports, the kind of element and the number of layers.
pub struct Rig(Box<RawRig>);

impl Rig {
    /// The rig and the refusal's number; 0 means none.
    pub fn new(kind: u32, layers: u32, cells: usize) -> (Rig, u32) {
        let mut refusal = 0;
        // SAFETY: the call asks for nothing but a place for the refusal.
        let raw = unsafe { nuvkerd_rig_new(kind, layers, cells, &mut refusal) };
        (Rig(Box::new(raw)), refusal)
    }

    pub fn grant(&mut self, cell: usize, part: u8, mode: u8) -> u32 {
        // SAFETY: the rig was made by `nuvkerd_rig_new`; so below.
        unsafe { nuvkerd_rig_grant(&mut *self.0, cell, part, mode) }
    }

    pub fn swap(&mut self, cell: usize) -> u32 {
        // SAFETY: as above.
        unsafe { nuvkerd_rig_swap(&mut *self.0, cell) }
    }

    pub fn port(&mut self, port: u8, senders: u8, receivers: u8) -> u32 {
        // SAFETY: as above.
        unsafe { nuvkerd_rig_port(&mut *self.0, port, senders, receivers) }
    }

    pub fn upstream(&self, part: u8) -> u8 {
        // SAFETY: as above.
        unsafe { nuvkerd_rig_upstream(&*self.0, part) }
    }
}

/// A host without its cells. It cannot be copied: an older one must never come back.
pub struct Host(Box<RawHost>);

impl Host {
    /// The host and the refusal's number; a host is given also with refusal 19.
    pub fn make(rig: &Rig, cells: &[u32]) -> (Host, u32) {
        let mut refusal = 0;
        // SAFETY: the rig is a made one, and pointer and length are a slice's; so below.
        let raw = unsafe { nuvkerd_make(&*rig.0, cells.as_ptr(), cells.len(), &mut refusal) };
        (Host(Box::new(raw)), refusal)
    }

    pub fn run(&mut self, cells: &mut [u32], show: &[u8], log: &mut [Record]) -> Outcome {
        // SAFETY: the host is a made one, and pointers and lengths are those of slices; so below.
        unsafe {
            nuvkerd_run(
                &mut *self.0,
                cells.as_mut_ptr(),
                cells.len(),
                show.as_ptr(),
                show.len(),
                log.as_mut_ptr(),
                log.len(),
            )
        }
    }

    /// A run with lent scratch, one byte a level.
    pub fn run_levels(
        &mut self,
        cells: &mut [u32],
        show: &[u8],
        log: &mut [Record],
        args: &mut [u8],
        results: &mut [u8],
    ) -> Outcome {
        // SAFETY: as above.
        unsafe {
            nuvkerd_run_levels(
                &mut *self.0,
                cells.as_mut_ptr(),
                cells.len(),
                show.as_ptr(),
                show.len(),
                log.as_mut_ptr(),
                log.len(),
                args.as_mut_ptr(),
                args.len(),
                results.as_mut_ptr(),
                results.len(),
            )
        }
    }

    pub fn command(&mut self, cells: &mut [u32], place: u32, bytes: &[u8]) -> Record {
        // SAFETY: as above.
        unsafe { nuvkerd_command(&mut *self.0, cells.as_mut_ptr(), cells.len(), place, bytes.as_ptr(), bytes.len()) }
    }
}

pub fn open(show: &[u8]) -> Outcome {
    // SAFETY: pointer and length are a slice's.
    unsafe { nuvkerd_open(show.as_ptr(), show.len()) }
}
