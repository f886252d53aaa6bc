//! The calls of nixu.h that audit. Together with `foreign_node` the only file with code that the compiler doesn't check.

use std::os::raw::c_void;
use std::ptr;

pub const OK: u32 = 0;
pub const FAULT: u32 = 1;
pub const NO_MEMORY: u32 = 2;
pub const MISUSED: u32 = 3;
pub const CLOSED: u32 = 4;

/// `nixu_verdict`.
#[repr(C)]
#[derive(Clone, Debug)]
pub struct Summary {
    pub kind: u32,
    pub entries: u32,
    pub deliveries: u32,
    pub instant: u32,
    pub delivery: u32,
    pub orphan: u32,
    pub line: u32,
    pub fault: u32,
    pub processes: [u8; 256],
}

const _: () = assert!(std::mem::size_of::<Summary>() == 288);

impl Default for Summary {
    fn default() -> Self {
        Summary {
            kind: 0,
            entries: 0,
            deliveries: 0,
            instant: 0,
            delivery: 0,
            orphan: 0,
            line: 0,
            fault: 0,
            processes: [0; 256],
        }
    }
}

/// `nixu_stray`.
#[repr(C)]
#[derive(Clone, Copy, Default)]
pub struct CStray {
    pub kind: u32,
    pub instant: u32,
    pub rsn: u32,
    pub first: u32,
    pub second: u32,
    pub line: u32,
    pub fault: u32,
    pub process: u8,
}

const _: () = assert!(std::mem::size_of::<CStray>() == 32);

/// `nixu_fact`.
#[repr(C)]
#[derive(Clone, Copy, Default)]
pub struct Fact {
    pub kind: u32,
    pub entry: u32,
    pub delivery: u32,
    pub send: u32,
    pub second: u32,
    pub instant: u32,
    pub ssn: u32,
    pub rsn: u32,
    pub faults: u32,
    pub by: u32,
    pub process: u8,
    pub source: u8,
}

const _: () = assert!(std::mem::size_of::<Fact>() == 44);

/// `nixu_recording`.
#[repr(C)]
struct Recording {
    text: *const u8,
    length: usize,
}

const _: () = assert!(std::mem::size_of::<Recording>() == 16);

/// The numbers of two errors that only recordings have.
pub const NO_HEADER: u32 = 21;
pub const TWICE: u32 = 22;

/// `nixu_merge_fault`.
#[repr(C)]
pub struct CMergeFault {
    pub recording: usize,
    pub line: u32,
    pub kind: u32,
    pub given: u32,
    pub next: u32,
    pub lane: u32,
    pub ssn: u32,
    pub rsn: u32,
    pub process: u8,
    pub source: u8,
    pub dest: u8,
    pub missing: [u8; 256],
}

const _: () = assert!(std::mem::size_of::<CMergeFault>() == 296);

impl Default for CMergeFault {
    fn default() -> Self {
        CMergeFault {
            recording: 0,
            line: 0,
            kind: 0,
            given: 0,
            next: 0,
            lane: 0,
            ssn: 0,
            rsn: 0,
            process: 0,
            source: 0,
            dest: 0,
            missing: [0; 256],
        }
    }
}

/// `nixu_reader`, `nixu_trace` and `nixu_node`. It is freed by nobody: whoever has one closes it.
#[repr(C)]
#[derive(Debug)]
pub struct Handle {
    held: *mut c_void,
    full: u32,
}

const _: () = assert!(std::mem::size_of::<Handle>() == 16);

impl Handle {
    /// One where nothing is open.
    pub fn closed() -> Handle {
        Handle { held: ptr::null_mut(), full: 0 }
    }
}

/// `nixu_determinant`.
#[repr(C)]
#[derive(Clone, Copy, Default)]
pub struct Determinant {
    pub ssn: u32,
    pub rsn: u32,
    pub source: u8,
    pub dest: u8,
}

const _: () = assert!(std::mem::size_of::<Determinant>() == 12);

/// `nixu_entry`.
#[repr(C)]
#[derive(Clone, Copy, Default)]
pub struct Entry {
    pub kind: u32,
    pub ssn: u32,
    pub rsn: u32,
    pub send: u32,
    pub source: u8,
    pub dest: u8,
    pub who: u8,
}

const _: () = assert!(std::mem::size_of::<Entry>() == 20);

type ShowsInC = unsafe extern "C" fn(*const u8, usize, u16, *mut u8, usize, *mut usize) -> u32;

extern "C" {
    fn nixu_version() -> u32;
    fn nixu_audit(text: *const u8, length: usize, faults: u16, told: *mut Summary) -> u32;
    fn nixu_audit_each(
        text: *const u8,
        length: usize,
        faults: *const u16,
        count: usize,
        told: *mut Summary,
        room: usize,
    ) -> u32;
    fn nixu_replays(text: *const u8, length: usize, stray: *mut CStray) -> u32;
    fn nixu_line(text: *const u8, length: usize, faults: u16, out: *mut u8, room: usize, needed: *mut usize) -> u32;
    fn nixu_explain(text: *const u8, length: usize, faults: u16, out: *mut u8, room: usize, needed: *mut usize) -> u32;
    fn nixu_draw(text: *const u8, length: usize, faults: u16, out: *mut u8, room: usize, needed: *mut usize) -> u32;
    fn nixu_facts(
        text: *const u8,
        length: usize,
        faults: u16,
        told: *mut Summary,
        facts: *mut Fact,
        room: usize,
        needed: *mut usize,
    ) -> u32;
    fn nixu_trace_facts(
        trace: *mut Handle,
        faults: u16,
        told: *mut Summary,
        facts: *mut Fact,
        room: usize,
        needed: *mut usize,
    ) -> u32;
    fn nixu_reader_facts(
        reader: *mut Handle,
        faults: u16,
        told: *mut Summary,
        facts: *mut Fact,
        room: usize,
        needed: *mut usize,
    ) -> u32;
    fn nixu_merge(
        recordings: *const Recording,
        count: usize,
        entries: u32,
        out: *mut u8,
        room: usize,
        needed: *mut usize,
        fault: *mut CMergeFault,
    ) -> u32;
    fn nixu_merge_fault_text(fault: u32, out: *mut u8, room: usize, needed: *mut usize) -> u32;
    fn nixu_fault_text(fault: u32, out: *mut u8, room: usize, needed: *mut usize) -> u32;
    fn nixu_reader_open_within(reader: *mut Handle, entries: u32) -> u32;
    fn nixu_reader_feed(reader: *mut Handle, piece: *const u8, length: usize, told: *mut Summary) -> u32;
    fn nixu_reader_finish(
        reader: *mut Handle,
        faults: *const u16,
        count: usize,
        told: *mut Summary,
        room: usize,
    ) -> u32;
    fn nixu_reader_close(reader: *mut Handle);
    fn nixu_trace_open_within(trace: *mut Handle, processes: u16, entries: u32) -> u32;
    fn nixu_trace_push(
        trace: *mut Handle,
        entry: *const Entry,
        listed: *const Determinant,
        count: usize,
        fault: *mut u32,
    ) -> u32;
    fn nixu_trace_audit(trace: *mut Handle, faults: u16, told: *mut Summary) -> u32;
    fn nixu_trace_replays(trace: *mut Handle, stray: *mut CStray) -> u32;
    fn nixu_trace_text(trace: *mut Handle, out: *mut u8, room: usize, needed: *mut usize) -> u32;
    fn nixu_trace_close(trace: *mut Handle);
}

/// One of the calls that give bytes.
#[derive(Clone, Copy)]
pub struct Shows(ShowsInC);

pub const LINE: Shows = Shows(nixu_line);
pub const EXPLAIN: Shows = Shows(nixu_explain);
pub const DRAW: Shows = Shows(nixu_draw);

/// What such a call answers.
pub struct Shown {
    pub status: u32,
    pub needed: usize,
}

pub fn version() -> u32 {
    // SAFETY: the call takes nothing.
    unsafe { nixu_version() }
}

pub fn audit(text: &[u8], faults: u16, told: &mut Summary) -> u32 {
    // SAFETY: a slice is as long as it says, and the struct is lent to this call alone.
    unsafe { nixu_audit(text.as_ptr(), text.len(), faults, told) }
}

pub fn audit_each(text: &[u8], faults: &[u16], told: &mut [Summary]) -> u32 {
    // SAFETY: slices are as long as they say, and the structs are lent to this call alone.
    unsafe {
        nixu_audit_each(text.as_ptr(), text.len(), faults.as_ptr(), faults.len(), told.as_mut_ptr(), told.len())
    }
}

pub fn replays(text: &[u8], stray: &mut CStray) -> u32 {
    // SAFETY: a slice is as long as it says, and the struct is lent to this call alone.
    unsafe { nixu_replays(text.as_ptr(), text.len(), stray) }
}

pub fn show(Shows(call): Shows, text: &[u8], faults: u16, out: &mut [u8]) -> Shown {
    let mut needed = 0;
    // SAFETY: slices are as long as they say; the bytes and the number are lent to this call alone.
    let status = unsafe { call(text.as_ptr(), text.len(), faults, out.as_mut_ptr(), out.len(), &mut needed) };
    Shown { status, needed }
}

pub fn facts(text: &[u8], faults: u16, told: &mut Summary, facts: &mut [Fact], needed: &mut usize) -> u32 {
    let room = facts.len();
    // SAFETY: slices are as long as they say; the structs and the number are lent to this call alone.
    unsafe { nixu_facts(text.as_ptr(), text.len(), faults, told, facts.as_mut_ptr(), room, needed) }
}

pub fn trace_facts(
    trace: &mut Handle,
    faults: u16,
    told: &mut Summary,
    facts: &mut [Fact],
    needed: &mut usize,
) -> u32 {
    // SAFETY: the handle is one of a trace; all are lent to this call alone, and the slice is as long as it says.
    unsafe { nixu_trace_facts(trace, faults, told, facts.as_mut_ptr(), facts.len(), needed) }
}

pub fn reader_facts(
    reader: &mut Handle,
    faults: u16,
    told: &mut Summary,
    facts: &mut [Fact],
    needed: &mut usize,
) -> u32 {
    // SAFETY: the handle is one of a reader; all are lent to this call alone, and the slice is as long as it says.
    unsafe { nixu_reader_facts(reader, faults, told, facts.as_mut_ptr(), facts.len(), needed) }
}

pub fn merge(recordings: &[&[u8]], entries: u32, out: &mut [u8], fault: &mut CMergeFault) -> Shown {
    let given: Vec<_> = recordings.iter().map(|text| Recording { text: text.as_ptr(), length: text.len() }).collect();
    let mut needed = 0;
    // SAFETY: slices are as long as they say, also those of the recordings; the bytes and the struct are lent to this call alone.
    let status =
        unsafe { nixu_merge(given.as_ptr(), given.len(), entries, out.as_mut_ptr(), out.len(), &mut needed, fault) };
    Shown { status, needed }
}

pub fn merge_fault_text(fault: u32, out: &mut [u8]) -> Shown {
    let mut needed = 0;
    // SAFETY: the slice is as long as it says; its bytes and the number are lent to this call alone.
    let status = unsafe { nixu_merge_fault_text(fault, out.as_mut_ptr(), out.len(), &mut needed) };
    Shown { status, needed }
}

pub fn fault_text(fault: u32, out: &mut [u8]) -> Shown {
    let mut needed = 0;
    // SAFETY: the slice is as long as it says; its bytes and the number are lent to this call alone.
    let status = unsafe { nixu_fault_text(fault, out.as_mut_ptr(), out.len(), &mut needed) };
    Shown { status, needed }
}

pub fn reader_open(reader: &mut Handle, entries: u32) -> u32 {
    // SAFETY: the handle is one of a reader, and lent to this call alone.
    unsafe { nixu_reader_open_within(reader, entries) }
}

pub fn reader_feed(reader: &mut Handle, piece: &[u8], told: &mut Summary) -> u32 {
    // SAFETY: the handle is one of a reader; it and the struct are lent to this call alone, and a slice is as long as it says.
    unsafe { nixu_reader_feed(reader, piece.as_ptr(), piece.len(), told) }
}

pub fn reader_finish(reader: &mut Handle, faults: &[u16], told: &mut [Summary]) -> u32 {
    // SAFETY: the handle is one of a reader; it and the structs are lent to this call alone, and slices are as long as they say.
    unsafe { nixu_reader_finish(reader, faults.as_ptr(), faults.len(), told.as_mut_ptr(), told.len()) }
}

pub fn reader_close(reader: &mut Handle) {
    // SAFETY: the handle is one of a reader, and lent to this call alone.
    unsafe { nixu_reader_close(reader) }
}

pub fn trace_open(trace: &mut Handle, processes: u16, entries: u32) -> u32 {
    // SAFETY: the handle is one of a trace, and lent to this call alone.
    unsafe { nixu_trace_open_within(trace, processes, entries) }
}

pub fn trace_push(trace: &mut Handle, entry: &Entry, listed: &[Determinant], fault: &mut u32) -> u32 {
    // SAFETY: the handle is one of a trace; it and the number are lent to this call alone, and a slice is as long as it says.
    unsafe { nixu_trace_push(trace, entry, listed.as_ptr(), listed.len(), fault) }
}

pub fn trace_audit(trace: &mut Handle, faults: u16, told: &mut Summary) -> u32 {
    // SAFETY: the handle is one of a trace; it and the struct are lent to this call alone.
    unsafe { nixu_trace_audit(trace, faults, told) }
}

pub fn trace_replays(trace: &mut Handle, stray: &mut CStray) -> u32 {
    // SAFETY: the handle is one of a trace; it and the struct are lent to this call alone.
    unsafe { nixu_trace_replays(trace, stray) }
}

pub fn trace_text(trace: &mut Handle, out: &mut [u8]) -> Shown {
    let mut needed = 0;
    // SAFETY: the handle is one of a trace; it, the bytes and the number are lent to this call alone.
    let status = unsafe { nixu_trace_text(trace, out.as_mut_ptr(), out.len(), &mut needed) };
    Shown { status, needed }
}

pub fn trace_close(trace: &mut Handle) {
    // SAFETY: the handle is one of a trace, and lent to this call alone.
    unsafe { nixu_trace_close(trace) }
}
