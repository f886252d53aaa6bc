//! The calls of nixu.h on a node. Beside `foreign` the only file with code that the compiler doesn't check.
use crate::foreign::{Determinant, Handle, Shown};

/// `nixu_node_identity`.
#[repr(C)]
pub struct Identity {
    pub run: u64,
    pub clock: u64,
    pub seed: u64,
    pub lane: u32,
    pub processes: u16,
    pub faults: u16,
    pub process: u8,
}

const _: () = assert!(std::mem::size_of::<Identity>() == 40);

/// `nixu_node_sent`.
#[repr(C)]
#[derive(Default)]
pub struct Sent {
    pub clock: u64,
    pub parcel: usize,
    pub ssn: u32,
}

const _: () = assert!(std::mem::size_of::<Sent>() == 24);

/// `nixu_node_received`.
#[repr(C)]
#[derive(Default)]
pub struct Received {
    pub clock: u64,
    pub body: usize,
    pub parcel: usize,
    pub listed: usize,
    pub kind: u32,
    pub ssn: u32,
    pub rsn: u32,
    pub lane: u32,
    pub source: u8,
}

const _: () = assert!(std::mem::size_of::<Received>() == 56);

/// `nixu_node_message`.
#[repr(C)]
#[derive(Default)]
pub struct Message {
    pub ssn: u32,
    pub exists: u8,
    pub source: u8,
}

const _: () = assert!(std::mem::size_of::<Message>() == 8);

/// `nixu_node_state`.
#[repr(C)]
#[derive(Default)]
pub struct State {
    pub clock: u64,
    pub round: u64,
    pub stage: u32,
    pub lane: u32,
    pub logged: u32,
    pub sent: u32,
    pub received: u32,
}

const _: () = assert!(std::mem::size_of::<State>() == 40);

type KeptInC = unsafe extern "C" fn(*mut Handle, *mut u8, usize, *mut usize) -> u32;
type ListedInC = unsafe extern "C" fn(*mut Handle, *mut Determinant, usize, *mut usize) -> u32;

extern "C" {
    fn nixu_node_open(node: *mut Handle, identity: *const Identity, fault: *mut u32) -> u32;
    fn nixu_node_close(node: *mut Handle);
    fn nixu_node_send(
        node: *mut Handle,
        now: u64,
        to: u8,
        body: *const u8,
        length: usize,
        sent: *mut Sent,
        fault: *mut u32,
    ) -> u32;
    fn nixu_node_receive(
        node: *mut Handle,
        now: u64,
        bytes: *const u8,
        length: usize,
        received: *mut Received,
        fault: *mut u32,
    ) -> u32;
    fn nixu_node_due(node: *mut Handle, due: *mut Message) -> u32;
    fn nixu_node_receiver(node: *mut Handle, ssn: u32, to: *mut u8) -> u32;
    fn nixu_node_resend(node: *mut Handle, ssn: u32, fault: *mut u32) -> u32;
    fn nixu_node_acknowledge(
        node: *mut Handle,
        now: u64,
        to: u8,
        listed: *const Determinant,
        count: usize,
        fault: *mut u32,
    ) -> u32;
    fn nixu_node_line(node: *mut Handle, out: *mut u8, room: usize, needed: *mut usize) -> u32;
    fn nixu_node_parcel(node: *mut Handle, out: *mut u8, room: usize, needed: *mut usize) -> u32;
    fn nixu_node_body(node: *mut Handle, out: *mut u8, room: usize, needed: *mut usize) -> u32;
    fn nixu_node_header(node: *mut Handle, out: *mut u8, room: usize, needed: *mut usize) -> u32;
    fn nixu_node_listed(node: *mut Handle, out: *mut Determinant, room: usize, needed: *mut usize) -> u32;
    fn nixu_node_unstored(node: *mut Handle, out: *mut Determinant, room: usize, needed: *mut usize) -> u32;
    fn nixu_node_stored(node: *mut Handle, now: u64, determinant: *const Determinant, fault: *mut u32) -> u32;
    fn nixu_node_forget(node: *mut Handle, now: u64, fault: *mut u32) -> u32;
    fn nixu_node_begin_round(node: *mut Handle, round: u64, fault: *mut u32) -> u32;
    fn nixu_node_question(node: *mut Handle, now: u64, to: u8, fault: *mut u32) -> u32;
    fn nixu_node_awaited(node: *mut Handle, processes: *mut u8) -> u32;
    fn nixu_node_view(node: *mut Handle, out: *mut u32, room: usize, needed: *mut usize) -> u32;
    fn nixu_node_take_ended(node: *mut Handle, round: u64, who: u8, lane: u32, fault: *mut u32) -> u32;
    fn nixu_node_finish_read(node: *mut Handle, round: u64, fault: *mut u32) -> u32;
    fn nixu_node_restart(node: *mut Handle, now: u64, fault: *mut u32) -> u32;
    fn nixu_node_inspect(node: *mut Handle, state: *mut State) -> u32;
    fn nixu_node_fault_text(fault: u32, out: *mut u8, room: usize, needed: *mut usize) -> u32;
    fn nixu_crash_line(process: u8, clock: u64, out: *mut u8, room: usize, needed: *mut usize) -> u32;
}

/// One of the calls that give the bytes that a node has kept.
#[derive(Clone, Copy)]
pub struct Kept(KeptInC);

pub const LINE: Kept = Kept(nixu_node_line);
pub const PARCEL: Kept = Kept(nixu_node_parcel);
pub const BODY: Kept = Kept(nixu_node_body);
pub const HEADER: Kept = Kept(nixu_node_header);

/// One of the calls that give determinants.
#[derive(Clone, Copy)]
pub struct Listed(ListedInC);

pub const LISTED: Listed = Listed(nixu_node_listed);
pub const UNSTORED: Listed = Listed(nixu_node_unstored);

pub fn open(node: &mut Handle, identity: &Identity, fault: &mut u32) -> u32 {
    // SAFETY: the handle is one of a node; all are lent to this call alone.
    unsafe { nixu_node_open(node, identity, fault) }
}

pub fn close(node: &mut Handle) {
    // SAFETY: the handle is one of a node, and lent to this call alone.
    unsafe { nixu_node_close(node) }
}

pub fn send(node: &mut Handle, now: u64, to: u8, body: &[u8], sent: &mut Sent, fault: &mut u32) -> u32 {
    // SAFETY: the handle is one of a node; it and the structs are lent to this call alone, and a slice is as long as it says.
    unsafe { nixu_node_send(node, now, to, body.as_ptr(), body.len(), sent, fault) }
}

pub fn receive(node: &mut Handle, now: u64, bytes: &[u8], received: &mut Received, fault: &mut u32) -> u32 {
    // SAFETY: as for `send`.
    unsafe { nixu_node_receive(node, now, bytes.as_ptr(), bytes.len(), received, fault) }
}

pub fn due(node: &mut Handle, due: &mut Message) -> u32 {
    // SAFETY: the handle is one of a node; it and the struct are lent to this call alone.
    unsafe { nixu_node_due(node, due) }
}

pub fn receiver(node: &mut Handle, ssn: u32, to: &mut u8) -> u32 {
    // SAFETY: the handle is one of a node; it and the number are lent to this call alone.
    unsafe { nixu_node_receiver(node, ssn, to) }
}

pub fn resend(node: &mut Handle, ssn: u32, fault: &mut u32) -> u32 {
    // SAFETY: the handle is one of a node; it and the number are lent to this call alone.
    unsafe { nixu_node_resend(node, ssn, fault) }
}

pub fn acknowledge(node: &mut Handle, now: u64, to: u8, listed: &[Determinant], fault: &mut u32) -> u32 {
    // SAFETY: as for `send`.
    unsafe { nixu_node_acknowledge(node, now, to, listed.as_ptr(), listed.len(), fault) }
}

pub fn kept(Kept(call): Kept, node: &mut Handle, out: &mut [u8]) -> Shown {
    let mut needed = 0;
    // SAFETY: the handle is one of a node; it, the bytes and the number are lent to this call alone.
    let status = unsafe { call(node, out.as_mut_ptr(), out.len(), &mut needed) };
    Shown { status, needed }
}

pub fn listed(Listed(call): Listed, node: &mut Handle, out: &mut [Determinant]) -> Shown {
    let mut needed = 0;
    // SAFETY: the handle is one of a node; it, the structs and the number are lent to this call alone.
    let status = unsafe { call(node, out.as_mut_ptr(), out.len(), &mut needed) };
    Shown { status, needed }
}

pub fn stored(node: &mut Handle, now: u64, determinant: Determinant, fault: &mut u32) -> u32 {
    // SAFETY: the handle is one of a node; all are lent to this call alone.
    unsafe { nixu_node_stored(node, now, &determinant, fault) }
}

pub fn forget(node: &mut Handle, now: u64, fault: &mut u32) -> u32 {
    // SAFETY: the handle is one of a node; it and the number are lent to this call alone.
    unsafe { nixu_node_forget(node, now, fault) }
}

pub fn begin_round(node: &mut Handle, round: u64, fault: &mut u32) -> u32 {
    // SAFETY: the handle is one of a node; it and the number are lent to this call alone.
    unsafe { nixu_node_begin_round(node, round, fault) }
}

pub fn question(node: &mut Handle, now: u64, to: u8, fault: &mut u32) -> u32 {
    // SAFETY: the handle is one of a node; it and the number are lent to this call alone.
    unsafe { nixu_node_question(node, now, to, fault) }
}

pub fn awaited(node: &mut Handle, processes: &mut [u8; 256]) -> u32 {
    // SAFETY: the handle is one of a node; it and the 256 bytes are lent to this call alone.
    unsafe { nixu_node_awaited(node, processes.as_mut_ptr()) }
}

pub fn view(node: &mut Handle, out: &mut [u32]) -> Shown {
    let mut needed = 0;
    // SAFETY: the handle is one of a node; it and the numbers are lent to this call alone.
    let status = unsafe { nixu_node_view(node, out.as_mut_ptr(), out.len(), &mut needed) };
    Shown { status, needed }
}

pub fn take_ended(node: &mut Handle, round: u64, who: u8, lane: u32, fault: &mut u32) -> u32 {
    // SAFETY: the handle is one of a node; it and the number are lent to this call alone.
    unsafe { nixu_node_take_ended(node, round, who, lane, fault) }
}

pub fn finish_read(node: &mut Handle, round: u64, fault: &mut u32) -> u32 {
    // SAFETY: the handle is one of a node; it and the number are lent to this call alone.
    unsafe { nixu_node_finish_read(node, round, fault) }
}

pub fn restart(node: &mut Handle, now: u64, fault: &mut u32) -> u32 {
    // SAFETY: the handle is one of a node; it and the number are lent to this call alone.
    unsafe { nixu_node_restart(node, now, fault) }
}

pub fn inspect(node: &mut Handle, state: &mut State) -> u32 {
    // SAFETY: the handle is one of a node; it and the struct are lent to this call alone.
    unsafe { nixu_node_inspect(node, state) }
}

/// Writes the sentence of a refusal, and returns its length; 0 if there is none.
pub fn fault_text(fault: u32, out: &mut [u8]) -> usize {
    let mut needed = 0;
    // SAFETY: the slice is as long as it says; its bytes and the number are lent to this call alone.
    unsafe { nixu_node_fault_text(fault, out.as_mut_ptr(), out.len(), &mut needed) };
    needed
}

pub fn crash_line(process: u8, clock: u64, out: &mut [u8]) -> Shown {
    let mut needed = 0;
    // SAFETY: the slice is as long as it says; its bytes and the number are lent to this call alone.
    let status = unsafe { nixu_crash_line(process, clock, out.as_mut_ptr(), out.len(), &mut needed) };
    Shown { status, needed }
}
