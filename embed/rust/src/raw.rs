//! What crosses to the proved code, as `arb.h` and `arb_machine.h` have it.
use crate::{Entry, State, Table, Ticket};
use std::mem::size_of;

#[repr(C)]
pub struct Done {
    pub table: Table,
    pub refusal: u32,
}

#[repr(C)]
pub struct Named {
    pub table: Table,
    pub ticket: Ticket,
    pub refusal: u32,
}

#[repr(C)]
pub struct Executed {
    pub table: Table,
    pub from: Ticket,
    pub refusal: u32,
    pub value: u32,
    pub distance: u32,
    pub squashed: u32,
}

#[repr(C)]
pub struct Numbers {
    pub position: usize,
    pub commits: usize,
    pub refusal: u32,
    pub squashed: u32,
    pub index: u32,
    pub code: u32,
    pub target: u32,
    pub value: u32,
    pub distance: u32,
}

#[repr(C)]
pub struct Answer {
    pub machine: State,
    pub numbers: Numbers,
}

const _: () = assert!(size_of::<Ticket>() == 16 && size_of::<Table>() == 1016);
const _: () =
    assert!(size_of::<Done>() == 1024 && size_of::<Named>() == 1040 && size_of::<Executed>() == 1048);
const _: () = assert!(size_of::<Entry>() == 24 && size_of::<State>() == 1440 && size_of::<Answer>() == 1488);

extern "C" {
    pub fn arb_v_open(
        banks: usize,
        rows: usize,
        stages: usize,
        words: usize,
        memory: *const u32,
        length: usize,
    ) -> Done;
    pub fn arb_v_issue(t: Table) -> Named;
    pub fn arb_v_load(t: Table, at: Ticket, address: u32, memory: *const u32, length: usize) -> Executed;
    pub fn arb_v_store(
        t: Table,
        at: Ticket,
        address: u32,
        value: u32,
        memory: *const u32,
        length: usize,
    ) -> Executed;
    pub fn arb_v_byte(
        t: Table,
        at: Ticket,
        byte: u32,
        value: u32,
        memory: *const u32,
        length: usize,
    ) -> Executed;
    pub fn arb_v_half(
        t: Table,
        at: Ticket,
        byte: u32,
        value: u32,
        memory: *const u32,
        length: usize,
    ) -> Executed;
    pub fn arb_v_other(t: Table, at: Ticket, memory: *const u32, length: usize) -> Executed;
    pub fn arb_v_squash(t: Table, at: Ticket) -> Done;
    pub fn arb_v_commit(t: Table, memory: *mut u32, length: usize) -> Named;

    pub fn arb_m_open(
        banks: usize,
        rows: usize,
        stages: usize,
        words: usize,
        program: *const u32,
        numbers: usize,
        memory: *const u32,
        length: usize,
    ) -> Answer;
    pub fn arb_m_issue(m: State, program: *const u32, numbers: usize) -> Answer;
    pub fn arb_m_execute(
        m: State,
        program: *const u32,
        numbers: usize,
        position: usize,
        memory: *const u32,
        length: usize,
    ) -> Answer;
    pub fn arb_m_squash(m: State, program: *const u32, numbers: usize, position: usize) -> Answer;
    pub fn arb_m_commit(
        m: State,
        program: *const u32,
        numbers: usize,
        memory: *mut u32,
        length: usize,
    ) -> Answer;
    pub fn arb_m_finish(
        m: State,
        program: *const u32,
        numbers: usize,
        limit: u32,
        memory: *mut u32,
        length: usize,
        list: *mut u32,
        places: usize,
    ) -> Answer;
}
