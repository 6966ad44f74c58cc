//! The calls of the archive, as include/schotterei.h has them: the only unsafe code. Each table is lent as a pointer and
//! a length, and the archive keeps none of them. The calls ask nothing of what the tables hold.

use crate::cells::{FORM_BYTES, FORM_CELLS};
use crate::tables::{Change, WAITS};

/// What a call answers: 0, or the number of its refusal with its place; of a run its ending and its count.
#[repr(C)]
#[derive(Clone, Copy, Debug, PartialEq, Eq)]
pub struct Outcome {
    pub number: u32,
    pub ending: u32,
    pub count: u32,
    pub place: u64,
}

/// What reading a row answers: 0, or the number of its refusal; which case it is, and its numbers.
#[repr(C)]
#[derive(Clone, Copy, Debug, PartialEq, Eq)]
pub struct Shown {
    pub number: u32,
    pub shown: u32,
    pub first: u32,
    pub second: u32,
}

/// The endings of a run; any other is an exception.
pub const QUIET: u32 = 1;
pub const BOUNDED: u32 = 2;

extern "C" {
    fn schotterei_load(
        text: *const u8,
        text_length: usize,
        rows: *mut u32,
        rows_length: usize,
        parts: *mut u32,
        parts_length: usize,
        plan: *mut u32,
        plan_length: usize,
        waits: *mut [u8; WAITS],
        texts: *mut u8,
        texts_length: usize,
        state: *mut u32,
        state_length: usize,
    ) -> Outcome;

    fn schotterei_run(
        parts: *const u32,
        parts_length: usize,
        texts: *mut u8,
        texts_length: usize,
        plan: *const u32,
        plan_length: usize,
        waits: *const u8,
        waits_length: usize,
        state: *mut u32,
        state_length: usize,
        changes: *mut Change,
        changes_length: usize,
        bound: u64,
    ) -> Outcome;

    fn schotterei_set_time(state: *mut u32, state_length: usize, time: u64) -> Outcome;

    fn schotterei_confirm(
        plan: *const u32,
        plan_length: usize,
        state: *mut u32,
        state_length: usize,
        task: u64,
    ) -> Outcome;

    fn schotterei_trigger(
        texts: *const u8,
        texts_length: usize,
        plan: *const u32,
        plan_length: usize,
        state: *mut u32,
        state_length: usize,
        name: *const u8,
        name_length: usize,
    ) -> Outcome;

    fn schotterei_add(
        texts: *mut u8,
        texts_length: usize,
        plan: *const u32,
        plan_length: usize,
        state: *mut u32,
        state_length: usize,
        item: u64,
        tags: *const u32,
        tags_length: usize,
        numbers: *const i64,
        numbers_length: usize,
        bytes: *const u8,
        bytes_length: usize,
    ) -> Outcome;

    fn schotterei_read(
        texts: *const u8,
        texts_length: usize,
        plan: *const u32,
        plan_length: usize,
        waits: *const u8,
        waits_length: usize,
        state: *const u32,
        state_length: usize,
        kind: u64,
        number: u64,
        property: u64,
        cells: *mut [u32; FORM_CELLS],
        bytes: *mut [u8; FORM_BYTES],
    ) -> Shown;
}

pub fn load(
    text: &[u8],
    rows: &mut [u32],
    parts: &mut [u32],
    plan: &mut [u32],
    waits: &mut [u8; WAITS],
    texts: &mut [u8],
    state: &mut [u32],
) -> Outcome {
    // Sound here and below: every pointer is that of a slice that is lent for the call, with its own length.
    unsafe {
        schotterei_load(
            text.as_ptr(),
            text.len(),
            rows.as_mut_ptr(),
            rows.len(),
            parts.as_mut_ptr(),
            parts.len(),
            plan.as_mut_ptr(),
            plan.len(),
            waits,
            texts.as_mut_ptr(),
            texts.len(),
            state.as_mut_ptr(),
            state.len(),
        )
    }
}

pub fn run(
    parts: &[u32],
    texts: &mut [u8],
    plan: &[u32],
    waits: &[u8],
    state: &mut [u32],
    changes: &mut [Change],
    bound: u64,
) -> Outcome {
    unsafe {
        schotterei_run(
            parts.as_ptr(),
            parts.len(),
            texts.as_mut_ptr(),
            texts.len(),
            plan.as_ptr(),
            plan.len(),
            waits.as_ptr(),
            waits.len(),
            state.as_mut_ptr(),
            state.len(),
            changes.as_mut_ptr(),
            changes.len(),
            bound,
        )
    }
}

pub fn set_time(state: &mut [u32], time: u64) -> Outcome {
    unsafe { schotterei_set_time(state.as_mut_ptr(), state.len(), time) }
}

pub fn confirm(plan: &[u32], state: &mut [u32], task: u64) -> Outcome {
    unsafe { schotterei_confirm(plan.as_ptr(), plan.len(), state.as_mut_ptr(), state.len(), task) }
}

pub fn trigger(texts: &[u8], plan: &[u32], state: &mut [u32], name: &[u8]) -> Outcome {
    unsafe {
        schotterei_trigger(
            texts.as_ptr(),
            texts.len(),
            plan.as_ptr(),
            plan.len(),
            state.as_mut_ptr(),
            state.len(),
            name.as_ptr(),
            name.len(),
        )
    }
}

pub fn add(
    texts: &mut [u8],
    plan: &[u32],
    state: &mut [u32],
    item: u64,
    tags: &[u32],
    numbers: &[i64],
    bytes: &[u8],
) -> Outcome {
    unsafe {
        schotterei_add(
            texts.as_mut_ptr(),
            texts.len(),
            plan.as_ptr(),
            plan.len(),
            state.as_mut_ptr(),
            state.len(),
            item,
            tags.as_ptr(),
            tags.len(),
            numbers.as_ptr(),
            numbers.len(),
            bytes.as_ptr(),
            bytes.len(),
        )
    }
}

#[allow(clippy::too_many_arguments)]
pub fn read(
    texts: &[u8],
    plan: &[u32],
    waits: &[u8],
    state: &[u32],
    kind: u64,
    number: u64,
    property: u64,
    cells: &mut [u32; FORM_CELLS],
    bytes: &mut [u8; FORM_BYTES],
) -> Shown {
    unsafe {
        schotterei_read(
            texts.as_ptr(),
            texts.len(),
            plan.as_ptr(),
            plan.len(),
            waits.as_ptr(),
            waits.len(),
            state.as_ptr(),
            state.len(),
            kind,
            number,
            property,
            cells,
            bytes,
        )
    }
}
