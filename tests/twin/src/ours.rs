//! The library under test, called through its C interface.
//!
//! The only `unsafe` of this folder is here: every wrapper hands over slices by pointer and length, as a
//! C program would. The numbers to be answered start with a value that no answer has, so that a
//! number which is never written shows.

#[path = "../../../include/vjolthar.rs"]
pub mod vjolthar;

use std::sync::atomic::{AtomicBool, Ordering};
use twin::diagram::{DiagramAnswer, NodeSlices, PathsAnswer};
use twin::jobs::Numbers;
use twin::judge::JudgeAnswer;
use twin::lent::ReadAnswer;
use twin::page::ReportAnswer;
use twin::planner::PlanAnswer;
use vjolthar::*;

const UNWRITTEN: u16 = 0xdead;
const UNWRITTEN_SIZE: usize = 0xdead_dead;

/// An empty slice goes over by turns as the null pointer and as a dangling one: both are allowed.
static NULL_TURN: AtomicBool = AtomicBool::new(false);

/// Says whether the next empty slice has the null pointer, for an input has to be the same when it is
/// run alone.
pub fn set_null_turn(null: bool) {
    NULL_TURN.store(null, Ordering::Relaxed);
}

fn null_turn(count: usize) -> bool {
    count == 0 && NULL_TURN.fetch_xor(true, Ordering::Relaxed)
}

fn given<T>(slice: &[T]) -> *const T {
    if null_turn(slice.len()) {
        std::ptr::null()
    } else {
        slice.as_ptr()
    }
}

fn lent<T>(slice: &mut [T]) -> *mut T {
    if null_turn(slice.len()) {
        std::ptr::null_mut()
    } else {
        slice.as_mut_ptr()
    }
}

pub fn read(text: &[u8], forbidden: &mut [u16], marks: &mut [u16], names: &mut [u8]) -> ReadAnswer {
    let [mut place, mut columns, mut sets, mut needs, mut marked] = [UNWRITTEN_SIZE; 5];
    let refusal = unsafe {
        vjolthar_read(
            given(text),
            text.len(),
            lent(forbidden),
            forbidden.len(),
            lent(marks),
            marks.len(),
            lent(names),
            names.len(),
            &mut place,
            &mut columns,
            &mut sets,
            &mut needs,
            &mut marked,
        )
    };
    ReadAnswer {
        refusal,
        place,
        columns,
        sets,
        needs,
        marked,
    }
}

pub fn diagram(numbers: Numbers, chosen: usize, nodes: &mut NodeSlices) -> DiagramAnswer {
    let [mut root, mut count] = [UNWRITTEN; 2];
    let refusal = unsafe {
        vjolthar_diagram(
            numbers.columns,
            given(numbers.forbidden),
            numbers.forbidden.len(),
            given(numbers.marks),
            numbers.marks.len(),
            chosen,
            lent(nodes.column),
            nodes.column.len(),
            lent(nodes.low),
            nodes.low.len(),
            lent(nodes.high),
            nodes.high.len(),
            &mut root,
            &mut count,
        )
    };
    DiagramAnswer {
        refusal,
        root,
        count,
    }
}

pub fn one_paths(
    numbers: Numbers,
    chosen: usize,
    nodes: &mut NodeSlices,
    ones: &mut [u16],
    zeros: &mut [u16],
) -> PathsAnswer {
    let [mut root, mut count, mut paths] = [UNWRITTEN; 3];
    let refusal = unsafe {
        vjolthar_one_paths(
            numbers.columns,
            given(numbers.forbidden),
            numbers.forbidden.len(),
            given(numbers.marks),
            numbers.marks.len(),
            chosen,
            lent(nodes.column),
            nodes.column.len(),
            lent(nodes.low),
            nodes.low.len(),
            lent(nodes.high),
            nodes.high.len(),
            lent(ones),
            ones.len(),
            lent(zeros),
            zeros.len(),
            &mut root,
            &mut count,
            &mut paths,
        )
    };
    PathsAnswer {
        refusal,
        root,
        count,
        paths,
    }
}

pub fn judge(numbers: Numbers, split: &[u16]) -> JudgeAnswer {
    let mut fault = UNWRITTEN;
    let [mut first, mut second] = [UNWRITTEN_SIZE; 2];
    let refusal = unsafe {
        vjolthar_judge(
            numbers.columns,
            given(numbers.forbidden),
            numbers.forbidden.len(),
            given(numbers.marks),
            numbers.marks.len(),
            given(split),
            split.len(),
            &mut fault,
            &mut first,
            &mut second,
        )
    };
    JudgeAnswer {
        refusal,
        fault,
        first,
        second,
    }
}

pub fn plan(numbers: Numbers, extracts: &mut [u16]) -> PlanAnswer {
    let mut count = UNWRITTEN;
    let refusal = unsafe {
        vjolthar_plan(
            numbers.columns,
            given(numbers.forbidden),
            numbers.forbidden.len(),
            given(numbers.marks),
            numbers.marks.len(),
            lent(extracts),
            extracts.len(),
            &mut count,
        )
    };
    PlanAnswer { refusal, count }
}

pub fn report(text: &[u8], page: &mut [u8]) -> ReportAnswer {
    let [mut place, mut length] = [UNWRITTEN_SIZE; 2];
    let refusal = unsafe {
        vjolthar_report(
            given(text),
            text.len(),
            lent(page),
            page.len(),
            &mut place,
            &mut length,
        )
    };
    ReportAnswer {
        refusal,
        place,
        length,
    }
}
