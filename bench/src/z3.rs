//! Z3's optimiser as a peer of the planner, called in this process through its C interface.
//!
//! The encoding is that of `clingo.rs`: a boolean for "this column lies in this extract", one for
//! "this extract serves this need", at most one extract for a column, extracts numbered by the
//! first need that they serve. The two aims are soft assertions, taken one after the other (Z3's
//! lexicographic order, which is its default). The text is in SMT-LIB; reading it is counted, the
//! making of Z3's context is not.

use std::ffi::{CStr, CString};
use std::fmt::Write as _;
use std::os::raw::{c_char, c_int, c_uint, c_void};
use std::ptr;

use crate::clock;
use crate::job::{Answer, Formula, Job};
use crate::peer::Run;

type Object = *mut c_void;

#[link(name = "z3")]
extern "C" {
    fn Z3_mk_config() -> Object;
    fn Z3_set_param_value(config: Object, name: *const c_char, value: *const c_char);
    fn Z3_mk_context(config: Object) -> Object;
    fn Z3_del_config(config: Object);
    fn Z3_del_context(context: Object);
    fn Z3_mk_optimize(context: Object) -> Object;
    fn Z3_optimize_inc_ref(context: Object, optimizer: Object);
    fn Z3_optimize_dec_ref(context: Object, optimizer: Object);
    fn Z3_optimize_from_string(context: Object, optimizer: Object, text: *const c_char);
    fn Z3_optimize_check(
        context: Object,
        optimizer: Object,
        count: c_uint,
        assumptions: *const Object,
    ) -> c_int;
    fn Z3_optimize_get_upper(context: Object, optimizer: Object, objective: c_uint) -> Object;
    fn Z3_ast_to_string(context: Object, ast: Object) -> *const c_char;
}

pub fn program(job: &Job) -> String {
    let mut text = String::new();
    let needs = job.needs();
    let mut line = |words: String| {
        text += &words;
        text += "\n";
    };
    for extract in 0..needs.len() {
        for column in 0..job.numbers.columns {
            line(format!("(declare-const in_{column}_{extract} Bool)"));
        }
        line(format!("(declare-const used_{extract} Bool)"));
    }
    for column in 0..job.numbers.columns {
        let each: Vec<String> = (0..needs.len())
            .map(|extract| format!("in_{column}_{extract}"))
            .collect();
        line(format!("(assert ((_ at-most 1) {}))", each.join(" ")));
    }
    for extract in 0..needs.len() {
        for set in job.forbidden() {
            let outside: Vec<String> = set
                .iter()
                .map(|column| format!("(not in_{column}_{extract})"))
                .collect();
            line(format!("(assert (or false {}))", outside.join(" ")));
        }
    }
    for (need, formula) in needs.iter().enumerate() {
        serving(&mut text, need, formula);
    }
    aims(&mut text, job.numbers.columns, needs.len());
    text
}

/// Each need is served by one extract, and a new extract is numbered next after those that earlier
/// needs have.
fn serving(text: &mut String, need: usize, formula: &Formula) {
    let each: Vec<String> = (0..=need)
        .map(|extract| format!("serves_{need}_{extract}"))
        .collect();
    for (extract, serves) in each.iter().enumerate() {
        writeln!(text, "(declare-const {serves} Bool)").expect("a string grows");
        writeln!(text, "(assert (=> {serves} {}))", spelled(formula, extract))
            .expect("a string grows");
        writeln!(text, "(assert (=> {serves} used_{extract}))").expect("a string grows");
        if extract > 0 {
            let earlier: Vec<String> = (extract - 1..need)
                .map(|other| format!("serves_{other}_{}", extract - 1))
                .collect();
            writeln!(
                text,
                "(assert (=> {serves} (or false {})))",
                earlier.join(" ")
            )
            .expect("a string grows");
        }
    }
    writeln!(text, "(assert (or false {}))", each.join(" ")).expect("a string grows");
}

fn spelled(formula: &Formula, extract: usize) -> String {
    let all = |parts: &[Formula]| {
        parts
            .iter()
            .map(|part| spelled(part, extract))
            .collect::<Vec<_>>()
            .join(" ")
    };
    match formula {
        Formula::Column(column) => format!("in_{column}_{extract}"),
        Formula::Both(parts) => format!("(and {})", all(parts)),
        Formula::Either(parts) => format!("(or {})", all(parts)),
    }
}

/// Fewest extracts, then fewest columns.
fn aims(text: &mut String, columns: usize, extracts: usize) {
    for extract in 0..extracts {
        writeln!(
            text,
            "(assert-soft (not used_{extract}) :weight 1 :id extracts)"
        )
        .expect("a string grows");
    }
    for column in 0..columns {
        for extract in 0..extracts {
            writeln!(
                text,
                "(assert-soft (not in_{column}_{extract}) :weight 1 :id total)"
            )
            .expect("a string grows");
        }
    }
}

pub fn plan(program: &str, limit: u32) -> Run {
    let text = CString::new(program).expect("no byte of the program is 0");
    let timeout = CString::new("timeout").expect("letters");
    let milliseconds = CString::new((limit * 1000).to_string()).expect("digits");
    // SAFETY: every object is used with the context that made it and before that is deleted, and
    // the texts live through the calls.
    unsafe {
        let config = Z3_mk_config();
        Z3_set_param_value(config, timeout.as_ptr(), milliseconds.as_ptr());
        let context = Z3_mk_context(config);
        Z3_del_config(config);
        let start = clock::now();
        let optimizer = Z3_mk_optimize(context);
        Z3_optimize_inc_ref(context, optimizer);
        Z3_optimize_from_string(context, optimizer, text.as_ptr());
        let verdict = Z3_optimize_check(context, optimizer, 0, ptr::null());
        let seconds = clock::now() - start;
        let answer = match verdict {
            1 => Some(split(context, optimizer)),
            -1 => Some(Answer::Impossible),
            _ => None,
        };
        Z3_optimize_dec_ref(context, optimizer);
        Z3_del_context(context);
        Run { seconds, answer }
    }
}

/// The optimum of both aims.
///
/// # Safety
/// The optimizer has just found an optimum in this context.
unsafe fn split(context: Object, optimizer: Object) -> Answer {
    let number = |objective| {
        let written = Z3_ast_to_string(
            context,
            Z3_optimize_get_upper(context, optimizer, objective),
        );
        let word = CStr::from_ptr(written)
            .to_str()
            .expect("a number is plain text");
        word.parse::<f64>().expect("an optimum is a number") as usize
    };
    Answer::Split {
        extracts: number(0),
        columns: number(1),
    }
}
