//! Vjolthar for Rust, edition 2021: the functions and numbers of vjolthar.h, which says what each promises. A program takes this file in as a module and
//! links with `-l static=vjolthar`.
#![allow(dead_code)] // a program uses what it needs

pub const TEXT: usize = 8192;
pub const COLUMNS: usize = 16;
pub const FORBIDDEN: usize = 32;
pub const MARKS: usize = 512;
pub const NAME_BYTES: usize = 12;
pub const NAMES: usize = 192;
pub const NODES: usize = 8445;
pub const PATHS: usize = 32_768;
pub const EXTRACTS: usize = 8;
pub const PAGE: usize = 296;

pub const AND: u16 = 16;
pub const OR: u16 = 17;
pub const END: u16 = 18;

pub const RIGHT: u16 = 0;
pub const IMPROPER: u16 = 1;
pub const FORBIDS: u16 = 2;
pub const SHARES: u16 = 3;
pub const UNMET: u16 = 4;

extern "C" {
    pub fn vjolthar_read(
        text: *const u8,
        text_count: usize,
        forbidden: *mut u16,
        forbidden_count: usize,
        marks: *mut u16,
        marks_count: usize,
        names: *mut u8,
        names_count: usize,
        place: *mut usize,
        columns: *mut usize,
        sets: *mut usize,
        needs: *mut usize,
        marked: *mut usize,
    ) -> u16;
    pub fn vjolthar_diagram(
        columns: usize,
        forbidden: *const u16,
        forbidden_count: usize,
        marks: *const u16,
        marks_count: usize,
        chosen: usize,
        column: *mut u16,
        column_count: usize,
        low: *mut u16,
        low_count: usize,
        high: *mut u16,
        high_count: usize,
        root: *mut u16,
        count: *mut u16,
    ) -> u16;
    pub fn vjolthar_one_paths(
        columns: usize,
        forbidden: *const u16,
        forbidden_count: usize,
        marks: *const u16,
        marks_count: usize,
        chosen: usize,
        column: *mut u16,
        column_count: usize,
        low: *mut u16,
        low_count: usize,
        high: *mut u16,
        high_count: usize,
        ones: *mut u16,
        ones_count: usize,
        zeros: *mut u16,
        zeros_count: usize,
        root: *mut u16,
        count: *mut u16,
        paths: *mut u16,
    ) -> u16;
    pub fn vjolthar_judge(
        columns: usize,
        forbidden: *const u16,
        forbidden_count: usize,
        marks: *const u16,
        marks_count: usize,
        split: *const u16,
        split_count: usize,
        fault: *mut u16,
        first: *mut usize,
        second: *mut usize,
    ) -> u16;
    pub fn vjolthar_plan(
        columns: usize,
        forbidden: *const u16,
        forbidden_count: usize,
        marks: *const u16,
        marks_count: usize,
        extracts: *mut u16,
        extracts_count: usize,
        count: *mut u16,
    ) -> u16;
    pub fn vjolthar_report(
        text: *const u8,
        text_count: usize,
        page: *mut u8,
        page_count: usize,
        place: *mut usize,
        length: *mut usize,
    ) -> u16;
}
