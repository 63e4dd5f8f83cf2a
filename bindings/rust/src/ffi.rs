//! The C functions, as `bindings/c/gff3_lines.h` has them.
//!
//! Each takes any numbers. What a call owes: each pointer is that of a slice, its length behind it, and an output buffer or a hold
//! overlaps no text.

use super::Bounds;

#[repr(C)]
pub struct Line {
    pub done: u64,
    pub start: usize,
    pub end: usize,
    pub next: usize,
}

#[repr(C)]
pub struct CommentText {
    pub is: u64,
    pub start: usize,
    pub end: usize,
}

#[repr(C)]
pub struct DirectiveText {
    pub is: u64,
    pub key_start: usize,
    pub key_end: usize,
    pub has_value: u64,
    pub value_start: usize,
    pub value_end: usize,
}

#[repr(C)]
#[derive(Clone, Copy, Debug, Default, PartialEq, Eq)]
pub struct State {
    pub held: usize,
    pub tail: u64,
}

#[repr(C)]
pub struct Part {
    pub refused: u64,
    pub has_line: u64,
    pub length: usize,
    pub taken: usize,
    pub state: State,
}

#[repr(C)]
pub struct Indexed {
    pub refused: u64,
    pub bounds: Bounds,
}

#[repr(C)]
pub struct RecordFields {
    pub refused: u64,
    pub bounds: Bounds,
    pub start: u64,
    pub end: u64,
    pub score_missing: u64,
    pub score_start: usize,
    pub score_end: usize,
    pub strand: u32,
    pub phase: u32,
}

#[repr(C)]
pub struct Place {
    pub refused: u64,
    pub start: usize,
    pub end: usize,
}

#[repr(C)]
pub struct Number {
    pub refused: u64,
    pub value: u64,
}

#[repr(C)]
pub struct ScoreText {
    pub refused: u64,
    pub missing: u64,
    pub start: usize,
    pub end: usize,
}

#[repr(C)]
pub struct Written {
    pub refused: u64,
    pub length: usize,
}

#[repr(C)]
pub struct Field {
    pub refused: u64,
    pub done: u64,
    pub tag_start: usize,
    pub tag_end: usize,
    pub value_start: usize,
    pub value_end: usize,
    pub next: usize,
}

#[repr(C)]
pub struct Value {
    pub done: u64,
    pub start: usize,
    pub end: usize,
    pub next: usize,
    pub out: u64,
}

#[repr(C)]
pub struct Found {
    pub refused: u64,
    pub found: u64,
    pub start: usize,
    pub end: usize,
}

#[repr(C)]
pub struct VersionValue {
    pub refused: u64,
    pub parts: u64,
    pub major: u64,
    pub minor: u64,
    pub patch: u64,
}

#[repr(C)]
pub struct RegionValue {
    pub refused: u64,
    pub name_start: usize,
    pub name_end: usize,
    pub start: u64,
    pub end: u64,
}

#[repr(C)]
pub struct BuildValue {
    pub refused: u64,
    pub source_start: usize,
    pub source_end: usize,
    pub name_start: usize,
    pub name_end: usize,
}

#[repr(C)]
#[derive(Default)]
pub struct Unfolded {
    pub refused: u64,
    pub length: usize,
    pub start: u64,
    pub end: u64,
    pub strand: u32,
    pub phase: u32,
}

#[repr(C)]
#[derive(Clone, Copy, Default)]
pub struct DirectiveValue {
    pub kind: u32,
    pub major: u32,
    pub has_minor: u32,
    pub minor: u32,
    pub has_patch: u32,
    pub patch: u32,
    pub start: u64,
    pub end: u64,
}

#[repr(C)]
pub struct Morning {
    pub refused: u64,
    pub records: u64,
    pub directives: u64,
    pub comments: u64,
    pub reversed: u64,
    pub sum: u64,
    pub refused_too_long: u64,
    pub refused_columns: u64,
    pub refused_position: u64,
    pub refused_score: u64,
    pub refused_strand: u64,
    pub refused_phase: u64,
    pub refused_attribute: u64,
    pub lengths: [u64; 64],
}

extern "C" {
    pub fn gff3_next_line(text: *const u8, text_len: usize, at: usize) -> Line;
    pub fn gff3_kind(line: *const u8, line_len: usize) -> u32;
    pub fn gff3_comment(line: *const u8, line_len: usize) -> CommentText;
    pub fn gff3_directive(line: *const u8, line_len: usize) -> DirectiveText;
    pub fn gff3_take_part(state: State, hold: *mut u8, hold_len: usize, part: *const u8, part_len: usize) -> Part;
    pub fn gff3_end_parts(state: State, hold: *mut u8, hold_len: usize) -> Part;
    pub fn gff3_index(line: *const u8, line_len: usize) -> Indexed;
    pub fn gff3_record(line: *const u8, line_len: usize) -> RecordFields;
    pub fn gff3_column(line: *const u8, line_len: usize, bounds: Bounds, column: u32) -> Place;
    pub fn gff3_start(line: *const u8, line_len: usize, bounds: Bounds) -> Number;
    pub fn gff3_end(line: *const u8, line_len: usize, bounds: Bounds) -> Number;
    pub fn gff3_strand(line: *const u8, line_len: usize, bounds: Bounds) -> Number;
    pub fn gff3_phase(line: *const u8, line_len: usize, bounds: Bounds) -> Number;
    pub fn gff3_score(line: *const u8, line_len: usize, bounds: Bounds) -> ScoreText;
    pub fn gff3_text(
        line: *const u8,
        line_len: usize,
        bounds: Bounds,
        column: u32,
        out: *mut u8,
        out_len: usize,
    ) -> Written;
    pub fn gff3_next_field(column: *const u8, column_len: usize, at: usize) -> Field;
    pub fn gff3_next_value(value: *const u8, value_len: usize, at: usize, out: u64) -> Value;
    pub fn gff3_find_tag(column: *const u8, column_len: usize, tag: *const u8, tag_len: usize) -> Found;
    pub fn gff3_no_attributes(column: *const u8, column_len: usize) -> u32;
    pub fn gff3_version(text: *const u8, text_len: usize) -> VersionValue;
    pub fn gff3_region(text: *const u8, text_len: usize) -> RegionValue;
    pub fn gff3_build(text: *const u8, text_len: usize) -> BuildValue;
    pub fn gff3_decode(text: *const u8, text_len: usize, out: *mut u8, out_len: usize) -> Written;
    pub fn gff3_encode(set: u32, text: *const u8, text_len: usize, out: *mut u8, out_len: usize) -> Written;
    pub fn gff3_position(text: *const u8, text_len: usize) -> Number;
    pub fn gff3_judge(line: *const u8, line_len: usize) -> Unfolded;
    pub fn gff3_unfold(line: *const u8, line_len: usize, sheet: *mut u8, sheet_len: usize) -> Unfolded;
    pub fn gff3_write_record(
        sheet: *const u8,
        sheet_len: usize,
        start: u64,
        end: u64,
        strand: u32,
        phase: u32,
        out: *mut u8,
        out_len: usize,
    ) -> Written;
    pub fn gff3_write_directive(
        key: *const u8,
        key_len: usize,
        value: DirectiveValue,
        first: *const u8,
        first_len: usize,
        second: *const u8,
        second_len: usize,
        out: *mut u8,
        out_len: usize,
    ) -> Written;
    pub fn gff3_write_comment(text: *const u8, text_len: usize, out: *mut u8, out_len: usize) -> Written;
    pub fn gff3_report(text: *const u8, text_len: usize) -> Morning;
}
