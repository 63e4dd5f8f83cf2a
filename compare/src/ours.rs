//! The library's C functions, as bindings/c/gff3_lines.h declares them, behind functions on slices.
//!
//! They stand in its order and with its names; tools/declarations holds them to it, and to the crates that export them.

use std::{cell::Cell, ptr};

thread_local! {
    /// Whether a slice without bytes goes over as a null pointer: the header allows both forms.
    static EMPTY_IS_NULL: Cell<bool> = const { Cell::new(false) };
}

pub fn set_empty_is_null(null: bool) {
    EMPTY_IS_NULL.set(null);
}

macro_rules! structs {
    ($($name:ident { $($field:ident: $t:ty),* })*) => {$(
        #[repr(C)]
        #[derive(Clone, Copy, Debug, Default, Eq, PartialEq)]
        pub struct $name {
            $(pub $field: $t),*
        }
    )*};
}

structs! {
    Line { done: u64, start: usize, end: usize, next: usize }
    CommentText { is: u64, start: usize, end: usize }
    DirectiveText {
        is: u64,
        key_start: usize,
        key_end: usize,
        has_value: u64,
        value_start: usize,
        value_end: usize
    }
    State { held: usize, tail: u64 }
    Part { refused: u64, has_line: u64, length: usize, taken: usize, state: State }
    Bounds { ends: [usize; 8] }
    Indexed { refused: u64, bounds: Bounds }
    RecordFields {
        refused: u64,
        bounds: Bounds,
        start: u64,
        end: u64,
        score_missing: u64,
        score_start: usize,
        score_end: usize,
        strand: u32,
        phase: u32
    }
    Place { refused: u64, start: usize, end: usize }
    Number { refused: u64, value: u64 }
    ScoreText { refused: u64, missing: u64, start: usize, end: usize }
    Written { refused: u64, length: usize }
    Field {
        refused: u64,
        done: u64,
        tag_start: usize,
        tag_end: usize,
        value_start: usize,
        value_end: usize,
        next: usize
    }
    Value { done: u64, start: usize, end: usize, next: usize, out: u64 }
    Found { refused: u64, found: u64, start: usize, end: usize }
    VersionValue { refused: u64, parts: u64, major: u64, minor: u64, patch: u64 }
    RegionValue { refused: u64, name_start: usize, name_end: usize, start: u64, end: u64 }
    BuildValue { refused: u64, source_start: usize, source_end: usize, name_start: usize, name_end: usize }
    Unfolded { refused: u64, length: usize, start: u64, end: u64, strand: u32, phase: u32 }
    DirectiveValue {
        kind: u32,
        major: u32,
        has_minor: u32,
        minor: u32,
        has_patch: u32,
        patch: u32,
        start: u64,
        end: u64
    }
}

/// By itself, since an array of sixty-four has no default.
#[repr(C)]
#[derive(Clone, Copy, Debug, Eq, PartialEq)]
pub struct Morning {
    pub refused: u64,
    pub records: u64,
    pub directives: u64,
    pub comments: u64,
    pub reversed: u64,
    pub sum: u64,
    pub refused_too_long: u64,
    pub refused_columns: u64,
    pub refused_position: u64,
    pub refused_score: u64,
    pub refused_strand: u64,
    pub refused_phase: u64,
    pub refused_attribute: u64,
    pub lengths: [u64; 64],
}

unsafe extern "C" {
    fn gff3_next_line(text: *const u8, text_len: usize, at: usize) -> Line;
    fn gff3_kind(line: *const u8, line_len: usize) -> u32;
    fn gff3_comment(line: *const u8, line_len: usize) -> CommentText;
    fn gff3_directive(line: *const u8, line_len: usize) -> DirectiveText;
    fn gff3_take_part(state: State, hold: *mut u8, hold_len: usize, part: *const u8, part_len: usize) -> Part;
    fn gff3_end_parts(state: State, hold: *mut u8, hold_len: usize) -> Part;
    fn gff3_index(line: *const u8, line_len: usize) -> Indexed;
    fn gff3_record(line: *const u8, line_len: usize) -> RecordFields;
    fn gff3_column(line: *const u8, line_len: usize, bounds: Bounds, column: u32) -> Place;
    fn gff3_start(line: *const u8, line_len: usize, bounds: Bounds) -> Number;
    fn gff3_end(line: *const u8, line_len: usize, bounds: Bounds) -> Number;
    fn gff3_strand(line: *const u8, line_len: usize, bounds: Bounds) -> Number;
    fn gff3_phase(line: *const u8, line_len: usize, bounds: Bounds) -> Number;
    fn gff3_score(line: *const u8, line_len: usize, bounds: Bounds) -> ScoreText;
    fn gff3_text(
        line: *const u8,
        line_len: usize,
        bounds: Bounds,
        column: u32,
        out: *mut u8,
        out_len: usize,
    ) -> Written;
    fn gff3_next_field(column: *const u8, column_len: usize, at: usize) -> Field;
    fn gff3_next_value(value: *const u8, value_len: usize, at: usize, out: u64) -> Value;
    fn gff3_find_tag(column: *const u8, column_len: usize, tag: *const u8, tag_len: usize) -> Found;
    fn gff3_no_attributes(column: *const u8, column_len: usize) -> u32;
    fn gff3_version(text: *const u8, text_len: usize) -> VersionValue;
    fn gff3_region(text: *const u8, text_len: usize) -> RegionValue;
    fn gff3_build(text: *const u8, text_len: usize) -> BuildValue;
    fn gff3_decode(text: *const u8, text_len: usize, out: *mut u8, out_len: usize) -> Written;
    fn gff3_encode(set: u32, text: *const u8, text_len: usize, out: *mut u8, out_len: usize) -> Written;
    fn gff3_position(text: *const u8, text_len: usize) -> Number;
    fn gff3_judge(line: *const u8, line_len: usize) -> Unfolded;
    fn gff3_unfold(line: *const u8, line_len: usize, sheet: *mut u8, sheet_len: usize) -> Unfolded;
    fn gff3_write_record(
        sheet: *const u8,
        sheet_len: usize,
        start: u64,
        end: u64,
        strand: u32,
        phase: u32,
        out: *mut u8,
        out_len: usize,
    ) -> Written;
    fn gff3_write_directive(
        key: *const u8,
        key_len: usize,
        value: DirectiveValue,
        first: *const u8,
        first_len: usize,
        second: *const u8,
        second_len: usize,
        out: *mut u8,
        out_len: usize,
    ) -> Written;
    fn gff3_write_comment(text: *const u8, text_len: usize, out: *mut u8, out_len: usize) -> Written;
    fn gff3_report(text: *const u8, text_len: usize) -> Morning;
}

/// Makes each function safe: the header asks for nothing but that a pointer has its length of bytes.
macro_rules! on_texts {
    ($($name:ident = $c:ident($text:ident $(, $word:ident: $t:ty)*) -> $answer:ty;)*) => {$(
        #[inline]
        pub fn $name($text: &[u8] $(, $word: $t)*) -> $answer {
            unsafe { $c(pointer($text), $text.len() $(, $word)*) }
        }
    )*};
}

on_texts! {
    next_line = gff3_next_line(text, at: usize) -> Line;
    kind = gff3_kind(line) -> u32;
    comment = gff3_comment(line) -> CommentText;
    directive = gff3_directive(line) -> DirectiveText;
    index = gff3_index(line) -> Indexed;
    record = gff3_record(line) -> RecordFields;
    column = gff3_column(line, bounds: Bounds, column: u32) -> Place;
    start = gff3_start(line, bounds: Bounds) -> Number;
    end = gff3_end(line, bounds: Bounds) -> Number;
    strand = gff3_strand(line, bounds: Bounds) -> Number;
    phase = gff3_phase(line, bounds: Bounds) -> Number;
    score = gff3_score(line, bounds: Bounds) -> ScoreText;
    next_field = gff3_next_field(column, at: usize) -> Field;
    next_value = gff3_next_value(value, at: usize, out: u64) -> Value;
    no_attributes = gff3_no_attributes(column) -> u32;
    version = gff3_version(text) -> VersionValue;
    region = gff3_region(text) -> RegionValue;
    build = gff3_build(text) -> BuildValue;
    position = gff3_position(text) -> Number;
    judge = gff3_judge(line) -> Unfolded;
    report = gff3_report(text) -> Morning;
}

#[inline]
pub fn take_part(state: State, hold: &mut [u8], part: &[u8]) -> Part {
    unsafe { gff3_take_part(state, pointer_mut(hold), hold.len(), pointer(part), part.len()) }
}

pub fn end_parts(state: State, hold: &mut [u8]) -> Part {
    unsafe { gff3_end_parts(state, pointer_mut(hold), hold.len()) }
}

pub fn text(line: &[u8], bounds: Bounds, column: u32, out: &mut [u8]) -> Written {
    unsafe { gff3_text(pointer(line), line.len(), bounds, column, pointer_mut(out), out.len()) }
}

pub fn find_tag(column: &[u8], tag: &[u8]) -> Found {
    unsafe { gff3_find_tag(pointer(column), column.len(), pointer(tag), tag.len()) }
}

pub fn decode(text: &[u8], out: &mut [u8]) -> Written {
    unsafe { gff3_decode(pointer(text), text.len(), pointer_mut(out), out.len()) }
}

pub fn encode(set: u32, text: &[u8], out: &mut [u8]) -> Written {
    unsafe { gff3_encode(set, pointer(text), text.len(), pointer_mut(out), out.len()) }
}

pub fn unfold(line: &[u8], sheet: &mut [u8]) -> Unfolded {
    unsafe { gff3_unfold(pointer(line), line.len(), pointer_mut(sheet), sheet.len()) }
}

pub fn write_record(sheet: &[u8], start: u64, end: u64, strand: u32, phase: u32, out: &mut [u8]) -> Written {
    unsafe {
        gff3_write_record(
            pointer(sheet),
            sheet.len(),
            start,
            end,
            strand,
            phase,
            pointer_mut(out),
            out.len(),
        )
    }
}

pub fn write_comment(text: &[u8], out: &mut [u8]) -> Written {
    unsafe { gff3_write_comment(pointer(text), text.len(), pointer_mut(out), out.len()) }
}

pub fn write_directive(key: &[u8], value: DirectiveValue, first: &[u8], second: &[u8], out: &mut [u8]) -> Written {
    unsafe {
        gff3_write_directive(
            pointer(key),
            key.len(),
            value,
            pointer(first),
            first.len(),
            pointer(second),
            second.len(),
            pointer_mut(out),
            out.len(),
        )
    }
}

#[inline]
fn pointer(text: &[u8]) -> *const u8 {
    if text.is_empty() && EMPTY_IS_NULL.get() {
        ptr::null()
    } else {
        text.as_ptr()
    }
}

#[inline]
fn pointer_mut(out: &mut [u8]) -> *mut u8 {
    if out.is_empty() && EMPTY_IS_NULL.get() {
        ptr::null_mut()
    } else {
        out.as_mut_ptr()
    }
}
