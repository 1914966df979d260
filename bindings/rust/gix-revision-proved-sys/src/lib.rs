//! The functions, structs, codes and kinds of sets of the C header `gix_revision.h`. It says what
//! each function does, and what its caller has to ensure. The results of `gix_graph_fault` have
//! names only there.
#![no_std]
#![allow(non_camel_case_types)]

use core::ffi::c_char;
use core::marker::{PhantomData, PhantomPinned};

pub const GIX_OK: i32 = 0;
pub const GIX_NONE: i32 = 1;
pub const GIX_OUT_OF_MEMORY: i32 = -1;
pub const GIX_ALREADY_THERE: i32 = -2;
pub const GIX_NO_COMMIT: i32 = -4;
pub const GIX_TOO_MANY: i32 = -5;
pub const GIX_NO_KIND: i32 = -6;
pub const GIX_NO_GRAPH: i32 = -7;
pub const GIX_NO_LEVELS: i32 = -8;
pub const GIX_ALTERED: i32 = -9;
pub const GIX_MISSHAPEN: i32 = -10;
pub const GIX_NO_HOW: i32 = -11;
pub const GIX_WANTS: i32 = -12;
pub const GIX_FAULT: i32 = 100;

pub const GIX_INCLUDE: u32 = 0;
pub const GIX_EXCLUDE: u32 = 1;
pub const GIX_RANGE: u32 = 2;
pub const GIX_MERGE: u32 = 3;
pub const GIX_ONLY_PARENTS: u32 = 4;
pub const GIX_WITHOUT_PARENTS: u32 = 5;

#[repr(C)]
#[derive(Clone, Copy, Debug, PartialEq, Eq)]
pub struct gix_id {
    pub bytes: [u8; 20],
}

#[repr(C)]
pub struct gix_history {
    private: [u8; 0],
    marker: PhantomData<(*mut u8, PhantomPinned)>,
}

#[repr(C)]
pub struct gix_names {
    private: [u8; 0],
    marker: PhantomData<(*mut u8, PhantomPinned)>,
}

#[repr(C)]
pub struct gix_ids {
    private: [u8; 0],
    marker: PhantomData<(*mut u8, PhantomPinned)>,
}

#[repr(C)]
#[derive(Clone, Copy, Debug)]
pub struct gix_name {
    pub id: gix_id,
    pub text: *const u8,
    pub text_len: usize,
}

#[repr(C)]
#[derive(Clone, Copy, Debug)]
pub struct gix_bytes {
    pub bytes: *const u8,
    pub bytes_len: usize,
}

#[repr(C)]
#[derive(Clone, Copy, Debug)]
pub struct gix_commit {
    pub time: i64,
    pub generation: u32,
    pub has_generation: bool,
    pub parents_len: usize,
}

#[repr(C)]
#[derive(Clone, Copy, Debug)]
pub struct gix_how {
    pub size: usize,
    pub max_candidates: usize,
    pub hex_len: usize,
    pub first_parent: bool,
    pub fallback_to_id: bool,
    pub long_form: bool,
    pub git_order: bool,
}

#[repr(C)]
#[derive(Clone, Copy, Debug)]
pub struct gix_span {
    pub kind: u32,
    pub first: gix_id,
    pub second: gix_id,
}

#[repr(C)]
#[derive(Clone, Copy, Debug)]
pub struct gix_fault {
    pub number: u8,
    pub start: usize,
    pub length: usize,
}

extern "C" {
    pub fn gix_version() -> u32;
    pub fn gix_id_read(out: *mut gix_id, hex: *const c_char, hex_len: usize) -> bool;
    pub fn gix_id_write(out: *mut c_char, id: *const gix_id);
    pub fn gix_history_new(seed: u64, out: *mut *mut gix_history) -> i32;
    pub fn gix_history_open(
        bytes: *const u8,
        bytes_len: usize,
        seed: u64,
        out: *mut *mut gix_history,
    ) -> i32;
    pub fn gix_history_open_chain(
        files: *const gix_bytes,
        files_len: usize,
        seed: u64,
        out: *mut *mut gix_history,
    ) -> i32;
    pub fn gix_graph_fault(bytes: *const u8, bytes_len: usize) -> u32;
    pub fn gix_history_set_partial(history: *mut gix_history, partial: bool);
    pub fn gix_history_wanted(history: *mut gix_history, out: *mut gix_id) -> i32;
    pub fn gix_history_free(history: *mut gix_history);
    pub fn gix_history_insert(
        history: *mut gix_history,
        id: *const gix_id,
        parents: *const gix_id,
        parents_len: usize,
        time: i64,
        has_generation: bool,
        generation: u32,
    ) -> i32;
    pub fn gix_history_insert_object(
        history: *mut gix_history,
        id: *const gix_id,
        content: *const u8,
        content_len: usize,
    ) -> i32;
    pub fn gix_history_len(history: *mut gix_history) -> usize;
    pub fn gix_history_commit(
        history: *mut gix_history,
        id: *const gix_id,
        out: *mut gix_commit,
        parents: *mut gix_id,
        parents_len: usize,
    ) -> i32;
    pub fn gix_history_abbreviate(
        history: *mut gix_history,
        id: *const gix_id,
        least: usize,
    ) -> usize;
    pub fn gix_history_merge_bases(
        history: *mut gix_history,
        first: *const gix_id,
        others: *const gix_id,
        others_len: usize,
        out: *mut gix_id,
        out_len: usize,
        count: *mut usize,
    ) -> i32;
    pub fn gix_history_octopus(
        history: *mut gix_history,
        first: *const gix_id,
        others: *const gix_id,
        others_len: usize,
        out: *mut gix_id,
    ) -> i32;
    pub fn gix_history_is_ancestor(
        history: *mut gix_history,
        ancestor: *const gix_id,
        of: *const gix_id,
    ) -> i32;
    pub fn gix_history_reaches(
        history: *mut gix_history,
        from: *const gix_id,
        ancestor: *const gix_id,
    ) -> i32;
    pub fn gix_history_independent(
        history: *mut gix_history,
        ids: *const gix_id,
        ids_len: usize,
        out: *mut gix_id,
        out_len: usize,
        count: *mut usize,
    ) -> i32;
    pub fn gix_history_ahead_behind(
        history: *mut gix_history,
        ours: *const gix_id,
        theirs: *const gix_id,
        ahead: *mut usize,
        behind: *mut usize,
    ) -> i32;
    pub fn gix_history_newest_first(
        history: *mut gix_history,
        ids: *const gix_id,
        ids_len: usize,
        out: *mut gix_id,
        out_len: usize,
        count: *mut usize,
    ) -> i32;
    pub fn gix_history_missing(
        history: *mut gix_history,
        after: *const gix_id,
        after_len: usize,
        out: *mut gix_id,
        out_len: usize,
        count: *mut usize,
    ) -> i32;
    pub fn gix_history_missing_all(history: *mut gix_history, out: *mut *mut gix_ids) -> i32;
    pub fn gix_ids_len(ids: *mut gix_ids) -> usize;
    pub fn gix_ids_read(ids: *mut gix_ids, from: usize, out: *mut gix_id, out_len: usize) -> usize;
    pub fn gix_ids_free(ids: *mut gix_ids);
    pub fn gix_history_describe(
        history: *mut gix_history,
        commit: *const gix_id,
        names: *const gix_name,
        names_len: usize,
        how: *const gix_how,
        out: *mut u8,
        out_len: usize,
        len: *mut usize,
        depth: *mut u32,
    ) -> i32;
    pub fn gix_names_new(
        names: *const gix_name,
        names_len: usize,
        seed: u64,
        out: *mut *mut gix_names,
    ) -> i32;
    pub fn gix_history_describe_by(
        history: *mut gix_history,
        commit: *const gix_id,
        names: *mut gix_names,
        how: *const gix_how,
        out: *mut u8,
        out_len: usize,
        len: *mut usize,
        depth: *mut u32,
    ) -> i32;
    pub fn gix_names_free(names: *mut gix_names);
    pub fn gix_history_name(
        history: *mut gix_history,
        name: *const u8,
        name_len: usize,
        id: *const gix_id,
    ) -> i32;
    pub fn gix_history_unname(
        history: *mut gix_history,
        name: *const u8,
        name_len: usize,
    ) -> i32;
    pub fn gix_history_resolve(
        history: *mut gix_history,
        text: *const u8,
        text_len: usize,
        seconds: i64,
        offset: i32,
        out: *mut gix_span,
        fault: *mut gix_fault,
    ) -> i32;
    pub fn gix_history_rev_parse(
        history: *mut gix_history,
        text: *const u8,
        text_len: usize,
        seconds: i64,
        offset: i32,
        out: *mut gix_span,
        fault: *mut gix_fault,
    ) -> i32;
    pub fn gix_history_list(
        history: *mut gix_history,
        span: *const gix_span,
        after: *const gix_id,
        after_len: usize,
        out: *mut gix_id,
        out_len: usize,
        count: *mut usize,
    ) -> i32;
    pub fn gix_history_list_all(
        history: *mut gix_history,
        span: *const gix_span,
        out: *mut *mut gix_ids,
    ) -> i32;
    pub fn gix_history_count(
        history: *mut gix_history,
        span: *const gix_span,
        count: *mut usize,
    ) -> i32;
}
