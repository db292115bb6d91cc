//! `uca.h` in Rust. `tests/header.rs` compares the two, and [`are_those_of_the_library`] tests the interface's number
//! and the sizes.
use std::ffi::c_void;
use std::mem::size_of;
use std::ptr::null_mut;

pub const ABI: u32 = 1;

pub const OK: u32 = 0;
pub const ARGUMENT: u32 = 3;
pub const TABLE: u32 = 4;
pub const DATA: u32 = 5;
pub const MEMORY: u32 = 6;
pub const UTF8: u32 = 7;
pub const TOO_LONG: u32 = 8;
pub const LONG_RUN: u32 = 9;
pub const SMALL: u32 = 10;
pub const BOOK: u32 = 11;
pub const NO_BOOK: u32 = 12;
pub const NO_KEY: u32 = 13;
pub const FILE: u32 = 14;
pub const NOT_MET: u32 = 15;
pub const NO_IMAGE: u32 = 16;
pub const DIGITS: u32 = 17;
pub const RUN_ARGUMENT: u32 = 256;
pub const RUN_MEMORY: u32 = 257;

pub const LOW: u32 = 0;
pub const HIGH: u32 = 1;

pub const KIND_MEMORY: u32 = 9;

#[repr(C)]
pub struct Handle {
    inside: *mut c_void,
    is_kept: bool,
}

/// `uca_collator`. Zeros are a closed one.
#[repr(C)]
pub struct Collator {
    handle: Handle,
    is_open: bool,
}

impl Collator {
    pub const CLOSED: Self = Self { handle: Handle { inside: null_mut(), is_kept: false }, is_open: false };
}

/// `uca_upgrade`. Zeros are a closed one.
#[repr(C)]
pub struct Upgrade {
    handle: Handle,
    is_open: bool,
}

impl Upgrade {
    pub const CLOSED: Self = Self { handle: Handle { inside: null_mut(), is_kept: false }, is_open: false };
}

#[repr(C)]
#[derive(Default)]
pub struct Error {
    pub line: u32,
    pub kind: u32,
}

#[repr(C)]
#[derive(Default)]
pub struct Comparison {
    pub order: i32,
    pub level: u32,
}

#[repr(C)]
#[derive(Default)]
pub struct UpgradeError {
    pub file: u32,
    pub line: u32,
    pub kind: u32,
    pub condition: u32,
    pub place: u32,
    pub number: u32,
}

#[repr(C)]
#[derive(Default)]
pub struct Lengths {
    pub out: usize,
    pub err: usize,
    pub kept: usize,
    pub files: usize,
}

/// A call that writes bytes: uca_key, uca_compact and uca_expand of a collator, and uca_rekey of an upgrade.
pub type Writes<Opened> = unsafe extern "C" fn(*mut Opened, *const u8, usize, *mut u8, usize, *mut usize) -> u32;

/// Whether the library that was linked has the interface and the sizes of this file.
pub fn are_those_of_the_library() -> bool {
    // SAFETY: these calls take nothing.
    let (abi, sizes) = unsafe { (uca_abi(), [uca_collator_size(), uca_upgrade_size()]) };
    abi == ABI && sizes == [size_of::<Collator>(), size_of::<Upgrade>()]
}

extern "C" {
    pub fn uca_abi() -> u32;
    pub fn uca_version() -> u32;
    pub fn uca_collator_size() -> usize;
    pub fn uca_open(
        collator: *mut Collator,
        table: *const u8,
        table_length: usize,
        data: *const u8,
        data_length: usize,
        weighting: u32,
        depth: u32,
        error: *mut Error,
    ) -> u32;
    pub fn uca_open_compact(
        collator: *mut Collator,
        table: *const u8,
        table_length: usize,
        data: *const u8,
        data_length: usize,
        book: *const u8,
        book_length: usize,
        weighting: u32,
        depth: u32,
        error: *mut Error,
    ) -> u32;
    pub fn uca_share(collator: *mut Collator, other: *mut Collator) -> u32;
    pub fn uca_key(
        collator: *mut Collator,
        text: *const u8,
        length: usize,
        out: *mut u8,
        room: usize,
        needed: *mut usize,
    ) -> u32;
    pub fn uca_key_beginning(
        collator: *mut Collator,
        text: *const u8,
        length: usize,
        out: *mut u8,
        room: usize,
        needed: *mut usize,
    ) -> u32;
    pub fn uca_key_bound(collator: *mut Collator, length: usize, bound: *mut usize) -> u32;
    pub fn uca_check_text(collator: *mut Collator, text: *const u8, length: usize, position: *mut usize) -> u32;
    pub fn uca_compact(
        collator: *mut Collator,
        key: *const u8,
        length: usize,
        out: *mut u8,
        room: usize,
        needed: *mut usize,
    ) -> u32;
    pub fn uca_expand(
        collator: *mut Collator,
        compact: *const u8,
        length: usize,
        out: *mut u8,
        room: usize,
        needed: *mut usize,
    ) -> u32;
    pub fn uca_range(
        collator: *mut Collator,
        text: *const u8,
        length: usize,
        range: u32,
        end: u32,
        out: *mut u8,
        room: usize,
        needed: *mut usize,
    ) -> u32;
    pub fn uca_compare(
        collator: *mut Collator,
        left: *const u8,
        left_length: usize,
        right: *const u8,
        right_length: usize,
        comparison: *mut Comparison,
    ) -> u32;
    pub fn uca_order(
        collator: *mut Collator,
        left: *const u8,
        left_length: usize,
        right: *const u8,
        right_length: usize,
        order: *mut i32,
    ) -> u32;
    pub fn uca_compare_keys(
        left: *const u8,
        left_length: usize,
        right: *const u8,
        right_length: usize,
        levels: u8,
        comparison: *mut Comparison,
    );
    pub fn uca_fingerprint(
        table: *const u8,
        table_length: usize,
        data: *const u8,
        data_length: usize,
        weighting: u32,
        depth: u32,
        out: *mut u8,
        error: *mut Error,
    ) -> u32;
    pub fn uca_compact_fingerprint(keys: *const u8, book: *const u8, book_length: usize, out: *mut u8);
    pub fn uca_close(collator: *mut Collator);
    pub fn uca_upgrade_size() -> usize;
    pub fn uca_open_upgrade(
        upgrade: *mut Upgrade,
        old_table: *const u8,
        old_table_length: usize,
        old_data: *const u8,
        old_data_length: usize,
        new_table: *const u8,
        new_table_length: usize,
        new_data: *const u8,
        new_data_length: usize,
        changes: *const u8,
        changes_length: usize,
        certificate: *const u8,
        certificate_length: usize,
        weighting: u32,
        depth: u32,
        error: *mut UpgradeError,
    ) -> u32;
    pub fn uca_affected(upgrade: *mut Upgrade, text: *const u8, length: usize, affected: *mut u32) -> u32;
    pub fn uca_rekey(
        upgrade: *mut Upgrade,
        key: *const u8,
        length: usize,
        out: *mut u8,
        room: usize,
        needed: *mut usize,
    ) -> u32;
    pub fn uca_rekey_in_place(upgrade: *mut Upgrade, key: *mut u8, length: usize) -> u32;
    pub fn uca_upgrade_fingerprints(upgrade: *mut Upgrade, old_out: *mut u8, new_out: *mut u8) -> u32;
    pub fn uca_close_upgrade(upgrade: *mut Upgrade);
    pub fn uca_run(
        arguments: *const u8,
        arguments_length: usize,
        names: *const u8,
        names_length: usize,
        first: *const u8,
        first_length: usize,
        second: *const u8,
        second_length: usize,
        third: *const u8,
        third_length: usize,
        fourth: *const u8,
        fourth_length: usize,
        fifth: *const u8,
        fifth_length: usize,
        sixth: *const u8,
        sixth_length: usize,
        input: *const u8,
        input_length: usize,
        out: *mut u8,
        out_room: usize,
        err: *mut u8,
        err_room: usize,
        kept: *mut u8,
        kept_room: usize,
        lengths: *mut Lengths,
    ) -> u32;
}
