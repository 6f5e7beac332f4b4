//! The declarations of `r10.h`, by the same names and in the same order, and nothing else. What each call does, and what its caller owes, the header says.
//!
//! The functions that the header itself has (`static inline`) are not here: the crate `r10` has them as its own.
#![no_std]
#![allow(non_camel_case_types)]

use core::ffi::c_void;

/// The version of the header that these declarations are of.
pub const R10_VERSION: u32 = 200;

pub const R10_OK: u32 = 0;
pub const R10_FAILED: u32 = 1;
pub const R10_NOT_MOUNTED: u32 = 2;
pub const R10_MOUNTED: u32 = 3;
pub const R10_BUSY: u32 = 4;
pub const R10_NOT_RECORDING: u32 = 5;
pub const R10_NO_CHANNEL: u32 = 6;
pub const R10_WRONG_KIND: u32 = 7;
pub const R10_BAD_MESSAGE: u32 = 8;
pub const R10_TOO_LONG: u32 = 9;
pub const R10_COUNT_RANGE: u32 = 10;
pub const R10_COUNT_BACK: u32 = 11;
pub const R10_OVERFLOW: u32 = 12;
pub const R10_BAD_CIVIL: u32 = 13;
pub const R10_NO_TIME: u32 = 14;
pub const R10_BAD_NAME: u32 = 15;
pub const R10_NAME_TAKEN: u32 = 16;
pub const R10_BAD_EVENT: u32 = 17;
pub const R10_UNSEALED: u32 = 18;
pub const R10_NO_FILE: u32 = 19;
pub const R10_STALE: u32 = 20;
pub const R10_NO_CURSOR: u32 = 21;
pub const R10_UNREAD: u32 = 22;
pub const R10_DIRECTORY_FULL: u32 = 23;
pub const R10_MEDIUM_FULL: u32 = 25;
pub const R10_BAD_DIRECTORY: u32 = 26;
pub const R10_BAD_FILE: u32 = 27;
pub const R10_MEDIUM: u32 = 28;
pub const R10_NO_MEMORY: u32 = 30;
pub const R10_SCRIPT: u32 = 40;
pub const R10_BLOCKS: u32 = 41;
pub const R10_ROOM: u32 = 42;
pub const R10_PLACE: u32 = 43;
pub const R10_CLOSED: u32 = 44;
pub const R10_OPEN: u32 = 45;

/// A recorder, or none where it is all zeros.
#[repr(C)]
#[derive(Debug)]
pub struct r10 {
    pub held: *mut c_void,
    pub open: bool,
}

#[repr(C)]
#[derive(Clone, Copy)]
pub struct r10_region {
    pub at: *mut c_void,
    pub blocks: usize,
}

#[repr(C)]
#[derive(Clone, Copy, Debug, Default, PartialEq, Eq)]
pub struct r10_civil {
    pub year: u16,
    pub month: u16,
    pub day: u16,
    pub hour: u16,
    pub minute: u16,
    pub second: u16,
    pub centi: u16,
}

pub const R10_UART: u8 = 1;
pub const R10_1553: u8 = 2;
pub const R10_ARINC: u8 = 3;
pub const R10_DISCRETE: u8 = 4;
pub const R10_MESSAGE: u8 = 5;
pub const R10_TIME: u8 = 6;
pub const R10_EVENT: u8 = 7;

#[repr(C)]
#[derive(Clone, Copy, Debug, Default)]
pub struct r10_entry {
    pub count: u64,
    pub lost: u64,
    pub length: usize,
    pub word: u32,
    pub channel: u16,
    pub sub: u16,
    pub status: u16,
    pub gap_times: u16,
    pub number: u16,
    pub occurrence: u16,
    pub year: u16,
    pub month: u16,
    pub day: u16,
    pub hour: u16,
    pub minute: u16,
    pub second: u16,
    pub centi: u16,
    pub kind: u8,
    pub bus: u8,
    pub gap: bool,
    pub parity: bool,
    pub format: bool,
    pub data_error: bool,
    pub high: bool,
}

#[repr(C)]
#[derive(Clone, Copy, Debug, Default)]
pub struct r10_file_info {
    pub size: u64,
    pub blocks: u64,
    pub name_length: usize,
    pub closed: bool,
}

pub const R10_MODE_UNMOUNTED: u8 = 0;
pub const R10_MODE_IDLE: u8 = 1;
pub const R10_MODE_RECORDING: u8 = 2;
pub const R10_MODE_FAILED: u8 = 3;

#[repr(C)]
#[derive(Clone, Copy, Debug, Default)]
pub struct r10_status_info {
    pub tick: u64,
    pub free: u64,
    pub files: usize,
    pub channels: usize,
    pub mode: u8,
    pub ticked: bool,
}

#[repr(C)]
#[derive(Clone, Copy, Debug, Default)]
pub struct r10_channel_info {
    pub lost: u64,
    pub erased: u64,
    pub waiting: usize,
    pub channel: u16,
}

#[repr(C)]
#[derive(Clone, Copy, Debug, Default)]
pub struct r10_account_info {
    pub accepted: u64,
    pub erased: u64,
    pub lost: u64,
    pub waiting: usize,
    pub channel: u16,
}

/// How many messages of a channel were lost, and which gaps report that.
#[repr(C)]
#[derive(Clone, Copy, Debug, Default)]
pub struct r10_losses_info {
    pub missed: u64,
    pub waiting_lost: u64,
    pub erased_lost: u64,
    pub handed: u64,
    pub handed_lost: u64,
    pub channel: u16,
}

/// The sending end of a channel's lane between two threads, or none where it is all zeros.
#[repr(C)]
#[derive(Debug)]
pub struct r10_port {
    pub held: *mut c_void,
    pub open: bool,
}

/// Its receiving end, or none where it is all zeros.
#[repr(C)]
#[derive(Debug)]
pub struct r10_outlet {
    pub held: *mut c_void,
    pub open: bool,
}

#[repr(C)]
#[derive(Clone, Copy, Debug, Default)]
pub struct r10_port_info {
    pub accepted: u64,
    pub lost: u64,
    pub capacity: usize,
    pub channel: u16,
}

pub const R10_NOTHING: u8 = 0;
pub const R10_WRITE: u8 = 1;
pub const R10_SYNC: u8 = 2;

#[repr(C)]
#[derive(Clone, Copy, Debug, Default)]
pub struct r10_order_info {
    pub block: usize,
    pub kind: u8,
}

#[repr(C)]
#[derive(Clone, Copy, Debug, Default)]
pub struct r10_run_info {
    pub block: usize,
    pub blocks: usize,
    pub kind: u8,
}

#[repr(C)]
#[derive(Clone, Copy, Debug, Default)]
pub struct r10_queue_info {
    pub waiting: usize,
    pub places: usize,
    pub rings: usize,
}

pub const R10_FAULT_TRUNCATED: u16 = 1;
pub const R10_FAULT_SYNC: u16 = 2;
pub const R10_FAULT_HEADER_SUM: u16 = 3;
pub const R10_FAULT_LENGTH: u16 = 4;
pub const R10_FAULT_DATA_SUM: u16 = 5;
pub const R10_FAULT_BODY: u16 = 6;
pub const R10_FAULT_RULE: u16 = 7;

#[repr(C)]
#[derive(Clone, Copy, Debug, Default)]
pub struct r10_fault_info {
    pub at: u64,
    pub number: u32,
    pub fault: u16,
    pub rule: u16,
}

#[repr(C)]
#[derive(Clone, Copy, Debug, Default)]
pub struct r10_script_info {
    pub blocks: usize,
    pub directory: usize,
    pub channels: usize,
    pub line: usize,
    pub length: usize,
}

const _: () = {
    assert!(size_of::<usize>() == 8);
    assert!(size_of::<r10>() == 16);
    assert!(size_of::<r10_region>() == 16);
    assert!(size_of::<r10_civil>() == 14);
    assert!(size_of::<r10_entry>() == 64);
    assert!(size_of::<r10_file_info>() == 32);
    assert!(size_of::<r10_status_info>() == 40);
    assert!(size_of::<r10_channel_info>() == 32);
    assert!(size_of::<r10_account_info>() == 40);
    assert!(size_of::<r10_losses_info>() == 48);
    assert!(size_of::<r10_port>() == 16);
    assert!(size_of::<r10_outlet>() == 16);
    assert!(size_of::<r10_port_info>() == 32);
    assert!(size_of::<r10_order_info>() == 16);
    assert!(size_of::<r10_run_info>() == 24);
    assert!(size_of::<r10_queue_info>() == 24);
    assert!(size_of::<r10_fault_info>() == 16);
    assert!(size_of::<r10_script_info>() == 40);
};

unsafe extern "C" {
    pub fn r10_version() -> u32;
    pub fn r10_check_script(script: *const u8, script_length: usize, info: *mut r10_script_info, text: *mut u8, text_room: usize) -> u32;
    pub fn r10_format(region: r10_region, room: usize, script: *const u8, script_length: usize, recorder: *mut r10) -> u32;
    pub fn r10_set_aside(region: r10_region, room: usize, script: *const u8, script_length: usize, recorder: *mut r10, was_open: *mut bool) -> u32;
    pub fn r10_open(region: r10_region, room: usize, script: *const u8, script_length: usize, recorder: *mut r10) -> u32;
    pub fn r10_orders(recorder: *mut r10, run: *mut r10_run_info, bytes: *mut u8, byte_room: usize) -> u32;
    pub fn r10_order(recorder: *mut r10, order: *mut r10_order_info, bytes: *mut u8, byte_room: usize) -> u32;
    pub fn r10_queue(recorder: *mut r10, info: *mut r10_queue_info) -> u32;
    pub fn r10_disk_failed(recorder: *mut r10) -> u32;
    pub fn r10_close(recorder: *mut r10);
    pub fn r10_mount(recorder: *mut r10) -> u32;
    pub fn r10_dismount(recorder: *mut r10) -> u32;
    pub fn r10_tick(recorder: *mut r10, count: u64, civil: *const r10_civil) -> u32;
    pub fn r10_start(recorder: *mut r10, name: *const u8, name_length: usize, setup: *const u8, setup_length: usize) -> u32;
    pub fn r10_pump(recorder: *mut r10, channel: u16, most: usize, moved: *mut usize) -> u32;
    pub fn r10_event(recorder: *mut r10, number: u16, count: u64) -> u32;
    pub fn r10_commit(recorder: *mut r10) -> u32;
    pub fn r10_stop(recorder: *mut r10, taken: *mut usize, left: *mut usize) -> u32;
    pub fn r10_seal(recorder: *mut r10) -> u32;
    pub fn r10_erase(recorder: *mut r10) -> u32;
    pub fn r10_offer_uart(recorder: *mut r10, channel: u16, count: u64, parity: bool, sub: u16, bytes: *const u8, length: usize) -> u32;
    pub fn r10_offer_1553(recorder: *mut r10, channel: u16, count: u64, status: u16, gap: u16, words: *const u16, length: usize) -> u32;
    pub fn r10_offer_arinc(recorder: *mut r10, channel: u16, count: u64, bus: u8, format: bool, parity: bool, high: bool, word: u32) -> u32;
    pub fn r10_offer_discrete(recorder: *mut r10, channel: u16, count: u64, states: u32) -> u32;
    pub fn r10_offer_message(recorder: *mut r10, channel: u16, count: u64, data_error: bool, format: bool, sub: u16, bytes: *const u8, length: usize) -> u32;
    pub fn r10_lost(recorder: *mut r10, channel: u16, count: u64) -> u32;
    pub fn r10_port_open(script: *const u8, script_length: usize, channel: u16, port: *mut r10_port, outlet: *mut r10_outlet) -> u32;
    pub fn r10_port_uart(port: *mut r10_port, count: u64, parity: bool, sub: u16, bytes: *const u8, length: usize) -> u32;
    pub fn r10_port_1553(port: *mut r10_port, count: u64, status: u16, gap: u16, words: *const u16, length: usize) -> u32;
    pub fn r10_port_arinc(port: *mut r10_port, count: u64, bus: u8, format: bool, parity: bool, high: bool, word: u32) -> u32;
    pub fn r10_port_discrete(port: *mut r10_port, count: u64, states: u32) -> u32;
    pub fn r10_port_message(port: *mut r10_port, count: u64, data_error: bool, format: bool, sub: u16, bytes: *const u8, length: usize) -> u32;
    pub fn r10_port_lost(port: *mut r10_port, count: u64) -> u32;
    pub fn r10_port_state(port: *mut r10_port, info: *mut r10_port_info) -> u32;
    pub fn r10_port_close(port: *mut r10_port);
    pub fn r10_outlet_close(outlet: *mut r10_outlet);
    pub fn r10_carry_one(recorder: *mut r10, outlet: *mut r10_outlet, carried: *mut bool) -> u32;
    pub fn r10_files(recorder: *mut r10, count: *mut usize) -> u32;
    pub fn r10_file(recorder: *mut r10, number: usize, info: *mut r10_file_info, name: *mut u8, name_room: usize) -> u32;
    pub fn r10_status(recorder: *mut r10, info: *mut r10_status_info) -> u32;
    pub fn r10_fault(recorder: *mut r10, info: *mut r10_fault_info) -> u32;
    pub fn r10_channel(recorder: *mut r10, place: usize, info: *mut r10_channel_info) -> u32;
    pub fn r10_account(recorder: *mut r10, place: usize, info: *mut r10_account_info) -> u32;
    pub fn r10_losses(recorder: *mut r10, place: usize, info: *mut r10_losses_info) -> u32;
    pub fn r10_take_waiting(recorder: *mut r10, channel: u16, there: *mut bool, entry: *mut r10_entry) -> u32;
    pub fn r10_untold(account: *const r10_account_info, losses: *const r10_losses_info, found: u64, found_lost: u64) -> u64;
    pub fn r10_cursor(recorder: *mut r10, file: usize, channels: *const u16, channel_count: usize, from: u64, to: u64, cursor: *mut usize) -> u32;
    pub fn r10_advance(recorder: *mut r10, cursor: usize, queued: *mut usize) -> u32;
    pub fn r10_next(
        recorder: *mut r10,
        cursor: usize,
        there: *mut bool,
        entry: *mut r10_entry,
        bytes: *mut u8,
        byte_room: usize,
        words: *mut u16,
        word_room: usize,
    ) -> u32;
    pub fn r10_take(recorder: *mut r10, cursor: usize, there: *mut bool, entry: *mut r10_entry) -> u32;
    pub fn r10_taken(recorder: *mut r10, bytes: *mut u8, byte_room: usize, words: *mut u16, word_room: usize) -> u32;
    pub fn r10_close_cursor(recorder: *mut r10, cursor: usize) -> u32;
    pub fn r10_find(
        recorder: *mut r10,
        file: usize,
        channel: u16,
        count: u64,
        there: *mut bool,
        number: *mut usize,
        entry: *mut r10_entry,
        bytes: *mut u8,
        byte_room: usize,
        words: *mut u16,
        word_room: usize,
    ) -> u32;
    pub fn r10_count_at(recorder: *mut r10, file: usize, civil: *const r10_civil, there: *mut bool, count: *mut u64) -> u32;
}
