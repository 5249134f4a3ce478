//! The library's own names, as `include/yuzgont.h` declares them. No pointer may be null.

use std::ptr;

/// `yuz_pool` of the header.
#[derive(Debug)]
#[repr(C)]
pub struct Handle {
    is_open: bool,
    held: *mut u8,
}

impl Handle {
    /// A handle without a pool.
    pub const NONE: Handle = Handle { is_open: false, held: ptr::null_mut() };
}

extern "C" {
    pub fn yuzgont_create(pool: *mut Handle, id: u32, blocks: u32) -> i32;
    pub fn yuzgont_free(pool: *mut Handle);
    pub fn yuzgont_line(pool: *mut Handle, line: *const u8, length: usize, refusal: *mut u32, size: *mut usize) -> i32;
    pub fn yuzgont_reply(pool: *mut Handle, from: usize, buffer: *mut u8, length: usize, count: *mut usize) -> i32;
    pub fn yuzgont_write(pool: *mut Handle, name: *const u8, name_length: usize, object: u32, block: u32, bytes: *const u8, length: usize) -> i32;
    pub fn yuzgont_read(pool: *mut Handle, name: *const u8, name_length: usize, object: u32, block: u32, buffer: *mut u8, length: usize, is_hole: *mut bool) -> i32;
    pub fn yuzgont_punch(pool: *mut Handle, name: *const u8, name_length: usize, object: u32, block: u32) -> i32;
    pub fn yuzgont_snapshot(pool: *mut Handle, name: *const u8, name_length: usize, recursive: bool) -> i32;
    pub fn yuzgont_get(pool: *mut Handle, name: *const u8, name_length: usize, property: u32, value: *mut u64) -> i32;
    pub fn yuzgont_sync(pool: *mut Handle, group: *mut u64) -> i32;
    pub fn yuzgont_slice(pool: *mut Handle, count: u64, taken: *mut u64) -> i32;
    pub fn yuzgont_abandon(pool: *mut Handle) -> i32;
    pub fn yuzgont_send(pool: *mut Handle, name: *const u8, name_length: usize, from: *const u8, from_length: usize, size: *mut usize) -> i32;
    pub fn yuzgont_stream(pool: *mut Handle, from: usize, buffer: *mut u8, length: usize, count: *mut usize) -> i32;
    pub fn yuzgont_receive(pool: *mut Handle, name: *const u8, name_length: usize, bytes: *const u8, length: usize, mode: u32, origin: *const u8, origin_length: usize) -> i32;
    pub fn yuzgont_forget(pool: *mut Handle) -> i32;
    pub fn yuzgont_create_file_system(pool: *mut Handle, name: *const u8, name_length: usize) -> i32;
    pub fn yuzgont_clone(pool: *mut Handle, snapshot: *const u8, snapshot_length: usize, name: *const u8, name_length: usize) -> i32;
    pub fn yuzgont_destroy(pool: *mut Handle, name: *const u8, name_length: usize, recursive: bool, defer: bool) -> i32;
    pub fn yuzgont_destroy_snapshots(pool: *mut Handle, names: *const u8, names_length: usize, recursive: bool, defer: bool) -> i32;
    pub fn yuzgont_promote(pool: *mut Handle, name: *const u8, name_length: usize) -> i32;
    pub fn yuzgont_rename(pool: *mut Handle, name: *const u8, name_length: usize, to: *const u8, to_length: usize) -> i32;
    pub fn yuzgont_rename_snapshot(pool: *mut Handle, name: *const u8, name_length: usize, to: *const u8, to_length: usize, recursive: bool) -> i32;
    pub fn yuzgont_rollback(pool: *mut Handle, snapshot: *const u8, snapshot_length: usize, later: bool) -> i32;
    pub fn yuzgont_bookmark(pool: *mut Handle, snapshot: *const u8, snapshot_length: usize, mark: *const u8, mark_length: usize) -> i32;
    pub fn yuzgont_hold(pool: *mut Handle, tag: *const u8, tag_length: usize, snapshot: *const u8, snapshot_length: usize) -> i32;
    pub fn yuzgont_release(pool: *mut Handle, tag: *const u8, tag_length: usize, snapshot: *const u8, snapshot_length: usize) -> i32;
    pub fn yuzgont_set(pool: *mut Handle, name: *const u8, name_length: usize, limit: u32, amount: u64) -> i32;
    pub fn yuzgont_free_object(pool: *mut Handle, name: *const u8, name_length: usize, object: u32) -> i32;
    pub fn yuzgont_open_view(pool: *mut Handle, snapshot: *const u8, snapshot_length: usize, view: *mut u64) -> i32;
    pub fn yuzgont_close_view(pool: *mut Handle, view: u64) -> i32;
    pub fn yuzgont_written_since(pool: *mut Handle, name: *const u8, name_length: usize, since: *const u8, since_length: usize, value: *mut u64) -> i32;
    pub fn yuzgont_would_free(pool: *mut Handle, name: *const u8, name_length: usize, first: *const u8, first_length: usize, last: *const u8, last_length: usize, value: *mut u64) -> i32;
    pub fn yuzgont_pool_get(pool: *mut Handle, property: u32, value: *mut u64) -> i32;
    pub fn yuzgont_list(pool: *mut Handle, count: *mut usize) -> i32;
    pub fn yuzgont_holds(pool: *mut Handle, snapshot: *const u8, snapshot_length: usize, count: *mut usize) -> i32;
    pub fn yuzgont_name(pool: *mut Handle, index: usize, buffer: *mut u8, length: usize, size: *mut usize) -> i32;
}
