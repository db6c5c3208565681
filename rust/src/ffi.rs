//! The archive's functions, as `include/knappulf.h` declares them. Each asks that a slice's pointer and length belong
//! together and that what it writes overlaps nothing else: `crate`'s functions pass parts of live references alone.
use core::mem::size_of;

#[repr(C)]
#[derive(Clone, Copy, Default)]
pub struct Answer {
    pub value: u64,
    pub place: u64,
    pub of: u64,
}

#[repr(C)]
#[derive(Clone, Copy, Default)]
pub struct SegmentField {
    pub is_text: u64,
    pub number: u64,
    pub start: u64,
    pub end: u64,
}

#[repr(C)]
#[derive(Clone, Copy, Default)]
pub struct Fields {
    pub epoch: u64,
    pub pre_kind: u64,
    pub pre_number: u64,
    pub has_post: u64,
    pub post_number: u64,
    pub has_dev: u64,
    pub dev_number: u64,
    pub release_count: u64,
    pub segment_count: u64,
    pub release: [u64; 16],
    pub segments: [SegmentField; 16],
}

#[repr(C)]
#[derive(Clone)]
pub struct Lumps {
    pub bytes: [u8; 1027],
}

const _: () = assert!(size_of::<Fields>() == 89 * 8 && size_of::<Answer>() == 3 * 8 && size_of::<Lumps>() == 1027);

pub type Reader = unsafe extern "C" fn(*const u8, usize, *mut Fields, *mut Answer) -> u8;
pub type Writer = unsafe extern "C" fn(*const u8, usize, *mut u8, usize, *mut Answer) -> u8;
pub type Judge = unsafe extern "C" fn(*const u8, usize, *const u8, usize, *mut Answer) -> u8;
pub type Counter = unsafe extern "C" fn(*const u8, usize, *mut Answer) -> u8;

extern "C" {
    pub fn knappulf_read(text: *const u8, length: usize, fields: *mut Fields, answer: *mut Answer) -> u8;
    pub fn knappulf_pattern(text: *const u8, length: usize, fields: *mut Fields, answer: *mut Answer) -> u8;
    pub fn knappulf_segment(text: *const u8, length: usize, index: usize, start: *mut u64) -> usize;
    pub fn knappulf_normal(text: *const u8, length: usize, buffer: *mut u8, room: usize, answer: *mut Answer) -> u8;
    pub fn knappulf_compare(first: *const u8, first_length: usize, second: *const u8, second_length: usize, answer: *mut Answer) -> u8;
    pub fn knappulf_word(text: *const u8, length: usize, answer: *mut Answer) -> u8;
    pub fn knappulf_check(list: *const u8, length: usize, answer: *mut Answer) -> u8;
    pub fn knappulf_accepts(list: *const u8, list_length: usize, version: *const u8, version_length: usize, answer: *mut Answer) -> u8;
    pub fn knappulf_compile(list: *const u8, length: usize, buffer: *mut u8, room: usize, answer: *mut Answer) -> u8;
    pub fn knappulf_lookup(table: *const u8, table_length: usize, version: *const u8, version_length: usize, answer: *mut Answer) -> u8;
    pub fn knappulf_reader_take(reader: *mut Lumps, lump: *const u8, length: usize) -> u8;
    pub fn knappulf_reader_end(reader: *mut Lumps);
    pub fn knappulf_reader_reset(reader: *mut Lumps);
    pub fn knappulf_reader_verdict(reader: *const Lumps, fields: *mut Fields, answer: *mut Answer) -> u8;
    pub fn knappulf_reader_held(reader: *const Lumps) -> usize;
    pub fn knappulf_register(
        ids: *const u16,
        ids_length: usize,
        starts: *const usize,
        starts_length: usize,
        lengths: *const usize,
        lengths_length: usize,
        buffer: *const u8,
        buffer_length: usize,
        version: *const u8,
        version_length: usize,
        answer: *mut Answer,
    ) -> u8;
}
