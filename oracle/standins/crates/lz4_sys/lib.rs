//! Names of lz4 that util.rs uses. No call of the index comes here.
#![allow(non_snake_case)]

pub unsafe fn LZ4_compressBound(_: i32) -> i32 {
    panic!("stand-in: lz4")
}

pub unsafe fn LZ4_compress_fast(_: *const u8, _: *mut u8, _: i32, _: i32, _: i32) -> i32 {
    panic!("stand-in: lz4")
}

pub unsafe fn LZ4_decompress_safe(_: *const u8, _: *mut u8, _: i32, _: i32) -> i32 {
    panic!("stand-in: lz4")
}
