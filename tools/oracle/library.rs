//! The C functions of the proved library, as the Rust crate has them, and those that `tools/tried` exports besides.

#[path = "../../bindings/rust/src/ffi.rs"]
#[allow(dead_code)]
mod ffi;

pub use ffi::c::*;
pub use ffi::{flatten_font_to, flatten_glyphs_to, flatten_marked_to, flatten_to, Places};

extern "C" {
    pub fn tried_callee(kind: u32, value: i32, profile: u32, count: u32, entry: *mut u32) -> u32;
    pub fn tried_view_length(bytes: *const u8, size: usize, number: u32) -> usize;
    pub fn tried_view_byte(bytes: *const u8, size: usize, number: u32, at: usize) -> u8;
}
