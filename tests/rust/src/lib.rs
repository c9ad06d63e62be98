//! The library under test, the second decoder and the second writer and reader of files, the damage that both are given, and their comparison.
pub mod cartridge;
pub mod compare;
pub mod damage;
pub mod ffi;
pub mod files;
pub mod second;
pub mod spans;
