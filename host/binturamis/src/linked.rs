//! The library, linked: the calls of `include/binturamis.h`. All that is unsafe stands here.
//!
//! Each call is sound for the same reasons. A reference or a slice is never null, points at so many
//! bytes as its length says, and is borrowed for as long as the call lasts, alone where it is
//! mutable: so no two of a call's buffers overlap and nobody else writes them. `Processor` has the
//! layout of `binturamis_processor`, 64 bytes. The library keeps no pointer, has nothing global,
//! and refuses a wrong length before it touches a byte.
#![allow(unsafe_code)]

use crate::operation::Processor;
use crate::size::STATE_BYTES;

#[link(name = "binturamis", kind = "static")]
extern "C" {
    fn binturamis_power_up(p: *mut Processor);
    fn binturamis_power_up_board(p: *mut Processor, part: u8, blocks: u8) -> u32;
    fn binturamis_write(
        p: *mut Processor,
        memory: *mut u8,
        memory_len: usize,
        address: u8,
        value: u8,
    ) -> u32;
    fn binturamis_read(p: *mut Processor, memory: *mut u8, memory_len: usize, address: u8) -> u32;
    fn binturamis_step(p: *mut Processor, memory: *mut u8, memory_len: usize) -> u32;
    fn binturamis_turn(p: *mut Processor, memory: *const u8, memory_len: usize, phase: u8) -> u32;
    fn binturamis_draw(
        p: *mut Processor,
        memory: *const u8,
        memory_len: usize,
        rom: *const u8,
        rom_len: usize,
        picture: *mut u8,
        picture_len: usize,
    ) -> u32;
    fn binturamis_state(p: *const Processor, out: *mut u8);
}

pub fn power_up(processor: &mut Processor) {
    // SAFETY: the 64 bytes are borrowed for writing.
    unsafe { binturamis_power_up(processor) }
}

pub fn power_up_board(processor: &mut Processor, part: u8, blocks: u8) -> u32 {
    // SAFETY: the 64 bytes are borrowed for writing.
    unsafe { binturamis_power_up_board(processor, part, blocks) }
}

pub fn write(processor: &mut Processor, memory: &mut [u8], address: u8, value: u8) -> u32 {
    // SAFETY: both are borrowed for writing, and the length is the slice's.
    unsafe { binturamis_write(processor, memory.as_mut_ptr(), memory.len(), address, value) }
}

pub fn read(processor: &mut Processor, memory: &mut [u8], address: u8) -> u32 {
    // SAFETY: both are borrowed for writing, and the length is the slice's.
    unsafe { binturamis_read(processor, memory.as_mut_ptr(), memory.len(), address) }
}

pub fn step(processor: &mut Processor, memory: &mut [u8]) -> u32 {
    // SAFETY: both are borrowed for writing, and the length is the slice's.
    unsafe { binturamis_step(processor, memory.as_mut_ptr(), memory.len()) }
}

pub fn turn(processor: &mut Processor, memory: &[u8], phase: u8) -> u32 {
    // SAFETY: the memory is only read, and the length is the slice's.
    unsafe { binturamis_turn(processor, memory.as_ptr(), memory.len(), phase) }
}

pub fn draw(processor: &mut Processor, memory: &[u8], rom: &[u8], picture: &mut [u8]) -> u32 {
    // SAFETY: memory and ROM are only read, the picture is borrowed for writing, and each length is
    // its slice's. Memory and ROM may be the same bytes: neither is written.
    unsafe {
        binturamis_draw(
            processor,
            memory.as_ptr(),
            memory.len(),
            rom.as_ptr(),
            rom.len(),
            picture.as_mut_ptr(),
            picture.len(),
        )
    }
}

pub fn state(processor: &Processor) -> [u8; STATE_BYTES] {
    let mut bytes = [0; STATE_BYTES];
    // SAFETY: the 64 bytes are only read, and the library writes 48.
    unsafe { binturamis_state(processor, bytes.as_mut_ptr()) }
    bytes
}
