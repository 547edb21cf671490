//! The static library's functions, as include/rewind.h has them, and the word
//! that each returns.

use crate::Answer;

extern "C" {
    fn rewind_call(
        script: *const u8,
        script_length: usize,
        net: *mut u8,
        net_length: usize,
        request: *const u8,
        request_length: usize,
    ) -> u64;
    fn rewind_find(
        script: *const u8,
        script_length: usize,
        net: *const u8,
        net_length: usize,
        key: u8,
    ) -> u64;
    fn rewind_free_key(
        script: *const u8,
        script_length: usize,
        net: *const u8,
        net_length: usize,
    ) -> u64;
    fn rewind_free_locality(
        script: *const u8,
        script_length: usize,
        net: *const u8,
        net_length: usize,
    ) -> u64;
}

/// Bits 0 to 7 the answer, 8 to 15 a count or a name, 32 to 63 localities.
#[derive(Clone, Copy)]
pub struct Word(u64);

impl Word {
    /// The library is proved to give no number above 12.
    pub fn answer(self) -> Answer {
        Answer::ALL[(self.0 & 255) as usize]
    }

    pub fn number(self) -> u8 {
        (self.0 >> 8) as u8
    }

    pub fn touched(self) -> u32 {
        (self.0 >> 32) as u32
    }
}

pub fn call(script: &[u8], net: &mut [u8], request: &[u8]) -> Word {
    // SAFETY: each pointer is a slice's own, with its length; nothing else can
    // hold the net while it is lent here; no pointer is kept.
    Word(unsafe {
        rewind_call(
            script.as_ptr(),
            script.len(),
            net.as_mut_ptr(),
            net.len(),
            request.as_ptr(),
            request.len(),
        )
    })
}

pub fn find(script: &[u8], net: &[u8], key: u8) -> Word {
    // SAFETY: each pointer is a slice's own, with its length; nothing is
    // written and no pointer is kept.
    Word(unsafe { rewind_find(script.as_ptr(), script.len(), net.as_ptr(), net.len(), key) })
}

pub fn free_key(script: &[u8], net: &[u8]) -> Word {
    // SAFETY: as for `find`.
    Word(unsafe { rewind_free_key(script.as_ptr(), script.len(), net.as_ptr(), net.len()) })
}

pub fn free_locality(script: &[u8], net: &[u8]) -> Word {
    // SAFETY: as for `find`.
    Word(unsafe { rewind_free_locality(script.as_ptr(), script.len(), net.as_ptr(), net.len()) })
}
