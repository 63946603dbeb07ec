//! The library, as `include/extlang.h` declares it.

extern "C" {
    fn extlang_judge(stanza: *const u8, stanza_len: usize) -> u64;
    fn extlang_print(
        stanza: *const u8,
        stanza_len: usize,
        first: u64,
        length: u64,
        rdata: *const u8,
        rdata_len: usize,
        out: *mut u8,
        out_len: usize,
        at: u64,
    ) -> u64;
    fn extlang_read(
        stanza: *const u8,
        stanza_len: usize,
        first: u64,
        length: u64,
        origin: *const u8,
        origin_len: usize,
        text: *const u8,
        text_len: usize,
        out: *mut u8,
        out_len: usize,
        at: u64,
    ) -> u64;
}

/// Number, and place or count.
pub type Answer = (u32, u32);

fn halves(answer: u64) -> Answer {
    ((answer >> 32) as u32, answer as u32)
}

pub fn judge(stanza: &[u8]) -> Answer {
    // SAFETY: the pointer and the count are those of a slice, and the function
    // asks no more.
    halves(unsafe { extlang_judge(stanza.as_ptr(), stanza.len()) })
}

/// The text of the stanza's first `length` fields, from the start of `out` on.
pub fn print(stanza: &[u8], length: u64, rdata: &[u8], out: &mut [u8]) -> Answer {
    // SAFETY: the pointers and the counts are those of slices, and what is lent
    // to be written overlaps nothing.
    halves(unsafe {
        extlang_print(
            stanza.as_ptr(),
            stanza.len(),
            1,
            length,
            rdata.as_ptr(),
            rdata.len(),
            out.as_mut_ptr(),
            out.len(),
            0,
        )
    })
}

/// The RDATA of the stanza's first `length` fields, from the start of `out` on.
pub fn read(stanza: &[u8], length: u64, origin: &[u8], text: &[u8], out: &mut [u8]) -> Answer {
    // SAFETY: the pointers and the counts are those of slices, and what is lent
    // to be written overlaps nothing.
    halves(unsafe {
        extlang_read(
            stanza.as_ptr(),
            stanza.len(),
            1,
            length,
            origin.as_ptr(),
            origin.len(),
            text.as_ptr(),
            text.len(),
            out.as_mut_ptr(),
            out.len(),
            0,
        )
    })
}
