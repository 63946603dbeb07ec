//! The library called from Rust: door timings under a description of their own.
//!
//! After `tools/build extlang`, at the root of the repository:
//!
//!     rustc --edition 2021 -L target/staticlib -l static=extlang -o target/door_rs examples/door.rs && target/door_rs

/// What `include/extlang.h` declares.
mod ffi {
    extern "C" {
        pub fn extlang_judge(stanza: *const u8, stanza_len: usize) -> u64;
        pub fn extlang_print(
            stanza: *const u8,
            stanza_len: usize,
            first: u64,
            length: u64,
            rdata: *const u8,
            rdata_len: usize,
            out: *mut u8,
            out_len: usize,
            at: u64,
        ) -> u64;
        pub fn extlang_read(
            stanza: *const u8,
            stanza_len: usize,
            first: u64,
            length: u64,
            origin: *const u8,
            origin_len: usize,
            text: *const u8,
            text_len: usize,
            out: *mut u8,
            out_len: usize,
            at: u64,
        ) -> u64;
    }
}

/// A refusal's number and place.
#[derive(Debug)]
struct Refusal {
    number: u32,
    place: u32,
}

/// The count of an answer, or the refusal.
fn count(answer: u64) -> Result<usize, Refusal> {
    match ((answer >> 32) as u32, answer as u32) {
        (0, count) => Ok(count as usize),
        (number, place) => Err(Refusal { number, place }),
    }
}

/// How many fields a description has.
fn judge(stanza: &[u8]) -> Result<usize, Refusal> {
    // SAFETY: the pointer and the count are those of a slice.
    count(unsafe { ffi::extlang_judge(stanza.as_ptr(), stanza.len()) })
}

/// The text of RDATA under all fields, in `out`.
fn print<'a>(stanza: &[u8], fields: usize, rdata: &[u8], out: &'a mut [u8]) -> Result<&'a [u8], Refusal> {
    let (s, p) = (stanza, rdata);
    // SAFETY: the pointers and the counts are those of slices, and `out` overlaps none of the others.
    let answer = unsafe {
        ffi::extlang_print(
            s.as_ptr(),
            s.len(),
            1,
            fields as u64,
            p.as_ptr(),
            p.len(),
            out.as_mut_ptr(),
            out.len(),
            0,
        )
    };
    count(answer).map(move |n| &out[..n])
}

/// The RDATA of a text under all fields, in `out`.
fn read<'a>(
    stanza: &[u8],
    fields: usize,
    origin: &[u8],
    text: &[u8],
    out: &'a mut [u8],
) -> Result<&'a [u8], Refusal> {
    let (s, o, t) = (stanza, origin, text);
    // SAFETY: as above.
    let answer = unsafe {
        ffi::extlang_read(
            s.as_ptr(),
            s.len(),
            1,
            fields as u64,
            o.as_ptr(),
            o.len(),
            t.as_ptr(),
            t.len(),
            out.as_mut_ptr(),
            out.len(),
            0,
        )
    };
    count(answer).map(move |n| &out[..n])
}

const DOOR: &[u8] =
    b"DOOR:65280:I Door timing\n I2:opening Tenths\n I2:dwell Tenths\n I1[STEP=1,HOLD=2]:mode Mode\n N:site Site\n";

/// The wire form of `example.`
const ORIGIN: &[u8] = b"\x07example\x00";

fn main() -> Result<(), Refusal> {
    let fields = judge(DOOR)?;
    println!("stanza: {fields} fields");

    let mut octets = [0; 512];
    let rdata = read(DOOR, fields, ORIGIN, b"30 70 HOLD lobby", &mut octets)?;
    let hex: String = rdata.iter().map(|octet| format!("{octet:02X}")).collect();
    println!("reading: {hex}");

    let mut text = [0; 512];
    println!("printing: {}", String::from_utf8_lossy(print(DOOR, fields, rdata, &mut text)?));

    // three octets end in the second field: nothing is filled in, and the text is as it was
    if let Err(Refusal { number, place }) = print(DOOR, fields, &rdata[..3], &mut text) {
        println!("printing three octets: refused, number {number}, place {place}");
    }
    Ok(())
}
