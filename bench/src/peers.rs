//! Other DNS libraries, those that are installed. Each stands behind C functions
//! of one form: a record is made once, then printed and read.

use std::ffi::{c_char, c_int, c_void, CString};

type Make = unsafe extern "C" fn(*const c_char, u16, *const u8, u16, *const u8, usize) -> *const c_void;
type Convert = unsafe extern "C" fn(*const c_void, *mut u8, usize) -> c_int;

pub struct Peer {
    pub name: &'static str,
    make: Make,
    print: Convert,
    read: Convert,
}

/// A peer of a name, and the C functions that start with its prefix.
#[allow(unused_macros, reason = "none may be installed")]
macro_rules! peer {
    ($name:literal, $make:ident, $print:ident, $read:ident) => {{
        extern "C" {
            fn $make(
                kind: *const c_char,
                number: u16,
                rdata: *const u8,
                rdata_len: u16,
                text: *const u8,
                text_len: usize,
            ) -> *const c_void;
            fn $print(record: *const c_void, out: *mut u8, out_len: usize) -> c_int;
            fn $read(record: *const c_void, out: *mut u8, out_len: usize) -> c_int;
        }
        Peer { name: $name, make: $make, print: $print, read: $read }
    }};
}

/// Those that are installed, in the order of the tables.
pub fn peers() -> Vec<Peer> {
    vec![
        #[cfg(knot)]
        peer!("Knot", knot_record, knot_print, knot_read),
        #[cfg(bind)]
        peer!("BIND", bind_record, bind_print, bind_read),
        #[cfg(ldns)]
        peer!("ldns", ldns_record, ldns_print, ldns_read),
    ]
}

/// A record as one of the peers keeps it; none where it does not know the type.
pub struct Kept {
    record: *const c_void,
    print: Convert,
    read: Convert,
}

impl Peer {
    pub fn keep(&self, kind: &str, number: u16, rdata: &[u8], text: &[u8]) -> Kept {
        let kind = CString::new(kind).expect("a type's name has no NUL");
        let len = u16::try_from(rdata.len()).expect("RDATA has at most 65,535 octets");
        // SAFETY: the pointers and the counts are those of slices, and the peer
        // copies what it keeps.
        let record =
            unsafe { (self.make)(kind.as_ptr(), number, rdata.as_ptr(), len, text.as_ptr(), text.len()) };
        Kept { record, print: self.print, read: self.read }
    }
}

impl Kept {
    /// The count of the text's octets.
    pub fn print(&self, out: &mut [u8]) -> Option<usize> {
        self.convert(self.print, out)
    }

    /// The count of the RDATA's octets.
    pub fn read(&self, out: &mut [u8]) -> Option<usize> {
        self.convert(self.read, out)
    }

    fn convert(&self, convert: Convert, out: &mut [u8]) -> Option<usize> {
        if self.record.is_null() {
            return None;
        }
        // SAFETY: the record is never freed, and out is a slice that is lent.
        let count = unsafe { convert(self.record, out.as_mut_ptr(), out.len()) };
        usize::try_from(count).ok()
    }
}
