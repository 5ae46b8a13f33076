//! Other parsers on the same DOCTYPE, as the front of a document. Each is there where its headers are installed (bench/run).
#[cfg(any(expat, libxml2))]
type Foreign = unsafe extern "C" fn(*const u8, usize) -> i32;

unsafe extern "C" {
    #[cfg(expat)]
    fn peer_expat(document: *const u8, len: usize) -> i32;
    #[cfg(libxml2)]
    fn peer_libxml2(document: *const u8, len: usize) -> i32;
}

/// A parser's name, and whether it accepts a document.
pub type Peer = (&'static str, fn(&[u8]) -> bool);

pub const PEERS: &[Peer] = &[
    #[cfg(expat)]
    ("expat", |document| accepts(peer_expat, document)),
    #[cfg(libxml2)]
    ("libxml2", |document| accepts(peer_libxml2, document)),
];

#[cfg(any(expat, libxml2))]
fn accepts(foreign: Foreign, document: &[u8]) -> bool {
    unsafe { foreign(document.as_ptr(), document.len()) == 1 }
}

/// A document with this DOCTYPE and nothing else.
pub fn document(doctype: &str) -> String {
    format!("<!DOCTYPE {doctype}><root/>")
}
