use crate::refusal::{verdict, Refusal};
use crate::sys;

/// What the quick scan says of the front part of a DOCTYPE.
#[derive(Debug, Clone, Copy, PartialEq, Eq, Hash)]
pub enum Scan {
    /// There is no `[` yet.
    NotOpened,
    /// There is a `[` and no `]` yet that closes it.
    NotClosed,
    /// The place of the `]` that closes the subset, counted from 0 at the text's first byte.
    Closed(usize),
}

/// The quick scan: where the internal subset of a DOCTYPE closes. The text is the front part, of any length, of what stands after
/// `<!DOCTYPE`. Only [`Refusal::TooLong`] and [`Refusal::NotUtf8`] are errors here.
///
/// ```
/// use moxkeldi::{scan, Scan};
/// assert_eq!(scan(b" job SYSTEM \"a[b\""), Ok(Scan::NotOpened));
/// assert_eq!(scan(b" job [<!--]-->"), Ok(Scan::NotClosed));
/// assert_eq!(scan(b" job [<!--]-->]>"), Ok(Scan::Closed(14)));
/// ```
pub fn scan(text: &[u8]) -> Result<Scan, Refusal> {
    let found = sys::scan(text);
    verdict(found.number)?;
    Ok(match found.answer {
        0 => Scan::NotOpened,
        1 => Scan::NotClosed,
        2 => Scan::Closed(found.place),
        // ruled out by the library's proof
        other => panic!("libmoxkeldi answered a scan with {other}"),
    })
}
