//! The name shown for a flow: a part of the file or a part of the standing list.

use std::ops::Range;

use crate::rules::file;

/// The part that is shown, by its place; a part may be empty.
#[derive(Clone, Debug, PartialEq, Eq)]
pub enum Name {
    File(Range<usize>),
    Standing(Range<usize>),
}

impl Name {
    /// The bytes of the part.
    pub fn bytes<'a>(&self, file: &'a [u8], standing: &'a [u8]) -> &'a [u8] {
        match self {
            Name::File(part) => &file[part.clone()],
            Name::Standing(part) => &standing[part.clone()],
        }
    }
}

/// The file's own name where it has at least one byte, otherwise the standing list's entry; the
/// empty part at the standing list's start where there is neither.
pub fn name(file: &[u8], standing: &[u8], flow: u32) -> Name {
    let nothing = Name::Standing(0..0);
    let load = match file::load(file, None) {
        Ok(load) => load,
        Err(_) => return nothing,
    };
    match load.names.get(flow as usize) {
        None => nothing,
        Some(own) if !own.is_empty() => Name::File(own.clone()),
        Some(_) => standing_entry(standing, flow).map_or(nothing, Name::Standing),
    }
}

/// The place of an entry's name, without its length byte; none if the list ends before the
/// entry's last byte. The last byte of an entry of length 0 is its length byte.
fn standing_entry(standing: &[u8], flow: u32) -> Option<Range<usize>> {
    let mut at = 0;
    for _ in 0..flow {
        at += 1 + usize::from(*standing.get(at)?);
    }
    let start = at + 1;
    let end = start + usize::from(*standing.get(at)?);
    if end > standing.len() {
        return None;
    }
    Some(start..end)
}
