//! The name call: where the standing list's entries lie and where the list ends.

use crate::build::load_file::LoadFile;
use crate::cases::name::list;
use crate::cases::Cases;

pub fn add(cases: &mut Cases) {
    smallest_lists(cases);
    list_cut_at_every_byte(cases);
    entries_of_any_bytes(cases);
    longest_entries(cases);
    entries_of_length_0(cases);
    lists_that_overshoot(cases);
    more_entries_than_flows(cases);
    largest_list(cases);
}

/// A file whose flows all have no name.
fn nameless(flows: usize) -> Vec<u8> {
    let mut file = LoadFile::new(1);
    for _ in 0..flows {
        file = file.flow(b"");
    }
    file.bytes()
}

/// The empty list, `00`, and lists of a byte or two.
fn smallest_lists(cases: &mut Cases) {
    let lists: [(&[u8], &[u8]); 7] = [
        (b"", b""),
        (b"\x00", b""),
        (b"\x01", b""),
        (b"\xFF", b""),
        (b"\x01Z", b"Z"),
        (b"\x02Z", b""),
        (b"\x00Z", b""),
    ];
    for (standing, name) in lists {
        cases.name(&nameless(1), standing, 0, name);
        cases.name(&nameless(2), standing, 0, name);
        // No list of these has a second entry that is whole.
        cases.name(&nameless(2), standing, 1, b"");
    }
}

/// A list of three entries that ends at every byte: before a length byte, right after it, within
/// the name, and exactly enough.
fn list_cut_at_every_byte(cases: &mut Cases) {
    let lists: [[&[u8]; 3]; 2] = [[b"one", b"", b"three"], [b"q", b"second", b"9"]];
    for entries in lists {
        let whole = list(&entries);
        for keep in 0..=whole.len() {
            for flow in 0..3 {
                let enough = list(&entries[..flow + 1]).len();
                let name = if keep >= enough { entries[flow] } else { b"" };
                cases.name(&nameless(3), &whole[..keep], flow as u32, name);
            }
        }
    }
}

/// No range of bytes is tested: every byte outside 33 to 126 is shown as it stands.
fn entries_of_any_bytes(cases: &mut Cases) {
    let outside: Vec<u8> = (0..=32).chain(127..=255).collect();
    let entries: [&[u8]; 5] = [b"\x00", b" \x7F", b"\x0A\x0D\x00\xFF", &outside, b"!~"];
    let standing = list(&entries);
    for (flow, name) in entries.iter().enumerate() {
        cases.name(&nameless(5), &standing, flow as u32, name);
    }
}

/// No length is tested: entries of 31, 32, 128 and 255 bytes, and the last one a byte short.
fn longest_entries(cases: &mut Cases) {
    let entries: Vec<Vec<u8>> = [31, 32, 128, 255, 255, 1]
        .iter()
        .enumerate()
        .map(|(place, &length)| vec![b'A' + place as u8; length])
        .collect();
    let parts: Vec<&[u8]> = entries.iter().map(|entry| &entry[..]).collect();
    let standing = list(&parts);
    for (flow, name) in parts.iter().enumerate() {
        cases.name(&nameless(6), &standing, flow as u32, name);
    }
    let exactly = list(&parts[..5]);
    cases.name(&nameless(6), &exactly, 4, parts[4]);
    cases.name(&nameless(6), &exactly[..exactly.len() - 1], 4, b"");
    cases.name(&nameless(6), &exactly, 5, b"");
    // A length byte of 255 with fewer bytes behind it, for the flow and for one above it.
    cases.name(&nameless(2), &[255; 255], 0, b"");
    cases.name(&nameless(2), &[255; 256], 0, &[255; 255]);
    cases.name(&nameless(2), &[255; 256], 1, b"");
    cases.name(&nameless(2), &[255; 512], 1, &[255; 255]);
}

/// An entry of length 0 for the flow is empty, and those above it take one byte each.
fn entries_of_length_0(cases: &mut Cases) {
    let standing = list(&[b"", b"", b"third", b"", b"fifth", b""]);
    let names: [&[u8]; 6] = [b"", b"", b"third", b"", b"fifth", b""];
    for (flow, name) in names.iter().enumerate() {
        cases.name(&nameless(6), &standing, flow as u32, name);
    }
    for flow in 0..8 {
        cases.name(&nameless(8), &[0; 4], flow, b"");
    }
    let late = [&[0u8; 63][..], b"\x04last"].concat();
    cases.name(&nameless(64), &late, 63, b"last");
    cases.name(&nameless(64), &late, 62, b"");
    cases.name(&nameless(64), &late[..late.len() - 1], 63, b"");
}

/// An entry above the flow's says that it is longer than the list: the flow's own entry can't be
/// there, even where bytes that look like one are.
fn lists_that_overshoot(cases: &mut Cases) {
    for standing in [&b"\x09abc\x03def"[..], b"\x07abc\x03de", b"\x07abc\x03def"] {
        cases.name(&nameless(3), standing, 1, b"");
        cases.name(&nameless(3), standing, 2, b"");
    }
    cases.name(&nameless(3), b"\x07abc\x03def\x01g", 1, b"g");
}

/// A list with entries for flows that the file doesn't have: they are never shown.
fn more_entries_than_flows(cases: &mut Cases) {
    let entries: [&[u8]; 5] = [b"v", b"ww", b"xxx", b"yyyy", b"zzzzz"];
    let standing = list(&entries);
    for flows in 0..5 {
        for flow in 0..6 {
            let name = entries[..flows].get(flow).copied().unwrap_or_default();
            cases.name(&nameless(flows), &standing, flow as u32, name);
        }
    }
}

/// 64 entries of 255 bytes: the last one exactly there, and one byte short.
fn largest_list(cases: &mut Cases) {
    let entries: Vec<Vec<u8>> = (0..64u8).map(|flow| vec![flow; 255]).collect();
    let parts: Vec<&[u8]> = entries.iter().map(|entry| &entry[..]).collect();
    let standing = list(&parts);
    cases.name(&nameless(64), &standing, 63, parts[63]);
    cases.name(&nameless(64), &standing[..standing.len() - 1], 63, b"");
}
