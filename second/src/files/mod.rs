//! The files on which the printing program is compared with the listing by the rules, kind by kind.

mod edges;
mod examples;
mod generated;
mod lengths;
mod refused;

use crate::build::load_file::LoadFile;

pub struct File {
    /// Its kind, and what is particular about it.
    pub name: String,
    pub bytes: Vec<u8>,
    /// The number that the maker of the file says, 0 if it's sound; none where that is left to the
    /// rules. The self-tests compare it with the listing.
    pub number: Option<u32>,
}

#[derive(Default)]
pub struct Files {
    pub made: Vec<File>,
}

impl Files {
    fn push(&mut self, name: String, bytes: Vec<u8>, number: Option<u32>) {
        self.made.push(File {
            name,
            bytes,
            number,
        });
    }

    pub fn sound(&mut self, name: &str, file: &LoadFile) {
        self.push(name.to_string(), file.bytes(), Some(0));
    }

    /// The number stands in the name too.
    pub fn refused(&mut self, number: u32, name: &str, bytes: Vec<u8>) {
        self.push(format!("refused-{}-{}", number, name), bytes, Some(number));
    }

    pub fn open(&mut self, name: &str, bytes: Vec<u8>) {
        self.push(name.to_string(), bytes, None);
    }
}

/// Every file, in a fixed order.
pub fn all() -> Vec<File> {
    let mut files = Files::default();
    examples::add(&mut files);
    refused::add(&mut files);
    edges::add(&mut files);
    lengths::add(&mut files);
    generated::add(&mut files);
    files.made
}
