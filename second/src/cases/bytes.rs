//! One small file cut at every byte, changed at every byte, and with a byte more.

use crate::build::load_file::fit_length_word;
use crate::build::samples::small_file;
use crate::cases::Cases;

/// Enough for the three blocks and for two more, so that a higher block count isn't only 7.
const WORDS: u32 = 30;

pub fn add(cases: &mut Cases) {
    cut_under_the_old_length(cases);
    cut_under_a_fitting_length(cases);
    change_each_byte(cases);
    append_a_byte(cases);
}

/// Cut at every byte with the length word as it was: 1 for nothing, otherwise 2.
fn cut_under_the_old_length(cases: &mut Cases) {
    let whole = small_file().bytes();
    for keep in 0..whole.len() {
        cases.both(&whole[..keep], WORDS, if keep == 0 { 1 } else { 2 });
    }
    cases.both(&whole, WORDS, 0);
}

/// Cut at every byte with a length word that fits: from ten bytes on it's a record that is
/// missing or cut off.
fn cut_under_a_fitting_length(cases: &mut Cases) {
    let whole = small_file().bytes().len();
    for keep in 1..whole {
        let number = if keep < 10 { 2 } else { 5 };
        cases.both(&small_file().cut(keep), WORDS, number);
    }
}

/// Each byte to 0, to 255, one up, one down, and with one bit turned, which is another bit for
/// each of eight neighbours.
fn change_each_byte(cases: &mut Cases) {
    let whole = small_file().bytes();
    for place in 0..whole.len() {
        let old = whole[place];
        let bit = 1 << (place % 8);
        for new in [0, 255, old.wrapping_add(1), old.wrapping_sub(1), old ^ bit] {
            if new != old {
                let mut changed = whole.clone();
                changed[place] = new;
                cases.both_open(&changed, WORDS);
            }
        }
    }
}

/// One byte more at the end, with the length word left (2) and with one that fits (5).
fn append_a_byte(cases: &mut Cases) {
    for byte in [0, 1, 14, 65, 255] {
        let mut longer = small_file().bytes();
        longer.push(byte);
        cases.both(&longer, WORDS, 2);
        fit_length_word(&mut longer);
        cases.both(&longer, WORDS, 5);
    }
}
