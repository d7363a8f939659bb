//! The fare table of a load, and its validators.

use std::fmt::Write as _;

use crate::numbers::Numbers;

/// Numbers of a validator range, and the distance from one range to the next: the rest are of no range.
const RANGE: u32 = 10;
const STRIDE: u32 = 16;
const MODES: [&str; 3] = ["subway", "bus", "tram"];

/// The text of a table with this many ranges, in which these tokens are riders of the class with a low limit.
pub fn text(ranges: u32, riders: impl Iterator<Item = [u8; 16]>) -> String {
    let mut text = String::from(
        "modes = [\"subway\", \"bus\", \"tram\"]\n\
         transfers = [[\"subway\", \"bus\"], [\"bus\", \"subway\"], [\"bus\", \"bus\"]]\n\
         default_class = \"full\"\n\n\
         [classes.full]\nfare = 300\nrides = 12\nceiling = 3500\n\n\
         [classes.reduced]\nfare = 150\nrides = 3\n",
    );
    for place in 0..ranges {
        let first = first_of(place);
        let last = first + RANGE - 1;
        let mode = MODES[place as usize % MODES.len()];
        let _ = write!(
            text,
            "\n[[validators]]\nfirst = {first}\nlast = {last}\nmode = \"{mode}\"\n"
        );
    }
    text.push_str("\n[riders]\n");
    for token in riders {
        let _ = writeln!(text, "{} = \"reduced\"", hex(token));
    }
    text
}

/// A validator of one of this many ranges, or of 64 one that is in none.
pub fn validator(numbers: &mut Numbers, ranges: u32) -> u32 {
    let first = first_of(numbers.below(ranges as u64) as u32);
    let unknown = numbers.below(64) == 0;
    let within = numbers.below(if unknown { STRIDE - RANGE } else { RANGE } as u64) as u32;
    first + within + if unknown { RANGE } else { 0 }
}

fn first_of(range: u32) -> u32 {
    1000 + STRIDE * range
}

fn hex(token: [u8; 16]) -> String {
    format!("{:032x}", u128::from_be_bytes(token))
}
