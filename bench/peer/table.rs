//! The fare table of the peer and of the rival. It has no zone: windows are of seven days.
//!
//! Each program has at its top the `Token` and the `Seed` by which its riders are hashed.

use std::collections::HashMap;

use crate::toml::{self, Section};
use crate::{Seed, Token};

/// The terms of a class.
pub struct Terms {
    /// Cents of a ride.
    pub fare: u32,
    /// How many rides of a window are paid at most.
    pub rides: u32,
    /// Cents of a window at most.
    pub ceiling: u32,
}

/// Validators in a row that are of one mode.
struct Range {
    /// The lowest validator.
    first: u32,
    /// The highest validator, which is of the range too.
    last: u32,
    /// The place of their mode.
    mode: u8,
}

/// A fare table that was read.
pub struct Table {
    /// The names of the modes.
    modes: Vec<String>,
    /// Bit `to` of word `from` is set if the pair is permitted.
    permitted: [u32; 32],
    /// The classes in the order of the text.
    classes: Vec<Terms>,
    /// The place of the class of who is no rider.
    default: u16,
    /// Rising.
    ranges: Vec<Range>,
    /// The place of each rider's class.
    riders: HashMap<Token, u16, Seed>,
}

impl Table {
    /// Reads the text of a table.
    pub fn read(seed: Seed, text: &str) -> Result<Table, String> {
        meaning(seed, &toml::document(text)?)
    }

    /// The place of the validator's mode.
    pub fn mode_of(&self, validator: u32) -> Option<u8> {
        let after = self
            .ranges
            .partition_point(|range| range.first <= validator);
        let range = &self.ranges[after.checked_sub(1)?];
        (validator <= range.last).then_some(range.mode)
    }

    /// The name of the mode at a place.
    pub fn mode_name(&self, mode: u8) -> &str {
        &self.modes[mode as usize]
    }

    /// The names of all modes, in the order of their places. The peer writes no ledger.
    #[allow(dead_code)]
    pub fn mode_names(&self) -> impl Iterator<Item = &str> {
        self.modes.iter().map(String::as_str)
    }

    /// Whether rides by these two modes, one after the other, may be a transfer.
    pub fn permits(&self, from: u8, to: u8) -> bool {
        self.permitted[from as usize & 31] >> (to & 31) & 1 == 1
    }

    /// The place of a token's class: the rider's, else the default.
    pub fn class_of(&self, token: Token) -> u16 {
        self.rider(token).unwrap_or(self.default)
    }

    /// The place of the class that the table names for a token.
    pub fn rider(&self, token: Token) -> Option<u16> {
        if self.riders.is_empty() {
            None
        } else {
            self.riders.get(&token).copied()
        }
    }

    /// The terms of the class at a place.
    pub fn class(&self, place: u16) -> &Terms {
        &self.classes[place as usize]
    }
}

/// Thirty-two hexadecimal digits of either case.
pub fn token_of(digits: &str) -> Option<Token> {
    if digits.len() != 32 || !digits.bytes().all(|digit| digit.is_ascii_hexdigit()) {
        return None;
    }
    let number = u128::from_str_radix(digits, 16).ok()?;
    Some(Token {
        high: (number >> 64) as u64,
        low: number as u64,
    })
}

/// The table that the sections of a text mean.
fn meaning(seed: Seed, sections: &[Section]) -> Result<Table, String> {
    let top = &sections[0];
    let mut modes = Vec::new();
    for name in top.find("modes")?.array()? {
        modes.push(name.text()?.to_string());
    }
    let mode = |name: &str| {
        modes
            .iter()
            .position(|mode| mode == name)
            .map(|place| place as u8)
            .ok_or("no such mode")
    };
    let mut permitted = [0; 32];
    for pair in top.find("transfers")?.array()? {
        let [from, to] = pair.array()? else {
            return Err("a pair is wanted".into());
        };
        permitted[mode(from.text()?)? as usize] |= 1 << mode(to.text()?)?;
    }
    let mut names = HashMap::new();
    let mut classes = Vec::new();
    let mut ranges = Vec::new();
    for section in sections {
        match section.name[..] {
            ["classes", name] => {
                names.insert(name, classes.len() as u16);
                classes.push(terms(section)?);
            }
            ["validators"] => {
                let first = section.number("first", 0, u32::MAX.into())?;
                let last = section.number("last", first.into(), u32::MAX.into())?;
                ranges.push(Range {
                    first,
                    last,
                    mode: mode(section.text("mode")?)?,
                });
            }
            _ => {}
        }
    }
    ranges.sort_unstable_by_key(|range: &Range| range.first);
    if ranges.windows(2).any(|two| two[1].first <= two[0].last) {
        return Err("ranges overlap".into());
    }
    let class = |name: &str| names.get(name).copied().ok_or("no such class");
    let mut riders = HashMap::with_hasher(seed);
    for section in sections.iter().filter(|section| section.name == ["riders"]) {
        riders.reserve(section.pairs.len());
        for (key, value) in &section.pairs {
            let token = token_of(key).ok_or("a rider is no token")?;
            if riders.insert(token, class(value.text()?)?).is_some() {
                return Err("a rider stands twice".into());
            }
        }
    }
    let default = class(top.text("default_class")?)?;
    Ok(Table {
        modes,
        permitted,
        classes,
        default,
        ranges,
        riders,
    })
}

/// The terms that the section of a class means.
fn terms(section: &Section) -> Result<Terms, String> {
    let fare = section.number("fare", 1, 100_000)?;
    let rides = section.number("rides", 1, 1000)?;
    let ceiling = match section.find("ceiling") {
        Ok(_) => section.number("ceiling", 1, 100_000_000)?,
        Err(_) => rides * fare,
    };
    Ok(Terms {
        fare,
        rides,
        ceiling,
    })
}
