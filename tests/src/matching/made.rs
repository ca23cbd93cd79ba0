//! Functions made anew from a seed.

use crate::block::computed;
use crate::made::{apart, below, either, mingled, some};
use crate::random::Random;
use crate::table::table_of;
use crate::ten::tidy;

/// A function made, with a tidy block that realises it where one is known.
pub struct Made {
    pub table: Vec<u8>,
    pub block: Option<[u8; 10]>,
}

/// Makes a function of n inputs.
pub type Maker = fn(u8, &mut Random) -> Made;

/// The kinds of functions made.
pub const KINDS: [(&str, Maker); 7] = [
    ("random tables", random_table),
    ("fitting, nothing shared", fits_apart),
    ("fitting, shared as it comes", fits_mingled),
    ("fitting but for one row", flipped),
    ("fewer variables, random", narrow_table),
    ("fewer variables, fitting", narrow_fits),
    ("by the count of ones", counting),
];

/// The function that a block computes.
fn fitting(n: u8, block: [u8; 10]) -> Made {
    assert!(tidy(n, &block), "a block made is not tidy: {block:02X?}");
    Made {
        table: computed(n as usize, &block),
        block: Some(block),
    }
}

/// A function that depends on these variables alone and otherwise on chance.
fn chance(n: u8, variables: &[u8], random: &mut Random) -> Made {
    let values: Vec<u64> = (0..8).map(|_| random.bits()).collect();
    let place = |row: usize| {
        variables
            .iter()
            .fold(0, |before, v| 2 * before + (row >> v & 1))
    };
    let rule = |row: usize| values[place(row) / 64] >> (place(row) % 64) & 1 == 1;
    Made {
        table: table_of(n as usize, rule),
        block: None,
    }
}

/// Some variables below n, fewer than n, or none.
fn fewer(n: u8, random: &mut Random) -> Vec<u8> {
    let count = random.below(n.max(1) as usize);
    some(&below(n), count, random)
}

/// A random table.
fn random_table(n: u8, random: &mut Random) -> Made {
    chance(n, &below(n), random)
}

/// A function that fits with no variable shared.
fn fits_apart(n: u8, random: &mut Random) -> Made {
    fitting(n, apart(&below(n), random))
}

/// A function that fits, most of the time with variables shared.
fn fits_mingled(n: u8, random: &mut Random) -> Made {
    fitting(n, mingled(&below(n), random))
}

/// A function that fits but for one row.
fn flipped(n: u8, random: &mut Random) -> Made {
    let mut table = fitting(n, either(&below(n), random)).table;
    let row = random.below(1 << n);
    table[row / 8] ^= 0x80 >> (row % 8);
    Made { table, block: None }
}

/// A random function of fewer than n variables, or for n = 0 a constant.
fn narrow_table(n: u8, random: &mut Random) -> Made {
    let variables = fewer(n, random);
    chance(n, &variables, random)
}

/// A function of fewer than n variables that fits.
fn narrow_fits(n: u8, random: &mut Random) -> Made {
    let variables = fewer(n, random);
    fitting(n, either(&variables, random))
}

/// A function of the number of ones among its inputs.
fn counting(n: u8, random: &mut Random) -> Made {
    let values = random.bits();
    let table = table_of(n as usize, |row| values >> row.count_ones() & 1 == 1);
    Made { table, block: None }
}
