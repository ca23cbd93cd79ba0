//! Tidy blocks made anew from a seed.

use crate::random::Random;
use crate::ten::{bytes, joined, OPEN, OPEN_LEVEL};

/// The variables below n.
pub fn below(n: u8) -> Vec<u8> {
    (0..n).collect()
}

/// Some of these variables, `count` of them or all, in any order.
pub fn some(variables: &[u8], count: usize, random: &mut Random) -> Vec<u8> {
    let mut left = variables.to_vec();
    let count = count.min(left.len());
    (0..count)
        .map(|_| left.swap_remove(random.below(left.len())))
        .collect()
}

/// How many pins a table carries: four most of the time.
fn width(random: &mut Random) -> usize {
    match random.below(4) {
        0 => random.below(5),
        _ => 4,
    }
}

/// The fields of a four-pin table that carries these variables.
fn pins(variables: &[u8]) -> [u8; 4] {
    let mut pins = [OPEN; 4];
    pins[..variables.len()].copy_from_slice(variables);
    pins.sort();
    pins
}

/// Of so many rows, row 0 in the highest bit, those that a table reads whose last pins, as many as
/// `open`, are open.
fn readable(rows: usize, open: usize) -> u16 {
    let ends = 1 << open;
    let read = |row: &usize| row % ends == (ends - 1) * OPEN_LEVEL;
    let bit = |row: usize| 1 << (rows - 1 - row);
    (0..rows).filter(read).map(bit).sum()
}

/// A tidy block with these variables on F and on G and these for the direct pin to choose from.
fn filled(f: &[u8], g: &[u8], directs: &[u8], random: &mut Random) -> [u8; 10] {
    let open = directs.is_empty() || random.below(8) == 0;
    let direct = if open { OPEN } else { random.one(directs) };
    let mut table = |carried: &[u8]| random.bits() as u16 & readable(16, 4 - carried.len());
    let (f_rows, g_rows) = (table(f), table(g));
    let h_rows = random.bits() as u8 & readable(8, open as usize) as u8;
    let mut fields = [direct; 9];
    fields[..4].copy_from_slice(&pins(f));
    fields[4..8].copy_from_slice(&pins(g));
    bytes(joined(&fields, (f_rows, g_rows, h_rows)))
}

/// A tidy block that carries no variable twice.
pub fn apart(variables: &[u8], random: &mut Random) -> [u8; 10] {
    let mixed = some(variables, 9, random);
    let f = width(random).min(mixed.len());
    let g = width(random).min(mixed.len() - f);
    filled(&mixed[..f], &mixed[f..f + g], &mixed[f + g..], random)
}

/// A tidy block whose tables and direct pin choose without regard to each other.
pub fn mingled(variables: &[u8], random: &mut Random) -> [u8; 10] {
    let (f, g) = (width(random), width(random));
    let (f, g) = (some(variables, f, random), some(variables, g, random));
    filled(&f, &g, variables, random)
}

/// A tidy block of either kind.
pub fn either(variables: &[u8], random: &mut Random) -> [u8; 10] {
    match random.below(2) {
        0 => apart(variables, random),
        _ => mingled(variables, random),
    }
}

#[cfg(test)]
mod tests {
    use super::{below, either};
    use crate::blocks::parts::Parts;
    use crate::random::Random;
    use crate::ten::{tidy, OPEN};

    #[test]
    fn makes_tidy_blocks() {
        let mut random = Random(1);
        for n in (0..=9).flat_map(|n| [n; 200]) {
            let block = either(&below(n), &mut random);
            assert!(tidy(n, &block), "n {n}: {block:02X?}");
        }
    }

    #[test]
    fn sets_every_row_that_may_be_set() {
        let mut random = Random(1);
        let mut set = [[0; 5]; 3];
        for n in (0..=9).flat_map(|n| [n; 2000]) {
            let Parts { fields, tables, .. } = Parts::of(n, &either(&below(n), &mut random));
            let carried = |pins: &[u8]| pins.iter().filter(|pin| **pin != OPEN).count();
            set[0][carried(&fields[..4])] |= tables.0;
            set[1][carried(&fields[4..8])] |= tables.1;
            set[2][carried(&fields[8..])] |= tables.2 as u16;
        }
        let counts = set.map(|rows| rows.map(u16::count_ones));
        let four_pins = [1, 2, 4, 8, 16];
        assert_eq!(counts, [four_pins, four_pins, [4, 8, 0, 0, 0]]);
    }
}
