//! A second matcher, made only to check the product's.
//!
//! It takes document 01 with request 3 at its word. Tidy wirings are tried in byte order: F's
//! pins, then G's, then the direct pin. On each wiring every H is tried, and for each H the 16
//! rows of F and the 16 of G are unknown bits. A row of the function reads one bit of F and one of
//! G; H and the value wanted there shut out some of the four pairs that these two can hold. So
//! every demand is about two bits, the problem known as 2-SAT.
//!
//! It is solved bit by bit, in byte order, 0 before 1: settle the bit, and all that follows from
//! it. If nothing clashes, the bit may stay: a demand on a settled bit is then met, and the
//! others are still those of the start. If both values clash, no contents serve this H. A bit
//! that no demand names becomes 0, so rows that need a 0 on an open pin hold 0 as tidy blocks
//! must.
//!
//! Only a wiring that misses a variable on which the function depends is skipped.

/// The field of an open pin.
const OPEN: usize = 15;

/// What an open pin reads.
const OPEN_READS: usize = 1;

/// The rows of H that need a 0 on the direct pin.
const DIRECT_ROWS: u8 = 0xAA;

/// One tidy choice of pins for a four-pin table.
struct Choice {
    /// The four pin fields, the first pin's in the highest four bits.
    fields: u16,
    /// The variables carried, variable i as bit i.
    set: usize,
    /// For each row of the function, the row that the table reads.
    reads: [u8; 512],
}

/// The second matcher: the tidy choices from nine variables, in byte order.
pub struct Second {
    choices: Vec<Choice>,
}

/// What a function asks of a wiring: `meets[s][i][c][v]` are the rows of the other table that are
/// read together with row i of table s (0 for F, 1 for G) where the direct pin is c and the
/// function v. Row i of a table is bit 15 - i of a mask, so masks compare as tables do.
struct Asked {
    meets: [[[[u16; 2]; 2]; 16]; 2],
}

/// The bits of F and of G that are settled, and which of them are 1.
#[derive(Clone, Copy)]
struct Settled {
    known: [u16; 2],
    ones: [u16; 2],
}

/// The value of a function at a row of its table.
fn table_bit(table: &[u8], row: usize) -> usize {
    (table[row / 8] >> (7 - row % 8)) as usize % 2
}

/// The pin fields of a set: its variables in order, then open pins.
fn fields_of(set: usize) -> u16 {
    let carried = (0..9).filter(|v| set >> v & 1 == 1);
    let fields = carried.chain(std::iter::repeat(OPEN)).take(4);
    fields.fold(0, |before, field| before << 4 | field as u16)
}

/// What a pin reads at a row: its variable's bit, unless it is open.
fn pin_reads(field: usize, row: usize) -> usize {
    if field == OPEN {
        OPEN_READS
    } else {
        row >> field & 1
    }
}

/// The row that a table with these pin fields reads at a row of the function.
fn row_read(fields: u16, row: usize) -> usize {
    let pin = |place: usize| pin_reads((fields >> (12 - 4 * place)) as usize % 16, row);
    8 * pin(0) + 4 * pin(1) + 2 * pin(2) + pin(3)
}

/// The choice of pins that carries a set.
fn choice_of(set: usize) -> Choice {
    let fields = fields_of(set);
    let reads = std::array::from_fn(|row| row_read(fields, row) as u8);
    Choice { fields, set, reads }
}

/// The variables on which a function of n inputs depends.
fn needed(n: usize, table: &[u8]) -> usize {
    let turns =
        |v: &usize| (0..1 << n).any(|row| table_bit(table, row) != table_bit(table, row ^ 1 << v));
    (0..n).filter(turns).map(|v| 1 << v).sum()
}

/// Everything that the function asks of a wiring.
fn asked(n: usize, table: &[u8], f: &Choice, g: &Choice, direct: usize) -> Asked {
    let mut meets = [[[[0; 2]; 2]; 16]; 2];
    for row in 0..1 << n {
        let (i, j) = (f.reads[row] as usize, g.reads[row] as usize);
        let (c, v) = (pin_reads(direct, row), table_bit(table, row));
        meets[0][i][c][v] |= 0x8000 >> j;
        meets[1][j][c][v] |= 0x8000 >> i;
    }
    Asked { meets }
}

/// The value of H where table s gives `own`, the other table `other` and the direct pin c.
fn h_value(h: u8, s: usize, own: usize, other: usize, c: usize) -> usize {
    let (f, g) = if s == 0 { (own, other) } else { (other, own) };
    (h >> (7 - (4 * f + 2 * g + c))) as usize % 2
}

impl Asked {
    /// The rows of the other table that cannot hold `other` when row i of table s holds `own`.
    fn shut(&self, h: u8, s: usize, i: usize, own: usize, other: usize) -> u16 {
        let wrong = |c: usize| self.meets[s][i][c][1 - h_value(h, s, own, other, c)];
        wrong(0) | wrong(1)
    }

    /// Settles a bit and all that follows from it, or answers none if that clashes.
    fn settle(&self, h: u8, mut now: Settled, s: usize, i: usize, bit: u16) -> Option<Settled> {
        let mut waiting = [0; 2];
        waiting[s] = 0x8000 >> i;
        now.known[s] |= waiting[s];
        now.ones[s] |= waiting[s] * bit;
        while waiting != [0, 0] {
            let s = (waiting[0] == 0) as usize;
            let i = waiting[s].leading_zeros() as usize;
            waiting[s] ^= 0x8000 >> i;
            let own = (now.ones[s] >> (15 - i)) as usize % 2;
            let (one, zero) = (self.shut(h, s, i, own, 0), self.shut(h, s, i, own, 1));
            let (known, ones) = (now.known[1 - s], now.ones[1 - s]);
            if one & zero != 0 || known & (one & !ones | zero & ones) != 0 {
                return None;
            }
            let new = (one | zero) & !known;
            now.known[1 - s] |= new;
            now.ones[1 - s] |= new & one;
            waiting[1 - s] |= new;
        }
        Some(now)
    }

    /// The contents of F and G that come first for this H, if there are any.
    fn contents(&self, h: u8) -> Option<[u16; 2]> {
        let mut now = Settled {
            known: [0; 2],
            ones: [0; 2],
        };
        for s in 0..2 {
            while now.known[s] != 0xFFFF {
                let i = now.known[s].leading_ones() as usize;
                now = self
                    .settle(h, now, s, i, 0)
                    .or_else(|| self.settle(h, now, s, i, 1))?;
            }
        }
        Some(now.ones)
    }

    /// The contents of F, G and H that come first on this wiring, if there are any.
    fn first(&self, direct: usize) -> Option<([u16; 2], u8)> {
        (0..=255)
            .filter(|h| direct != OPEN || h & DIRECT_ROWS == 0)
            .filter_map(|h| Some((self.contents(h)?, h)))
            .min()
    }
}

impl Second {
    /// The second matcher, with every set of at most four of nine variables.
    pub fn new() -> Second {
        let sets = (0..512usize).filter(|set| set.count_ones() <= 4);
        let mut choices: Vec<Choice> = sets.map(choice_of).collect();
        choices.sort_by_key(|choice| choice.fields);
        Second { choices }
    }

    /// The tidy block that realises the table and whose ten bytes come first, or none.
    pub fn find(&self, n: usize, table: &[u8]) -> Option<[u8; 10]> {
        let needed = needed(n, table);
        let offered: Vec<&Choice> = self.choices.iter().filter(|one| one.set < 1 << n).collect();
        for f in &offered {
            for g in &offered {
                for direct in (0..n).chain([OPEN]) {
                    if needed & !(f.set | g.set | 1 << direct) != 0 {
                        continue;
                    }
                    if let Some((tables, h)) = asked(n, table, f, g, direct).first(direct) {
                        return Some(bytes(f.fields, g.fields, direct, tables, h));
                    }
                }
            }
        }
        None
    }
}

/// The ten bytes of a block: the fields of F, of G and of the direct pin, the rows of F, G and H.
fn bytes(f: u16, g: u16, direct: usize, tables: [u16; 2], h: u8) -> [u8; 10] {
    let pins = ((f as u128) << 16 | g as u128) << 4 | direct as u128;
    let contents = ((tables[0] as u128) << 16 | tables[1] as u128) << 8 | h as u128;
    let number = (pins << 40 | contents) << 4;
    number.to_be_bytes()[6..].try_into().unwrap()
}

#[cfg(test)]
mod tests {
    use super::Second;
    use crate::document::{matches, refused_tables};
    use crate::vectors::lines;

    #[test]
    fn agrees_with_document_01() {
        let second = Second::new();
        for example in matches() {
            let found = second.find(example.n as usize, &example.table);
            assert_eq!(found, Some(example.block));
        }
        let [_, (n, at_least_five, _), ..] = refused_tables();
        assert_eq!(second.find(n as usize, &at_least_five), None);
    }

    #[test]
    fn agrees_with_the_vectors_of_up_to_three_inputs() {
        let second = Second::new();
        let folder = concat!(env!("CARGO_MANIFEST_DIR"), "/vectors");
        for line in lines(&format!("{folder}/match-small-high.txt")) {
            let found = second.find(line.n as usize, &line.table);
            assert_eq!(found, line.block, "n {}, {:02X?}", line.n, line.table);
        }
    }
}
