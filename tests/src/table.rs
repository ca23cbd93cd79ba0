//! Truth tables as document 01 has them.

/// The bytes of a table of n inputs.
pub fn table_length(n: usize) -> usize {
    if n < 3 {
        1
    } else {
        1 << (n - 3)
    }
}

/// The table of n inputs that is 1 on the rows that the rule takes.
pub fn table_of(n: usize, rule: impl Fn(usize) -> bool) -> Vec<u8> {
    let mut table = vec![0; table_length(n)];
    for row in (0..1 << n).filter(|row| rule(*row)) {
        table[row / 8] |= 0x80 >> (row % 8);
    }
    table
}

/// Whether a table is 1 on a row.
pub fn holds(table: &[u8], row: usize) -> bool {
    table[row / 8] >> (7 - row % 8) & 1 == 1
}

/// The number with which bytes are refused that are no table of n inputs.
pub fn refusal(n: u8, table: &[u8]) -> Option<u8> {
    if n > 9 {
        return Some(1);
    }
    if table.len() != table_length(n as usize) {
        return Some(2);
    }
    (n < 3 && table[0] & [0x7F, 0x3F, 0x0F][n as usize] != 0).then_some(3)
}

#[cfg(test)]
mod tests {
    use super::refusal;
    use crate::document::{matches, refused_tables};

    #[test]
    fn refuses_what_document_01_refuses_before_the_search() {
        for (n, table, number) in refused_tables() {
            assert_eq!(refusal(n, &table).unwrap_or(4), number);
        }
        for example in matches() {
            assert_eq!(refusal(example.n, &example.table), None);
        }
    }
}
