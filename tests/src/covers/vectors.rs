//! The vectors of covers: NAME.names is a text as ABC or yosys wrote it, NAME.tt has n and the
//! table in hexadecimal.

use crate::hexadecimal::bytes_of;
use crate::vectors::files;

/// A text, and the n and the table that it means.
pub struct Vector {
    pub name: String,
    pub text: Vec<u8>,
    pub n: u8,
    pub table: Vec<u8>,
}

/// The vectors of both folders: texts that are covers, and texts with a line that is continued.
pub struct Stock {
    pub covers: Vec<Vector>,
    pub continued: Vec<Vector>,
}

/// The bytes of a file.
fn bytes(path: &str) -> Vec<u8> {
    std::fs::read(path).unwrap_or_else(|wrong| panic!("{path}: {wrong}"))
}

/// The vector whose text is in a file.
fn vector(folder: &str, name: &str) -> Vector {
    let stem = name.trim_end_matches(".names");
    let told = String::from_utf8(bytes(&format!("{folder}/{stem}.tt"))).expect("a text");
    let (n, digits) = told.trim_end().split_once(' ').expect("n and a table");
    Vector {
        name: stem.to_string(),
        text: bytes(&format!("{folder}/{name}")),
        n: n.parse().expect("a number"),
        table: bytes_of(digits),
    }
}

/// Every vector of a folder.
fn all(folder: &str) -> Vec<Vector> {
    let names = files(folder, ".names").into_iter();
    names.map(|name| vector(folder, &name)).collect()
}

impl Stock {
    /// The vectors below the folder of all vectors.
    pub fn below(folder: &str) -> Stock {
        Stock {
            covers: all(&format!("{folder}/covers")),
            continued: all(&format!("{folder}/covers-continued")),
        }
    }
}
