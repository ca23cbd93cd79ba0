//! Reads the prototypes of the header and declares them to Rust. It knows the few words that the
//! header uses and takes nothing else, so that a change of the header cannot pass unread.

/// What the header says to the preprocessor, apart from the lines for C++.
const DIRECTIVES: [&str; 5] = [
    "#ifndef DRAWMITTEN_H",
    "#define DRAWMITTEN_H",
    "#include <stddef.h>",
    "#include <stdint.h>",
    "#endif",
];

/// The types of numbers in C and in Rust.
const NUMBERS: [(&str, &str); 5] = [
    ("uint8_t", "u8"),
    ("uint16_t", "u16"),
    ("uint32_t", "u32"),
    ("uint64_t", "u64"),
    ("size_t", "usize"),
];

/// What was read, or what is wrong with it.
type Read<T> = Result<T, String>;

/// The text with a blank for each comment.
fn without_comments(text: &str) -> Read<String> {
    let mut parts = text.split("/*");
    let mut kept = parts.next().unwrap_or_default().to_string();
    for part in parts {
        let (_, after) = part.split_once("*/").ok_or("a comment does not end")?;
        kept.push(' ');
        kept.push_str(after);
    }
    Ok(kept)
}

/// The text without directives and without the lines that are for C++ only.
fn for_c(text: &str) -> Read<String> {
    let mut kept = String::new();
    let mut skipping = false;
    for line in text.lines().map(str::trim) {
        if skipping {
            skipping = line != "#endif";
        } else if line == "#ifdef __cplusplus" {
            skipping = true;
        } else if !line.starts_with('#') {
            kept.push_str(line);
            kept.push('\n');
        } else if !DIRECTIVES.contains(&line) {
            return Err(format!("directive not known: {line}"));
        }
    }
    Ok(kept)
}

/// The names, numbers and marks of a text.
fn words(text: &str) -> Read<Vec<String>> {
    let mut words: Vec<String> = vec![];
    let mut in_name = false;
    for mark in text.chars() {
        let of_name = mark.is_ascii_alphanumeric() || mark == '_';
        match words.last_mut() {
            Some(word) if of_name && in_name => word.push(mark),
            _ if of_name || "(),*[]".contains(mark) => words.push(mark.to_string()),
            _ if mark.is_ascii_whitespace() => {}
            _ => return Err(format!("mark not known: {mark}")),
        }
        in_name = of_name;
    }
    Ok(words)
}

/// The type in Rust of a type of numbers in C.
fn number(word: &str) -> Read<&'static str> {
    let known = NUMBERS.iter().find(|(c, _)| *c == word);
    known
        .map(|(_, rust)| *rust)
        .ok_or(format!("type not known: {word}"))
}

/// A parameter in Rust.
fn parameter(words: &[String]) -> Read<String> {
    let words: Vec<&str> = words.iter().map(String::as_str).collect();
    match words[..] {
        [kind, name] => Ok(format!("{name}: {}", number(kind)?)),
        ["const", "uint8_t", "*", name] => Ok(format!("{name}: *const u8")),
        ["uint8_t", "*", name] => Ok(format!("{name}: *mut u8")),
        ["const", "uint8_t", name, "[", "9", "]"] => Ok(format!("{name}: *const [u8; 9]")),
        _ => Err(format!("parameter not known: {}", words.join(" "))),
    }
}

/// A prototype in Rust.
fn declaration(text: &str) -> Read<String> {
    let wrong = || format!("not a prototype: {}", text.trim());
    let words = words(text)?;
    let [answer, name, open, inner @ .., close] = &words[..] else {
        return Err(wrong());
    };
    if !name.starts_with("drawmitten_") || open != "(" || close != ")" {
        return Err(wrong());
    }
    let parameters: Read<Vec<String>> = inner.split(|word| word == ",").map(parameter).collect();
    let (parameters, answer) = (parameters?.join(", "), number(answer)?);
    Ok(format!("pub fn {name}({parameters}) -> {answer};"))
}

/// The declarations in Rust of every prototype of a header.
pub fn declarations(header: &str) -> Read<String> {
    let text = for_c(&without_comments(header)?)?;
    let (prototypes, rest) = text.rsplit_once(';').ok_or("there is no prototype")?;
    if !rest.trim().is_empty() {
        return Err(format!("not ended: {}", rest.trim()));
    }
    let lines: Read<Vec<String>> = prototypes.split(';').map(declaration).collect();
    Ok(format!("extern \"C\" {{\n{}\n}}\n", lines?.join("\n")))
}

#[cfg(test)]
mod tests {
    use super::declarations;

    /// The declarations of a header with these prototypes.
    fn declared(prototypes: &str) -> Result<String, String> {
        declarations(&format!(
            "/* a; */\n#ifndef DRAWMITTEN_H\n#define DRAWMITTEN_H\n{prototypes}\n#endif\n"
        ))
    }

    #[test]
    fn takes_every_type_of_the_header() {
        let given = "#include <stddef.h>\n#ifdef __cplusplus\nextern \"C\" {\n#endif\n\
            uint64_t drawmitten_a(uint8_t a, uint16_t b, uint32_t c, uint64_t d, size_t e); /* , */\n\
            uint8_t drawmitten_b(const uint8_t *a, uint8_t *b,\n    const uint8_t c[9]);";
        let wanted = "extern \"C\" {\n\
            pub fn drawmitten_a(a: u8, b: u16, c: u32, d: u64, e: usize) -> u64;\n\
            pub fn drawmitten_b(a: *const u8, b: *mut u8, c: *const [u8; 9]) -> u8;\n}\n";
        assert_eq!(declared(given).unwrap(), wanted);
    }

    #[test]
    fn takes_the_header_with_its_eleven_calls() {
        let all = declarations(include_str!("../../include/drawmitten.h")).unwrap();
        assert_eq!(all.matches("pub fn drawmitten_").count(), 11);
    }

    #[test]
    fn refuses_everything_else() {
        for wrong in [
            "",
            "uint64_t drawmitten_a(uint8_t a)",
            "uint64_t drawmitten_a(uint8_t a);\nint x",
            "uint64_t drawmitten_a;",
            "uint64_t drawmitten_a();",
            "uint64_t drawmitten_a(void);",
            "uint64_t drawmitten_a(uint8_t);",
            "uint64_t drawmitten_a(uint8_t a,);",
            "uint64_t drawmitten_a(int a);",
            "int drawmitten_a(uint8_t a);",
            "void drawmitten_a(uint8_t a);",
            "uint64_t other(uint8_t a);",
            "uint64_t drawmitten_a(const uint8_t a);",
            "uint64_t drawmitten_a(uint8_t a[9]);",
            "uint64_t drawmitten_a(const uint8_t a[8]);",
            "uint64_t drawmitten_a(const uint16_t *a);",
            "uint64_t drawmitten_a(uint8_t **a);",
            "static uint64_t drawmitten_a(uint8_t a);",
            "uint64_t drawmitten_a(uint8_t a) { return 0; }",
            "#define X\nuint64_t drawmitten_a(uint8_t a);",
            "uint64_t drawmitten_a(uint8_t a); /* no end",
        ] {
            assert!(declared(wrong).is_err(), "taken: {wrong}");
        }
    }
}
