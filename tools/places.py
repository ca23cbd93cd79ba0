#!/usr/bin/env python3
"""Counts, in src/ of every crate, the lines that look like one of the older forms that docs/DESIGN-PASS.md names, by
point and by crate. Run at the top of the repository:

    places.py            the counts
    places.py --lines    each line too

A line counts by its text: what is found has to be read. The last point counts files and lines of proofs/ and specs/.
"""
import collections, glob, os, re, sys

POINTS = [
    ("1 enums", r"^\s*(pub(\(crate\))? )?enum "),
    ("1 a refusal or a value taken apart by a match and handed on",
     r"(Err|Refused|\w+::Refused)\((k|k, p|k, place)\) => (Err|\w+::Refused|Told|Unpacked|Written)|^\s*let \w+::?\w*\(\w*\) = .* else \{$|^\s*let (Ok|Some)\(.*\) = .* else \{$"),
    ("1 a flag with a value beside it", r"^\s*(pub )?(good|fine|broken|bridged|ones|zeros|many|number): (bool|u8|u16|usize)"),
    ("1 a number for none, a kind or a refusal", r"\bNONE\b|== 16\b|15 < value_of|table == 0|size == 0|number: 0\b|start == \w*\.?end|start != \w*\.?end"),
    ("3 while", r"^\s*while "),
    ("3 for over a range that counts", r"^\s*('\w+: )?for \w+ in (\(?0|i|from|0u8|0u16|0usize)\.\."),
    ("4 compared by hand", r"fn (same|has_pair|is_only|is_above|starts|is_wrong)\b|words::same\("),
    ("4 a letter or digit by its number", r"(?<![\w.])(48|55|57|65|70|97|102|87)(?![\w.])(?!,$)"),
    ("5 requires", r"^\s*requires"),
    ("5 requires of a range", r"requires .*(n ≤ 9|< 16|k < 4|at < 8|≤ 256|< 512|≤ 16|≤ 4|Small)"),
    ("6 a fixed buffer", r"\[0u?8?; |\[0u8; |\[0u16; |\[0u32; |\[0u64; |\[b.\\n.; |\[0xA5u8; |\[0; |input::room"),
    ("6 a length in use beside a buffer", r"\bused\b"),
    ("7 a value that says which step", r"Run::|Sort::|Question::|Offer::|flip: bool|yes: bool|with_block: bool|wide: bool"),
]

def crate_of(path):
    return path.split(os.sep)[1]

def main():
    lines = "--lines" in sys.argv[1:]
    for name, pattern in POINTS:
        found = []
        for path in sorted(glob.glob("crates/*/src/*.rt")):
            for number, line in enumerate(open(path, encoding="utf-8"), 1):
                if not line.lstrip().startswith("//") and re.search(pattern, line):
                    found.append((path, number, line.strip()))
        crates = collections.Counter(crate_of(path) for path, _, _ in found)
        print(f"{name}: {len(found)} ({', '.join(f'{c} {n}' for c, n in crates.most_common())})")
        if lines:
            for path, number, line in found:
                print(f"    {path}:{number}: {line}")
    answers = [p for p in glob.glob("crates/*/proofs/**/*.antt", recursive=True) if os.path.basename(p) in ("Answers.antt", "Invariants.antt", "Proof.antt")]
    laws = [p for p in glob.glob("crates/*/proofs/*.antt") if os.path.basename(p) != "Lib.antt"]
    specs = glob.glob("crates/*/specs/*.antt")
    count = lambda paths: sum(sum(1 for _ in open(p, encoding="utf-8")) for p in paths)
    code = glob.glob("crates/*/src/*.rt")
    print(f"8 answers and invariants: {len(answers)} files, {count(answers)} lines; laws: {len(laws)} files, {count(laws)} lines; specs: {count(specs)} lines; src: {count(code)} lines")

main()
