//! Networks that ABC rewrites. One is made from tables; every cover that ABC makes of it is read,
//! and what the covers compute together must be the tables again.

use crate::block::computed;
use crate::covers::abc::Abc;
use crate::covers::judge::Judge;
use crate::covers::made::rows;
use crate::made::{below, either};
use crate::random::Random;
use crate::table::{holds, table_of};
use std::collections::BTreeMap;

/// What ABC is told to do with a network, which leaves no cover with more than nine inputs.
const COMMANDS: [&str; 9] = [
    "",
    "collapse",
    "collapse; sop -n",
    "collapse; sop -d",
    "strash; if -K 4",
    "strash; dc2; if -K 6 -a",
    "strash; if -K 9",
    "strash; if -K 5; sop -n",
    "strash; dc2; if -K 7; sop -d",
];

/// A network by its tables, of n inputs each; and the start of its names, with which ABC breaks
/// lines if it is long.
struct Network {
    n: usize,
    tables: Vec<Vec<u8>>,
    start: &'static str,
}

/// A cover that was read: its names, the output's last, and its table.
struct Node {
    names: Vec<String>,
    table: Vec<u8>,
}

/// The table of a signal over the network's inputs, by its name.
type Signals = BTreeMap<String, Vec<u8>>;

/// The table of a block, or one by chance.
fn table(n: usize, random: &mut Random) -> Vec<u8> {
    if random.below(2) == 0 {
        return computed(n, &either(&below(n as u8), random));
    }
    let values: Vec<u8> = (0..64).map(|_| random.bits() as u8).collect();
    table_of(n, |row| holds(&values, row))
}

/// The covers of a network in BLIF.
fn covers(network: &str) -> Vec<String> {
    let parts = network.split("\n.");
    let covers = parts.filter(|part| part.starts_with("names "));
    covers.map(|part| format!(".{part}\n")).collect()
}

impl Network {
    /// A network by chance.
    fn made(random: &mut Random) -> Network {
        let (n, count) = (random.below(10), 1 + random.below(3));
        Network {
            n,
            tables: (0..count).map(|_| table(n, random)).collect(),
            start: random.one(&["", "a_signal_of_the_desk_"]),
        }
    }

    /// The names of so many signals of a kind.
    fn names(&self, kind: &str, count: usize) -> Vec<String> {
        let start = self.start;
        (0..count).map(|k| format!("{start}{kind}{k}")).collect()
    }

    fn inputs(&self) -> Vec<String> {
        self.names("i", self.n)
    }

    fn outputs(&self) -> Vec<String> {
        self.names("o", self.tables.len())
    }

    /// The cover of a table in BLIF: a line for each row that is 1, or one that is 0 everywhere.
    fn cover(&self, output: &str, table: &[u8]) -> String {
        let mut lines = rows(self.n, table, true);
        if lines.is_empty() {
            lines.push([&vec![b'-'; self.n], &b" 0"[..]].concat());
        }
        let names = [self.inputs(), vec![output.to_string()]].concat().join(" ");
        let lines = String::from_utf8(lines.join(&b'\n')).expect("a text");
        format!(".names {names}\n{lines}\n")
    }

    /// The network in BLIF.
    fn text(&self) -> String {
        let (inputs, outputs) = (self.inputs().join(" "), self.outputs());
        let covers = outputs.iter().zip(&self.tables);
        let covers: String = covers
            .map(|(name, table)| self.cover(name, table))
            .collect();
        let outputs = outputs.join(" ");
        format!(".model m\n.inputs {inputs}\n.outputs {outputs}\n{covers}.end\n")
    }

    /// The inputs as signals.
    fn given(&self) -> Signals {
        let variable = |k: usize| table_of(self.n, |row| row >> k & 1 == 1);
        self.inputs().into_iter().zip((0..).map(variable)).collect()
    }
}

impl Node {
    /// Reads a cover, which must be one.
    fn read(judge: &mut Judge, text: &str) -> Node {
        let head = text.lines().next().unwrap_or_default();
        let names = head.split_ascii_whitespace().skip(1).map(str::to_string);
        match judge.outcome(text.as_bytes(), &[64]) {
            Ok((_, table)) => Node {
                names: names.collect(),
                table,
            },
            Err(_) => judge.differ(text.as_bytes(), &["ABC wrote it".to_string()]),
        }
    }

    /// Adds the output to the signals if it is new and the inputs are there.
    fn settle(&self, n: usize, signals: &mut Signals) {
        let (output, inputs) = self.names.split_last().expect("an output");
        let inputs: Vec<&Vec<u8>> = inputs.iter().filter_map(|name| signals.get(name)).collect();
        if inputs.len() + 1 < self.names.len() || signals.contains_key(output) {
            return;
        }
        let bit = |input: &[u8], row: usize| holds(input, row) as usize;
        let read = |row: usize| (0..inputs.len()).map(|k| bit(inputs[k], row) << k).sum();
        let table = table_of(n, |row| holds(&self.table, read(row)));
        signals.insert(output.clone(), table);
    }
}

/// The covers that ABC wrote, read. One with a continued line is refused as it stands.
fn read_back(judge: &mut Judge, written: &str) -> Vec<Node> {
    for cover in covers(written).iter().filter(|cover| cover.contains('\\')) {
        judge.known(cover.as_bytes(), &[64], &Err(15));
    }
    let joined = covers(&written.replace("\\\n", " "));
    joined
        .iter()
        .map(|cover| Node::read(judge, cover))
        .collect()
}

/// Has ABC rewrite a network, reads its covers, and compares what they compute with the tables. How
/// many covers there were, none if ABC failed.
pub fn one_rewritten(judge: &mut Judge, abc: &Abc, random: &mut Random) -> usize {
    let (network, commands) = (Network::made(random), random.one(&COMMANDS));
    let text = network.text();
    let Some(written) = abc.rewritten(&text, commands) else {
        return 0;
    };
    let nodes = read_back(judge, &written);
    let mut signals = network.given();
    for node in nodes.iter().flat_map(|_| &nodes) {
        node.settle(network.n, &mut signals);
    }
    for (name, table) in network.outputs().iter().zip(&network.tables) {
        if signals.get(name) != Some(table) {
            let other = format!("{name} is computed otherwise by the covers of\n{written}");
            let asked = format!("ABC was told \"{commands}\" of\n{text}");
            judge.tally.differ(&[other, asked]);
        }
    }
    nodes.len()
}
