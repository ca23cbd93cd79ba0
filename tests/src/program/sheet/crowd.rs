//! Several adds at once to one file: each is added, or hindered by another, or refused because a
//! record that does not come before it was added first; and the file holds those that were added.

use crate::program::run::Left;
use crate::program::sheet::killed::Killer;
use crate::program::sheet::made::{Command, Place, NAME};
use crate::program::sheet::questions::add_either;
use crate::program::sheet::sentences::{is_said, meaning, THERE};
use crate::random::Random;
use crate::sheets::made::{pairs, sheet_of};
use crate::sheets::second::RECORD;
use std::fs;
use std::thread::scope;

/// How many adds are at work at once.
const ADDS: usize = 4;

/// What came of adds at once.
#[derive(Default)]
pub struct Crowds {
    pub adds: usize,
    pub added: usize,
    pub hindered: usize,
    pub refused: usize,
}

/// What an add did by what it left.
enum Came {
    Added,
    Hindered,
    /// Refused with 11, where so many records were.
    Refused(usize),
}

/// What came of an add; none if that is not possible.
fn came(left: &Left) -> Option<Came> {
    let printed = std::str::from_utf8(&left.output).ok()?;
    if left.errors.is_empty() {
        return Some(Came::Added);
    }
    if printed.is_empty() && is_said(&left.errors, THERE) {
        return Some(Came::Hindered);
    }
    let place = printed.strip_prefix("R 11 ")?.strip_suffix('\n')?;
    let place = place.parse().ok()?;
    is_said(&left.errors, &meaning(11)).then_some(Came::Refused(place))
}

/// Several adds to one sheet, in the order of their number pairs, and what they left.
struct Crowd {
    old: Vec<u8>,
    commands: Vec<Command>,
    left: Vec<Left>,
}

impl Crowd {
    /// The sheet that those make which were added, and the numbers of these; none if an add left
    /// what it cannot have left.
    fn sheet(&self, killer: &Killer) -> Option<(Vec<u8>, Vec<usize>)> {
        let (mut sheet, mut added) = (self.old.clone(), vec![]);
        for (k, (command, left)) in self.commands.iter().zip(&self.left).enumerate() {
            if let Came::Added = came(left)? {
                let wanted = killer.version.wanted(&command.words, &command.text, &sheet);
                if left.output != wanted.printed.as_bytes() {
                    return None;
                }
                sheet = wanted.sheet?;
                added.push(k);
            }
        }
        Some((sheet, added))
    }

    /// Whether those that were refused came after one that is not before them.
    fn refused_rightly(&self, added: &[usize]) -> bool {
        let count = self.old.len() / RECORD;
        let rightly = |(k, left): (usize, &Left)| match came(left) {
            Some(Came::Refused(place)) => {
                let last = place
                    .checked_sub(count + 1)
                    .and_then(|last| added.get(last));
                last.is_some_and(|last| *last >= k)
            }
            _ => true,
        };
        self.left.iter().enumerate().all(rightly)
    }
}

/// A sheet, and adds to it by chance in the order of their number pairs.
fn made(random: &mut Random) -> (Vec<u8>, Vec<Command>) {
    let count = random.one(&[0, 1, 100, 4000]);
    let pairs = pairs(count + ADDS, random);
    let old = sheet_of(&pairs[..count], random);
    let add = |pair| add_either(pair, random.below(2) == 0, random);
    (old, pairs[count..].iter().copied().map(add).collect())
}

/// Starts the commands at once about a path; what they left.
fn run(killer: &Killer, commands: &[Command], path: &str) -> Vec<Left> {
    scope(|scope| {
        let run = |command| scope.spawn(move || killer.run(command, path));
        let runs: Vec<_> = commands.iter().map(run).collect();
        let ended = runs.into_iter().map(|run| run.join());
        ended.map(|left| left.expect("the thread ends")).collect()
    })
}

/// Holds what adds at once left in their outputs and in the folder to what they may leave; the
/// numbers of those that were added.
fn judge(killer: &Killer, crowd: &Crowd, path: &str) -> Vec<usize> {
    let Some((sheet, added)) = crowd.sheet(killer) else {
        killer.broken("of adds at once, one left what it cannot have left");
    };
    let alone = fs::read_dir(killer.folder).expect("a folder").count() == 1;
    if killer.sheet(path) != sheet || !alone {
        killer.broken("adds at once: the file does not hold those that were added");
    }
    if !crowd.refused_rightly(&added) || added.is_empty() {
        killer.broken("adds at once: one is refused wrongly, or none is added");
    }
    added
}

/// Starts several adds at once, and counts what came of them.
pub fn one(killer: &Killer, crowds: &mut Crowds, random: &mut Random) {
    let (old, commands) = made(random);
    let place = Place {
        folder: killer.folder.to_string(),
    };
    let path = place.put(NAME, &old);
    let left = run(killer, &commands, &path);
    let crowd = Crowd {
        old,
        commands,
        left,
    };
    let added = judge(killer, &crowd, &path).len();
    let hindered = |left: &&Left| matches!(came(left), Some(Came::Hindered));
    let hindered = crowd.left.iter().filter(hindered).count();
    crowds.adds += ADDS;
    crowds.added += added;
    crowds.hindered += hindered;
    crowds.refused += ADDS - added - hindered;
}
