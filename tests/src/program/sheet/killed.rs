//! Adds that are killed: the file then holds the sheet from before or the longer one, and nothing
//! else; and a later add is told of what was left, and works once that is removed.

use crate::program::run::{run, whole, Left, Output};
use crate::program::sheet::made::{Command, Place, NAME, NEW};
use crate::program::sheet::questions::add_either;
use crate::program::sheet::second::{Version, Wanted};
use crate::program::sheet::sentences::{is_said, THERE};
use crate::random::Random;
use crate::sheets::made;
use crate::sheets::second::MOST;
use std::fs;
use std::hint::spin_loop;
use std::io::Write;
use std::path::Path;
use std::process::{self, Child, Stdio};
use std::time::{Duration, Instant};

/// How many adds are timed before any is killed.
const TIMED: usize = 21;

/// How long an add may take that is waited for.
const LIMIT: Duration = Duration::from_secs(20);

/// How long an add takes: from its start to its end, and while FILE.new is there.
#[derive(Clone, Copy)]
pub struct Times {
    whole: Duration,
    writing: Duration,
}

/// What came of the kills.
#[derive(Default)]
pub struct Counts {
    pub kills: usize,
    pub old: usize,
    pub new: usize,
    pub left: usize,
}

/// A folder with a sheet's file, and an add that is right for it.
pub struct Add {
    place: Place,
    path: String,
    command: Command,
    old: Vec<u8>,
    wanted: Wanted,
}

/// What kills: the program, the second version, and where the files are.
pub struct Killer<'a> {
    pub program: &'a str,
    pub folder: &'a str,
    pub version: Version,
    /// The command that repeats it.
    pub repeat: String,
}

/// Waits while this holds and the program runs, at most until an add should long have ended.
fn wait_while(child: &mut Child, holds: impl Fn() -> bool) {
    let start = Instant::now();
    let mut running = || matches!(child.try_wait(), Ok(None));
    while holds() && running() && start.elapsed() < LIMIT {
        spin_loop();
    }
}

/// Waits until so long after a moment.
fn wait_until(start: Instant, after: Duration) {
    while start.elapsed() < after {
        spin_loop();
    }
}

/// A part of a time, by chance.
fn part(time: Duration, random: &mut Random) -> Duration {
    time.mul_f64(random.below(1 << 20) as f64 / (1 << 20) as f64)
}

/// The middle one of some times.
fn middle(mut times: Vec<Duration>) -> Duration {
    times.sort();
    times[times.len() / 2]
}

impl Add {
    /// Whether FILE.new is there.
    fn begun(&self) -> bool {
        Path::new(&self.place.path(NEW)).exists()
    }

    /// Whether the file has the length from before.
    fn is_as_long(&self) -> bool {
        let about = fs::metadata(&self.path);
        about.is_ok_and(|about| about.len() == self.old.len() as u64)
    }

    /// The longer sheet.
    fn longer(&self) -> &[u8] {
        self.wanted.sheet.as_deref().expect("an add that is right")
    }
}

impl Killer<'_> {
    /// Tells what is broken and ends everything.
    pub fn broken(&self, what: &str) -> ! {
        println!("broken: {what}\n  repeat: {}", self.repeat);
        process::exit(1);
    }

    /// The bytes of the file.
    pub fn sheet(&self, path: &str) -> Vec<u8> {
        fs::read(path).unwrap_or_else(|wrong| self.broken(&format!("{path}: {wrong}")))
    }

    /// An add of a record, by its ten bytes or by a cover, to a sheet of any length.
    fn add(&self, cover: bool, random: &mut Random) -> Add {
        let any = random.below(MOST);
        let count = random.one(&[0, 1, 40, MOST - 1, any, any]);
        let pairs = made::pairs(count + 1, random);
        let old = made::sheet_of(&pairs[..count], random);
        let command = add_either(pairs[count], cover, random);
        let wanted = self.version.wanted(&command.words, &command.text, &old);
        let place = Place {
            folder: self.folder.to_string(),
        };
        let path = place.put(NAME, &old);
        Add {
            place,
            path,
            command,
            old,
            wanted,
        }
    }

    /// Starts an add, with its text on standard input.
    fn start(&self, add: &Add) -> Child {
        let child = process::Command::new(self.program)
            .args(add.command.about(&add.path))
            .stdin(Stdio::piped())
            .stdout(Stdio::piped())
            .stderr(Stdio::piped())
            .spawn();
        let mut child = child.unwrap_or_else(|wrong| panic!("{}: {wrong}", self.program));
        let mut input = child.stdin.take().expect("a pipe");
        let _ = input.write_all(&add.command.text);
        child
    }

    /// What the program leaves in its outputs that is run on a file to its end.
    pub fn run(&self, command: &Command, path: &str) -> Left {
        let (words, input) = (command.about(path), whole(&command.text));
        let left = run(self.program, &words, &input, &Output::Pipe);
        left.unwrap_or_else(|wrong| panic!("{}: {wrong}", self.program))
    }

    /// How long adds take that are not killed.
    pub fn times(&self, random: &mut Random) -> Times {
        let (mut wholes, mut writings) = (vec![], vec![]);
        for k in 0..TIMED {
            let add = self.add(k % 2 == 0, random);
            let start = Instant::now();
            let mut child = self.start(&add);
            wait_while(&mut child, || !add.begun());
            let begun = Instant::now();
            wait_while(&mut child, || add.begun());
            writings.push(begun.elapsed());
            child.wait().expect("the program ends");
            wholes.push(start.elapsed());
        }
        Times {
            whole: middle(wholes),
            writing: middle(writings),
        }
    }

    /// Kills an add at a time by chance, from its start on or from when FILE.new is there; or as soon
    /// as the file is longer or shorter.
    fn kill(&self, add: &Add, times: Times, random: &mut Random) -> process::Output {
        let start = Instant::now();
        let mut child = self.start(add);
        match random.below(3) {
            0 => wait_until(start, part(times.whole.mul_f64(1.2), random)),
            1 => {
                wait_while(&mut child, || !add.begun());
                wait_until(Instant::now(), part(times.writing.mul_f64(1.2), random));
            }
            _ => wait_while(&mut child, || add.is_as_long()),
        }
        child.kill().expect("the program is killed");
        child.wait_with_output().expect("the program ends")
    }

    /// Holds what an add left to what it may leave; whether the longer sheet is there.
    fn judge(&self, add: &Add, left: &process::Output) -> bool {
        let sheet = self.sheet(&add.path);
        let is_new = sheet == add.longer();
        let printed = left.stdout == add.wanted.printed.as_bytes();
        let words = &add.command.words;
        if !is_new && sheet != add.old {
            let (length, old) = (sheet.len(), add.old.len());
            self.broken(&format!("{words:?}: {length} bytes, {old} before"));
        }
        let fine = left.stdout.is_empty() || printed && is_new;
        if !fine || !left.stderr.is_empty() {
            self.broken(&format!("{words:?}: {left:?}, added: {is_new}"));
        }
        if left.status.success() && !(printed && is_new && !add.begun()) {
            self.broken(&format!("{words:?}: ended, and nothing is added"));
        }
        is_new
    }

    /// Adds once more, with what was left and without it.
    fn again(&self, add: &Add, is_new: bool) {
        let words = &add.command.words;
        let sheet = if is_new { add.longer() } else { &add.old };
        if add.begun() {
            let said = self.run(&add.command, &add.path).errors;
            let told = is_said(&said, THERE);
            if !told || !add.begun() || self.sheet(&add.path) != sheet {
                self.broken(&format!("{words:?}: not told that FILE.new is there"));
            }
            fs::remove_file(add.place.path(NEW)).expect("FILE.new is removed");
        }
        let wanted = self.version.wanted(words, &add.command.text, sheet);
        let left = self.run(&add.command, &add.path);
        let printed = left.output == wanted.printed.as_bytes();
        let right = printed && self.sheet(&add.path) == add.longer();
        if !right || fs::read_dir(self.folder).expect("a folder").count() != 1 {
            self.broken(&format!("{words:?}: once more, and it is wrong"));
        }
    }

    /// Kills one add, and counts what came of it.
    pub fn one(&self, counts: &mut Counts, times: Times, random: &mut Random) {
        let add = self.add(counts.kills % 2 == 0, random);
        let left = self.kill(&add, times, random);
        let is_new = self.judge(&add, &left);
        counts.kills += 1;
        counts.new += is_new as usize;
        counts.old += !is_new as usize;
        counts.left += add.begun() as usize;
        self.again(&add, is_new);
    }
}
