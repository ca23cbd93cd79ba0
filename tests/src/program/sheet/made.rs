//! Cases made of a sheet and commands, with what the second version wants of them.

use crate::program::run::{whole, Input, Output};
use crate::program::sheet::folder::Thing;
use crate::program::sheet::judge::{Case, Run};
use crate::program::sheet::second::{Version, Wanted};
use crate::random::Random;
use std::fs::{self, Permissions};
use std::os::unix::fs::PermissionsExt;

/// The name of a sheet's file in its folder, and the name beside it under which a longer sheet is
/// written.
pub const NAME: &str = "SECRET.sheet";
pub const NEW: &str = "SECRET.sheet.new";

/// The word of a command that stands for the path of the sheet's file.
pub const FILE: &str = "FILE";

/// A command: its words, and the text on standard input.
#[derive(Clone)]
pub struct Command {
    pub words: Vec<String>,
    pub text: Vec<u8>,
}

/// A folder in which some runs are made.
pub struct Place {
    pub folder: String,
}

/// What makes cases: the second version, the folder for their folders, and numbers by chance.
pub struct Maker {
    pub version: Version,
    pub random: Random,
    pub cases: Vec<Case>,
    folder: String,
    places: usize,
}

/// The command with these words, a blank between two, and no text.
pub fn command(words: &str) -> Command {
    of_words(words.split(' '))
}

/// The command with these words and no text.
pub fn of_words<'a>(words: impl IntoIterator<Item = &'a str>) -> Command {
    Command {
        words: words.into_iter().map(str::to_string).collect(),
        text: vec![],
    }
}

/// The command that adds the block of a cover, with this number pair.
pub fn add_cover(pair: &str, text: &[u8]) -> Command {
    Command {
        text: text.to_vec(),
        ..command(&format!("add {FILE} {pair}"))
    }
}

impl Command {
    /// The words with this path in the place of FILE.
    pub fn about(&self, path: &str) -> Vec<String> {
        let named = |word: &String| match word.as_str() {
            FILE => path.to_string(),
            _ => word.clone(),
        };
        self.words.iter().map(named).collect()
    }

    /// A run of the command about this path, that must leave this.
    pub fn run(&self, path: &str, wanted: Wanted) -> Run {
        Run {
            start: vec![],
            words: self.about(path),
            input: whole(&self.text),
            output: Output::Pipe,
            changes: vec![],
            wanted,
        }
    }
}

impl Run {
    /// The run, of which the file under this name has the longer sheet afterwards if there is one.
    pub fn changing(mut self, name: &str) -> Run {
        let sheet = self.wanted.sheet.clone();
        let change = sheet.map(|sheet| (name.to_string(), Thing::File(sheet)));
        self.changes.extend(change);
        self
    }

    /// The run with another standard input.
    pub fn reading(self, input: Input) -> Run {
        Run { input, ..self }
    }

    /// The run, started by the command with these words.
    pub fn started(self, words: &[&str]) -> Run {
        let start = words.iter().map(|word| word.to_string()).collect();
        Run { start, ..self }
    }
}

impl Place {
    /// The path of a name in the folder.
    pub fn path(&self, name: &str) -> String {
        format!("{}/{name}", self.folder)
    }

    /// Makes a file; its path.
    pub fn put(&self, name: &str, bytes: &[u8]) -> String {
        let path = self.path(name);
        fs::write(&path, bytes).unwrap_or_else(|wrong| panic!("{path}: {wrong}"));
        path
    }

    /// Makes a folder; its path.
    pub fn put_folder(&self, name: &str) -> String {
        let path = self.path(name);
        fs::create_dir(&path).unwrap_or_else(|wrong| panic!("{path}: {wrong}"));
        path
    }
}

impl Maker {
    /// What makes cases from a seed, in a folder.
    pub fn new(folder: &str, seed: u64) -> Maker {
        Maker {
            version: Version::new(),
            random: Random(seed),
            cases: vec![],
            folder: folder.to_string(),
            places: 0,
        }
    }

    /// Another folder.
    pub fn place(&mut self) -> Place {
        let folder = format!("{}/{}", self.folder, self.places);
        self.places += 1;
        fs::create_dir(&folder).unwrap_or_else(|wrong| panic!("{folder}: {wrong}"));
        Place { folder }
    }

    /// Lets everyone enter the folder of all folders.
    pub fn open(&self) {
        let opened = fs::set_permissions(&self.folder, Permissions::from_mode(0o755));
        opened.unwrap_or_else(|wrong| panic!("{}: {wrong}", self.folder));
    }

    /// What the second version wants of a command about this sheet.
    pub fn wanted(&self, command: &Command, sheet: &[u8]) -> Wanted {
        self.version.wanted(&command.words, &command.text, sheet)
    }

    /// Adds a case: runs one after another in a folder.
    pub fn case(&mut self, place: Place, runs: Vec<Run>) {
        let folder = place.folder;
        self.cases.push(Case { folder, runs });
    }

    /// A run of a command about a path, whose file of this name holds this sheet.
    pub fn run(&self, command: &Command, path: &str, name: &str, sheet: &[u8]) -> Run {
        let wanted = self.wanted(command, sheet);
        command.run(path, wanted).changing(name)
    }

    /// Adds a case: a file with this sheet, and commands about it one after another.
    pub fn row(&mut self, sheet: &[u8], commands: &[Command]) {
        let place = self.place();
        let path = place.put(NAME, sheet);
        let (mut sheet, mut runs) = (sheet.to_vec(), vec![]);
        for command in commands {
            let run = self.run(command, &path, NAME, &sheet);
            sheet = run.wanted.sheet.clone().unwrap_or(sheet);
            runs.push(run);
        }
        self.case(place, runs);
    }

    /// Adds a case for each command: a file with this sheet, and the one command about it.
    pub fn each(&mut self, sheet: &[u8], commands: &[Command]) {
        for command in commands {
            self.row(sheet, std::slice::from_ref(command));
        }
    }
}
