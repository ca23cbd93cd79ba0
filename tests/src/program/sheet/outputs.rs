//! Outputs that cannot be written, that are closed, or that nothing reads: files are as they would be.

use crate::program::run::{Input, Output, BLOCK};
use crate::program::sheet::files::{additions, commands, two};
use crate::program::sheet::judge::Run;
use crate::program::sheet::made::{command, Maker, NAME, NEW};
use crate::program::sheet::second::{complaint, Said, Wanted};
use crate::program::sheet::sentences::{NOT_OPENED, NOT_PRINTED, THERE};
use crate::sheets::made::sheet;
use crate::sheets::second::MOST;

/// A script that starts the program, which stands first after it, without standard error.
const SILENT: [&str; 3] = ["sh", "-c", "exec \"$0\" \"$@\" 2>&-"];

/// The same with standard output in the place of standard error, and that in the place of the other.
const SWAPPED: [&str; 3] = ["sh", "-c", "exec \"$0\" \"$@\" 3>&1 1>&2 2>&3 3>&-"];

/// Scripts that start the program so that the signal of writing where nothing reads is ignored.
const IGNORING: [&str; 3] = ["sh", "-c", "trap '' PIPE && exec \"$0\" \"$@\""];
const IGNORING_SWAPPED: [&str; 3] = [
    "sh",
    "-c",
    "trap '' PIPE && exec \"$0\" \"$@\" 3>&1 1>&2 2>&3 3>&-",
];

/// What is wanted where nothing can be printed, of what would be wanted.
fn unprinted(wanted: Wanted) -> Wanted {
    let Said::Lines(mut said) = wanted.said else {
        return wanted;
    };
    if !wanted.printed.is_empty() {
        said.insert(0, NOT_PRINTED.to_string());
    }
    Wanted {
        printed: String::new(),
        said: Said::Lines(said),
        ..wanted
    }
}

/// The run without standard error.
fn silent(run: Run) -> Run {
    let said = Said::Lines(vec![]);
    let wanted = Wanted { said, ..run.wanted };
    Run { wanted, ..run }.started(&SILENT)
}

/// The run with this output, which takes nothing.
fn unwritten(run: Run, output: Output) -> Run {
    let wanted = unprinted(run.wanted);
    Run {
        output,
        wanted,
        ..run
    }
}

/// Standard output that is full or closed, and standard error that is closed.
fn one_closed(maker: &mut Maker) {
    let changes: [fn(Run) -> Run; 4] = [
        |run| unwritten(run, Output::Full),
        |run| unwritten(run, Output::Closed),
        silent,
        |run| silent(unwritten(run, Output::Closed)),
    ];
    for command in commands() {
        for change in changes {
            let place = maker.place();
            let run = maker.run(&command, &place.put(NAME, &two()), NAME, &two());
            maker.case(place, vec![change(run)]);
        }
    }
}

/// Everything is closed: a block's ten bytes are added all the same.
fn all_closed(maker: &mut Maker) {
    for command in additions().into_iter().filter(|one| one.text.is_empty()) {
        let place = maker.place();
        let run = maker.run(&command, &place.put(NAME, &two()), NAME, &two());
        let run = silent(unwritten(run, Output::Closed)).reading(Input::Closed);
        maker.case(place, vec![run]);
    }
}

/// An output that takes the first bytes of the longest list, and then fails.
fn limited(maker: &mut Maker) {
    let sheet = sheet(MOST, &mut maker.random);
    let list = command("list FILE");
    for blocks in [1, 100, 393, 394] {
        let place = maker.place();
        let run = maker.run(&list, &place.put(NAME, &sheet), NAME, &sheet);
        let (whole, room) = (run.wanted.printed.len(), BLOCK * blocks);
        let mut wanted = run.wanted.clone();
        if room < whole {
            wanted = unprinted(wanted);
            wanted.printed = run.wanted.printed[..room].to_string();
        }
        let output = Output::Limited(blocks);
        let run = Run {
            output,
            wanted,
            ..run
        };
        maker.case(place, vec![run]);
    }
}

/// The run with a standard error that nothing reads: its standard output is taken in the place of it.
pub fn unheard(run: Run) -> Run {
    let lines = run.wanted.printed.lines().map(str::to_string);
    let wanted = Wanted {
        printed: String::new(),
        said: Said::Lines(lines.collect()),
        ..run.wanted
    };
    let output = Output::Broken;
    Run {
        output,
        wanted,
        ..run
    }
    .started(&SWAPPED)
}

/// An output that nothing reads, with its signal and with that ignored, which is the same: where there
/// is a sheet, where there is none, and where FILE.new is there.
fn broken(maker: &mut Maker) {
    let changes: [fn(Run) -> Run; 4] = [
        |run| unwritten(run, Output::Broken),
        |run| unwritten(run, Output::Broken).started(&IGNORING),
        unheard,
        |run| unheard(run).started(&IGNORING_SWAPPED),
    ];
    for change in changes {
        for command in additions() {
            let place = maker.place();
            let run = maker.run(&command, &place.put(NAME, &two()), NAME, &two());
            maker.case(place, vec![change(run)]);
            let place = maker.place();
            let run = command.run(&place.path(NAME), complaint(NOT_OPENED));
            maker.case(place, vec![change(run)]);
            let place = maker.place();
            place.put(NEW, &two());
            let run = command.run(&place.put(NAME, &two()), complaint(THERE));
            maker.case(place, vec![change(run)]);
        }
    }
}

/// Every case about outputs.
pub fn all(maker: &mut Maker) {
    one_closed(maker);
    all_closed(maker);
    limited(maker);
    broken(maker);
}
