//! One run of the program: what it is given, and everything that it leaves.

use std::fs::{remove_file, File, OpenOptions};
use std::io::{pipe, PipeWriter, Read, Seek, Write};
use std::os::fd::OwnedFd;
use std::os::unix::net::UnixStream;
use std::os::unix::process::ExitStatusExt;
use std::process::{Child, ChildStdin, Command, ExitStatus, Stdio};
use std::thread::{current, sleep, spawn, JoinHandle};
use std::time::{Duration, Instant};

/// How long the program may take.
const LIMIT: Duration = Duration::from_secs(20);

/// The end of a program that took longer.
pub const LATE: i32 = i32::MIN;

/// The bytes that the limit of a file counts as one.
pub const BLOCK: usize = 512;

/// Where standard input comes from.
#[derive(Clone, Debug)]
pub enum Input {
    /// A pipe with these pieces, a pause before each and before the end.
    Pieces(Vec<Vec<u8>>, Duration),
    /// What stands at a path.
    Path(&'static str),
    /// What is open for writing alone.
    Unreadable,
    Closed,
    /// These bytes, and then a read that fails.
    Broken(Vec<u8>),
}

/// Where standard output goes.
#[derive(Clone, Debug)]
pub enum Output {
    Pipe,
    Full,
    Closed,
    /// A pipe that nothing reads.
    Broken,
    /// A file that takes so many blocks: what is written beyond them fails.
    Limited(usize),
}

/// What a run leaves: both outputs, and how it ended, with 0 for status 0, with the number of a signal
/// below 0, and with `LATE` if it had to be ended.
#[derive(PartialEq)]
pub struct Left {
    pub output: Vec<u8>,
    pub errors: Vec<u8>,
    pub end: i32,
}

/// These bytes through a pipe, in one piece.
pub fn whole(bytes: &[u8]) -> Input {
    Input::Pieces(vec![bytes.to_vec()], Duration::ZERO)
}

/// What is left by a run that ends with status 0 and writes these texts.
pub fn left(printed: &str, errors: &str) -> Left {
    Left {
        output: printed.into(),
        errors: errors.into(),
        end: 0,
    }
}

/// The command, to which arguments can be added: a shell closes what is to be closed, and sets the
/// limit of a file.
fn command(program: &str, input: &Input, output: &Output) -> Command {
    let limit = match output {
        Output::Limited(blocks) => format!("trap '' XFSZ && ulimit -f {blocks} && "),
        _ => String::new(),
    };
    let close = match (input, output) {
        (Input::Closed, Output::Closed) => "<&- >&-",
        (Input::Closed, _) => "<&-",
        (_, Output::Closed) => ">&-",
        _ => "",
    };
    if limit.is_empty() && close.is_empty() {
        return Command::new(program);
    }
    let script = format!("{limit}exec \"$0\" \"$@\" {close}");
    let mut command = Command::new("sh");
    command.args(["-c", &script, program]);
    command
}

/// An end of a connection from which these bytes are read before a read fails: the other end is
/// closed after them, with a byte unread. They are written while the program runs, since the
/// connection may hold fewer.
fn broken(bytes: &[u8]) -> std::io::Result<Stdio> {
    let (mut near, mut far) = UnixStream::pair()?;
    near.write_all(&[0])?;
    let bytes = bytes.to_vec();
    spawn(move || far.write_all(&bytes));
    Ok(OwnedFd::from(near).into())
}

/// Standard input for a run.
fn standard_input(input: &Input) -> std::io::Result<Stdio> {
    match input {
        Input::Pieces(..) => Ok(Stdio::piped()),
        Input::Path(path) => Ok(File::open(path)?.into()),
        Input::Unreadable => Ok(OpenOptions::new().write(true).open("/dev/null")?.into()),
        Input::Closed => Ok(Stdio::null()),
        Input::Broken(bytes) => broken(bytes),
    }
}

/// An empty file, which has no name any more.
fn unnamed() -> std::io::Result<File> {
    let name = format!("edges-{}-{:?}", std::process::id(), current().id());
    let path = std::env::temp_dir().join(name);
    let file = File::options()
        .read(true)
        .write(true)
        .create_new(true)
        .open(&path)?;
    remove_file(&path)?;
    Ok(file)
}

/// An end of a pipe that nothing reads: the other end is closed, also in programs that were about to
/// start.
fn unread() -> std::io::Result<PipeWriter> {
    let (reader, mut writer) = pipe()?;
    drop(reader);
    while writer.write_all(&[0]).is_ok() {
        sleep(Duration::from_micros(300));
    }
    Ok(writer)
}

/// Standard output for a run, and the file that is to be read after it, if there is one.
fn standard_output(output: &Output) -> std::io::Result<(Stdio, Option<File>)> {
    let stdio = match output {
        Output::Pipe => Stdio::piped(),
        Output::Full => OpenOptions::new().write(true).open("/dev/full")?.into(),
        Output::Closed => Stdio::null(),
        Output::Broken => unread()?.into(),
        Output::Limited(_) => {
            let file = unnamed()?;
            return Ok((file.try_clone()?.into(), Some(file)));
        }
    };
    Ok((stdio, None))
}

/// Writes pieces to the program, as long as it reads.
fn feed(mut pipe: ChildStdin, pieces: Vec<Vec<u8>>, pause: Duration) {
    for piece in pieces {
        sleep(pause);
        if pipe.write_all(&piece).is_err() {
            return;
        }
    }
    sleep(pause);
}

/// How the program ended; none if it had to be ended.
fn ended(child: &mut Child) -> std::io::Result<Option<ExitStatus>> {
    let start = Instant::now();
    while start.elapsed() < LIMIT {
        if let Some(status) = child.try_wait()? {
            return Ok(Some(status));
        }
        sleep(Duration::from_micros(300));
    }
    child.kill()?;
    child.wait()?;
    Ok(None)
}

/// The status with which the program ended, or the number of a signal, below 0.
fn number(status: ExitStatus) -> i32 {
    let signal = status.signal().unwrap_or_default();
    status.code().unwrap_or(-signal)
}

/// Takes everything that an output holds, if there is one, while the program runs.
fn taken(output: Option<impl Read + Send + 'static>) -> JoinHandle<std::io::Result<Vec<u8>>> {
    spawn(|| {
        let mut bytes = vec![];
        if let Some(mut output) = output {
            output.read_to_end(&mut bytes)?;
        }
        Ok(bytes)
    })
}

/// Runs the program with these arguments.
pub fn run(
    program: &str,
    words: &[String],
    input: &Input,
    output: &Output,
) -> std::io::Result<Left> {
    let (stdout, file) = standard_output(output)?;
    let mut child = command(program, input, output)
        .args(words)
        .stdin(standard_input(input)?)
        .stdout(stdout)
        .stderr(Stdio::piped())
        .spawn()?;
    if let (Input::Pieces(pieces, pause), Some(pipe)) = (input.clone(), child.stdin.take()) {
        spawn(move || feed(pipe, pieces, pause));
    }
    let (output, errors) = (taken(child.stdout.take()), taken(child.stderr.take()));
    let status = ended(&mut child)?;
    let mut printed = output.join().expect("the thread ends")?;
    if let Some(mut file) = file {
        file.rewind()?;
        file.read_to_end(&mut printed)?;
    }
    Ok(Left {
        output: printed,
        errors: errors.join().expect("the thread ends")?,
        end: status.map_or(LATE, number),
    })
}

/// What the program for tables prints for n and a table, without the line feed.
pub fn line_of(drawmitten: &str, n: u8, table: &[u8]) -> String {
    let asked = whole(&[&[n], table].concat());
    let left = run(drawmitten, &[], &asked, &Output::Pipe);
    let left = left.unwrap_or_else(|wrong| panic!("{drawmitten} is not run: {wrong}"));
    let line = String::from_utf8(left.output).expect("a line of ASCII");
    line.trim_end_matches('\n').to_string()
}
