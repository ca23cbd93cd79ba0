//! Runs ABC, which writes covers for the desk, where it is installed.

use std::process::Command;

/// The program, as Debian's package of this name has it.
const PROGRAM: &str = "berkeley-abc";

/// ABC, with a folder for its files.
pub struct Abc {
    folder: String,
}

/// What a run of ABC says, or none if there is no ABC.
fn run(commands: &str) -> Option<String> {
    let ran = Command::new(PROGRAM).args(["-q", commands]).output().ok()?;
    let said = [ran.stdout, ran.stderr].concat();
    Some(String::from_utf8_lossy(&said).into_owned())
}

impl Abc {
    /// ABC, if it is installed; if not, that is said.
    pub fn found(folder: &str) -> Option<Abc> {
        if run("quit").is_none() {
            println!("Covers of ABC are not read back: {PROGRAM} is not installed.");
            return None;
        }
        let folder = folder.to_string();
        Some(Abc { folder })
    }

    /// A network in BLIF as ABC writes it after some commands. If it writes none, what it says is
    /// printed.
    pub fn rewritten(&self, network: &str, commands: &str) -> Option<String> {
        let path = |name: &str| format!("{}/{name}.blif", self.folder);
        let (given, written) = (path("given"), path("written"));
        std::fs::write(&given, network).expect("the folder is there");
        let _ = std::fs::remove_file(&written);
        let said = run(&format!(
            "read_blif {given}; {commands}; write_blif {written}"
        ));
        let text = std::fs::read_to_string(&written).ok();
        if text.is_none() {
            println!("ABC, told \"{commands}\", writes nothing: {}", said?.trim());
        }
        text
    }
}
