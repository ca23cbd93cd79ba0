//! Folders in which the program runs: what stands in one, and what must stand there after a run.

use std::collections::BTreeMap;
use std::fs;
use std::path::{Path, PathBuf};

/// What stands under a name.
#[derive(Clone, PartialEq)]
pub enum Thing {
    File(Vec<u8>),
    Folder,
    Link(PathBuf),
    /// What is none of these, or cannot be read.
    Other,
}

/// Everything below a folder, by its name from there.
pub type Things = BTreeMap<String, Thing>;

/// The most bytes of a file that are shown.
const SHOWN: usize = 70;

/// What stands at a path.
fn thing(path: &Path) -> std::io::Result<Thing> {
    let kind = fs::symlink_metadata(path)?.file_type();
    if kind.is_symlink() {
        return Ok(Thing::Link(fs::read_link(path)?));
    }
    if kind.is_dir() {
        return Ok(Thing::Folder);
    }
    if !kind.is_file() {
        return Ok(Thing::Other);
    }
    Ok(fs::read(path).map_or(Thing::Other, Thing::File))
}

/// Puts down everything below a folder, under names that begin so.
fn gather(folder: &Path, before: &str, things: &mut Things) -> std::io::Result<()> {
    for entry in fs::read_dir(folder)? {
        let path = entry?.path();
        let last = path.file_name().expect("a name").to_string_lossy();
        let name = format!("{before}{last}");
        let thing = thing(&path)?;
        if thing == Thing::Folder {
            gather(&path, &format!("{name}/"), things)?;
        }
        things.insert(name, thing);
    }
    Ok(())
}

/// Everything below a folder.
pub fn things(folder: &str) -> Things {
    let mut things = Things::new();
    let gathered = gather(Path::new(folder), "", &mut things);
    gathered.unwrap_or_else(|wrong| panic!("{folder}: {wrong}"));
    things
}

/// What stands under a name, for a reader of a difference.
fn described(thing: Option<&Thing>) -> String {
    match thing {
        None => "nothing".to_string(),
        Some(Thing::File(bytes)) => {
            let last = &bytes[bytes.len().saturating_sub(SHOWN)..];
            format!("{} bytes, the last of them {last:02X?}", bytes.len())
        }
        Some(Thing::Folder) => "a folder".to_string(),
        Some(Thing::Link(to)) => format!("a link to {}", to.display()),
        Some(Thing::Other) => "what cannot be read".to_string(),
    }
}

/// The first name under which not the same stands, for a reader of a difference.
pub fn difference(are: &Things, wanted: &Things) -> Option<String> {
    let mut names = are.keys().chain(wanted.keys());
    let name = names.find(|name| are.get(*name) != wanted.get(*name))?;
    let [is, must] = [are, wanted].map(|things| described(things.get(name)));
    Some(format!("{name} is {is}, wanted: {must}"))
}
