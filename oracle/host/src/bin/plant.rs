//! Plants one of the faults of `faults.txt` in a copy of this folder.
//! `plant count` says how many there are; `plant N FOLDER` makes FOLDER a copy
//! with fault N (0 for none) and prints the fault's name.

use std::{
    fs, io,
    path::{Path, PathBuf},
};

#[path = "../../../plank/stack-scheduling/sha256.rs"]
mod sha256;

/// What a copy needs to be built.
const PARTS: [&str; 6] = ["Cargo.toml", "Cargo.lock", "host", "job", "plank", "second"];

/// One fault: texts of one file that are replaced by others.
#[derive(Default)]
struct Fault {
    name: String,
    file: String,
    edits: Vec<(String, String)>,
}

fn faults(list: &str) -> Vec<Fault> {
    let mut faults: Vec<Fault> = Vec::new();
    let mut adding = true;
    for line in list.lines() {
        if let Some(name) = line.strip_prefix("fault ") {
            faults.push(Fault { name: name.to_owned(), ..Fault::default() });
            adding = true;
            continue;
        }
        let Some(fault) = faults.last_mut() else { continue };
        if let Some(file) = line.strip_prefix("in ") {
            fault.file = file.to_owned();
        } else if let Some(text) = line.strip_prefix('-') {
            if adding {
                fault.edits.push(Default::default());
            }
            adding = false;
            fault.edits.last_mut().expect("an edit was begun").0 += &format!("{text}\n");
        } else if let Some(text) = line.strip_prefix('+') {
            adding = true;
            fault.edits.last_mut().expect("the old text comes first").1 += &format!("{text}\n");
        }
    }
    faults
}

fn main() -> io::Result<()> {
    let faults = faults(&fs::read_to_string("faults.txt")?);
    let arguments: Vec<String> = std::env::args().skip(1).collect();
    match arguments.iter().map(String::as_str).collect::<Vec<_>>()[..] {
        ["count"] => println!("{}", faults.len()),
        [number, folder] => {
            let number: usize = number.parse().expect("the fault's number");
            let fault = number.checked_sub(1).map(|index| &faults[index]);
            plant(fault, Path::new(folder))?;
            println!("{}", fault.map_or("no fault", |fault| &fault.name));
        }
        _ => panic!("usage: plant count | plant N FOLDER"),
    }
    Ok(())
}

fn plant(fault: Option<&Fault>, folder: &Path) -> io::Result<()> {
    let mut files = Vec::new();
    for part in PARTS {
        collect(Path::new(part), &mut files)?;
    }
    for file in files {
        let mut bytes = fs::read(&file)?;
        if file.ends_with("plank/SHA256SUMS") {
            bytes = sums(&bytes, fault)?;
        }
        if let Some(fault) = fault.filter(|fault| file == Path::new(&fault.file)) {
            bytes = edited(&bytes, fault);
        }
        write_if_new(&folder.join(&file), &bytes)?;
    }
    Ok(())
}

fn collect(path: &Path, files: &mut Vec<PathBuf>) -> io::Result<()> {
    if path.is_file() {
        files.push(path.to_owned());
        return Ok(());
    }
    for entry in fs::read_dir(path)? {
        collect(&entry?.path(), files)?;
    }
    Ok(())
}

/// Leaves a file that is right already alone, so that little is built again.
fn write_if_new(path: &Path, bytes: &[u8]) -> io::Result<()> {
    if fs::read(path).is_ok_and(|old| old == bytes) {
        return Ok(());
    }
    fs::create_dir_all(path.parent().expect("a file is in a folder"))?;
    fs::write(path, bytes)
}

fn edited(bytes: &[u8], fault: &Fault) -> Vec<u8> {
    let mut text = String::from_utf8(bytes.to_vec()).expect("the sources are text");
    for (old, new) in &fault.edits {
        let places = text.matches(old.as_str()).count();
        assert!(
            places == 1,
            "{}: the old text stands {places} times in {}",
            fault.name,
            fault.file
        );
        text = text.replace(old.as_str(), new);
    }
    text.into_bytes()
}

/// The list of sums, with that of the faulty file in place of the original's.
fn sums(list: &[u8], fault: Option<&Fault>) -> io::Result<Vec<u8>> {
    let mut out = String::new();
    for line in String::from_utf8_lossy(list).lines() {
        let (sum, name) = line.split_once("  ").expect("a sum, two spaces, a name");
        let faulty = fault.filter(|fault| Path::new(&fault.file) == Path::new("plank").join(name));
        let sum = match faulty {
            Some(fault) => sha256::hex(&edited(&fs::read(&fault.file)?, fault)),
            None => sum.to_owned(),
        };
        out += &format!("{sum}  {name}\n");
    }
    Ok(out.into_bytes())
}
