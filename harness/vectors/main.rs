//! Writes the oracle's answers as a fixed list: one file a call, as FORMAT.md says.
//!
//!     vectors FOLDER
//!
//! FOLDER is made anew beside itself and then put in place, so nothing half-written is left.
mod cover;
mod draw;
mod lists;

use calls::words::Slot;
use draw::Draw;
use lists::List;
use std::collections::HashSet;
use std::fs;
use std::io::{self, BufWriter, Write};
use std::path::Path;

fn words(slots: &[Slot]) -> String {
    let mut all = Vec::new();
    for slot in slots {
        match slot {
            Slot::Word(n) => all.push(*n),
            Slot::Places(places) => {
                all.push(places.len() as u64);
                all.extend(places);
            }
        }
    }
    all.iter().map(|n| format!("{n:016X}")).collect::<Vec<_>>().join(" ")
}

/// A line for each case that has not come before: arguments, a tab, the answer; of a call without arguments the answer alone.
fn write_list(list: &List, seed: u64, path: &Path) -> io::Result<usize> {
    let mut out = BufWriter::new(fs::File::create(path)?);
    let mut seen = HashSet::new();
    for case in (list.cases)(&mut Draw::seeded(seed)) {
        let arguments = words(&case);
        if seen.contains(&arguments) {
            continue;
        }
        let tab = if case.is_empty() { "" } else { "\t" };
        writeln!(out, "{arguments}{tab}{}", words(&(list.answer)(&case)))?;
        seen.insert(arguments);
    }
    out.flush()?;
    Ok(seen.len())
}

fn write_all(folder: &Path) -> io::Result<()> {
    let fresh = folder.with_extension("fresh");
    let _ = fs::remove_dir_all(&fresh);
    fs::create_dir_all(&fresh)?;
    let mut lines = 0;
    for (number, list) in lists::ALL.iter().enumerate() {
        lines += write_list(list, 1 + number as u64, &fresh.join(format!("{}.txt", list.name)))?;
    }
    lists::reference::check_turned();
    lists::sub_steps::check_counts();
    lists::lowest::check_searches();
    let _ = fs::remove_dir_all(folder);
    fs::rename(&fresh, folder)?;
    println!("vectors: {} lists, {lines} lines", lists::ALL.len());
    Ok(())
}

fn main() {
    let mut given = std::env::args_os().skip(1);
    let (Some(folder), None) = (given.next(), given.next()) else {
        eprintln!("vectors: say which folder to write");
        std::process::exit(2);
    };
    if let Err(error) = write_all(Path::new(&folder)) {
        eprintln!("vectors: {error}");
        std::process::exit(1);
    }
}
