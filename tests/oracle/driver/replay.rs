//! Plays the stored histories on the port and holds it to the Rust's answers in them. The original is not needed.

#![allow(dead_code)] // the programs share files, and each uses a part of them

mod call;
mod image;
mod port;
mod shape;
mod stored;

use std::ffi::OsStr;
use std::path::Path;
use std::process::ExitCode;

use port::Port;
use stored::{StoredCall, StoredHistory};

fn main() -> ExitCode {
    let folder = match std::env::args().nth(1) {
        Some(folder) => folder,
        None => {
            eprintln!("replay: name the folder of stored histories");
            return ExitCode::from(2);
        }
    };
    match replay_folder(Path::new(&folder)) {
        Ok((histories, calls)) => {
            println!("replay: {histories} stored histories, {calls} calls, the port agrees with all");
            ExitCode::SUCCESS
        }
        Err(what) => {
            println!("MISMATCH with a stored history. {what}");
            ExitCode::FAILURE
        }
    }
}

fn replay_folder(folder: &Path) -> Result<(usize, usize), String> {
    let entries = std::fs::read_dir(folder).map_err(|e| format!("{}: {e}", folder.display()))?;
    let mut paths: Vec<_> = entries.flatten().map(|entry| entry.path()).collect();
    paths.retain(|path| path.extension() == Some(OsStr::new("txt")));
    paths.sort();
    let (mut histories, mut calls) = (0, 0);
    for path in paths {
        let at_file = |what: String| format!("{}: {what}", path.display());
        let text = std::fs::read_to_string(&path).map_err(|e| at_file(e.to_string()))?;
        for history in stored::parse(&text).map_err(at_file)? {
            replay(&history).map_err(|what| at_file(format!("history {}, {what}", history.name)))?;
            histories += 1;
            calls += history.calls.len();
        }
    }
    if calls == 0 {
        return Err(format!("{}: no stored calls; make them with `run.py make-stored`", folder.display()));
    }
    Ok((histories, calls))
}

fn replay(history: &StoredHistory) -> Result<(), String> {
    let mut port = Port::new();
    for (at, stored) in history.calls.iter().enumerate() {
        replay_call(&mut port, stored).map_err(|what| format!("call {} `{}`: {what}", at + 1, stored.call))?;
    }
    let shape = port.shape()?;
    if shape.total != history.total || shape.listing() != history.ranges {
        let (total, listing) = (shape.total, shape.listing());
        return Err(format!(
            "at its end: the port has total {total} and lists {listing:?}, the Rust {} and {:?}",
            history.total, history.ranges
        ));
    }
    Ok(())
}

fn replay_call(port: &mut Port, stored: &StoredCall) -> Result<(), String> {
    let before = port.clone();
    let answer = port.play(stored.call);
    if answer != stored.answer {
        let (answer, judged) = (answer.printed_for(&stored.call), stored.answer.printed_for(&stored.call));
        return Err(format!("the port says `{answer}`, the Rust said `{judged}`"));
    }
    if !answer.is_accepted() && port.image != before.image {
        return Err("the port refused and yet changed bytes of the image".to_string());
    }
    let shape = port.shape()?;
    if shape.checksum() != stored.checksum {
        return Err(format!(
            "same answer, but total, record numbers or links differ from the Rust's; the port lists {:?}. \
             `run.py play` shows where, if the original is at hand",
            shape.listing()
        ));
    }
    Ok(())
}
