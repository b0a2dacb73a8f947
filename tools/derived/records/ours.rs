//! Reads records from standard input, or reads and writes them, as the first argument says. It ends with status 1 where
//! that fails, or where what is written is not the text that was read. (Rattle)
#![tactic(auto)]

mod by_hand;
mod records;

use basic_toml_serde::{from_str, to_string};
use by_hand::HandDocument;
use records::{Document, LentDocument};
use serde::{Deserialize, Serialize};
use std::alloc::Global;
use std::env;
use std::io;
use std::process::ExitCode;

fn main(rt: HostRuntime) -> io::Result<ExitCode> {
    let mut arguments = env::args(&rt)?;
    let _program = arguments.next();
    let word = arguments.next();
    let what = word.as_ref().map_or("", |word| word.as_str());
    let text = io::read_to_string(rt.alloc(), rt.reader())?;
    if went_well(rt.alloc(), what, text.as_str()) {
        Ok(ExitCode::SUCCESS)
    } else {
        Ok(ExitCode::FAILURE)
    }
}

fn went_well(alloc: Global, what: &str, text: &str) -> bool {
    match what {
        "read" => is_read::<Document>(alloc, text),
        "read-borrowed" => is_read::<LentDocument>(alloc, text),
        "read-by-hand" => basic_toml::from_str::<HandDocument>(alloc, text).is_ok(),
        "write" => is_written::<Document>(alloc, text),
        "write-borrowed" => is_written::<LentDocument>(alloc, text),
        "write-by-hand" => is_written_by_hand(alloc, text),
        _ => false,
    }
}

fn is_read<'a, T: Deserialize<'a>>(alloc: Global, text: &'a str) -> bool {
    from_str::<T>(alloc, text).is_ok()
}

fn is_written<'a, T: Deserialize<'a> + Serialize>(alloc: Global, text: &'a str) -> bool {
    match from_str::<T>(alloc, text) {
        Ok(document) => match to_string(alloc, &document) {
            Ok(written) => written.as_str() == text,
            Err(_) => false,
        },
        Err(_) => false,
    }
}

fn is_written_by_hand(alloc: Global, text: &str) -> bool {
    match basic_toml::from_str::<HandDocument>(alloc, text) {
        Ok(document) => match basic_toml::to_string(alloc, &document) {
            Ok(written) => written.as_str() == text,
            Err(_) => false,
        },
        Err(_) => false,
    }
}
