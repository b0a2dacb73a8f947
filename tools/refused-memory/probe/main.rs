//! Makes calls on a text and prints what each answers; what it does itself takes no memory.
//!
//! The first line of standard input says which calls, and the others are the text: `tokens`, `reading`, `typed`,
//! `writing`, `pushing` (of the text's lines as keys) or `calling`. `tools/refused-memory` runs it while memory is
//! refused.
#![tactic(auto)]

mod calling;
mod pushing;
mod show;
mod texts;
mod tokens;
mod typed;

use std::io::{self, Read};
use std::str;

const ROOM: usize = 4096;

fn main(rt: HostRuntime) -> io::Result<()> {
    let mut room = [0u8; ROOM];
    let mut filled = 0usize;
    let mut reader = rt.reader();
    for _ in 0..ROOM {
        let Some(rest) = room.get_mut(filled..) else {
            break;
        };
        filled = filled.saturating_add(reader.read(rest)?);
    }
    let input = str::from_utf8(room.get(..filled).unwrap_or(&[])).unwrap_or("");
    let (which, text) = input.split_once('\n').unwrap_or((input, ""));
    match which {
        "tokens" => tokens::each(&rt, rt.alloc(), text),
        "reading" => texts::reading(&rt, rt.alloc(), text),
        "typed" => typed::each(&rt, rt.alloc(), text),
        "writing" => texts::writing(&rt, rt.alloc(), text),
        "pushing" => pushing::each(&rt, rt.alloc(), text),
        "calling" => calling::each(&rt, rt.alloc()),
        _ => println!(rt; "no such calls"),
    }
}
