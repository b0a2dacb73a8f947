//! Calls of a tokenizer.
use basic_toml::tokens::{Error, Token, Tokenizer};
use std::alloc::Global;
use std::io;

// More than a text here has tokens.
const MANY: usize = 1000;

/// Each call that can take memory, at each token in turn: what it answers, and where the tokenizer then stands. A call
/// of `next` that is refused memory is made once more.
pub(crate) fn each(rt: &impl Print, alloc: Global, text: &str) -> io::Result<()> {
    let mut tokens = Tokenizer::new(text);
    let mut was_refused = false;
    for _ in 0..MANY {
        if !was_refused {
            others(rt, alloc, &tokens)?;
        }
        let at = tokens.current();
        let answer = tokens.next(alloc);
        let after = tokens.current();
        println!(rt; "next at {at}: {answer:?}, then at {after}")?;
        let is_refused = matches!(&answer, Err(Error::OutOfMemory));
        if matches!(&answer, Ok(None)) || is_refused && was_refused {
            break;
        }
        was_refused = is_refused;
    }
    Ok(())
}

// The other calls, each on a copy, since what follows is the same whatever they answer.
fn others(rt: &impl Print, alloc: Global, tokens: &Tokenizer<'_>) -> io::Result<()> {
    let mut copy = tokens.clone().unwrap();
    let at = copy.current();
    let answer = copy.peek(alloc);
    let after = copy.current();
    println!(rt; "peek at {at}: {answer:?}, then at {after}")?;
    let mut copy = tokens.clone().unwrap();
    let answer = copy.eat_spanned(alloc, Token::Comma);
    let after = copy.current();
    println!(rt; "eat at {at}: {answer:?}, then at {after}")?;
    let mut copy = tokens.clone().unwrap();
    let answer = copy.expect_spanned(alloc, Token::Comma);
    let after = copy.current();
    println!(rt; "expect at {at}: {answer:?}, then at {after}")?;
    let mut copy = tokens.clone().unwrap();
    let answer = copy.table_key(alloc);
    let after = copy.current();
    println!(rt; "key at {at}: {answer:?}, then at {after}")?;
    let mut copy = tokens.clone().unwrap();
    let answer = copy.eat_newline_or_eof(alloc);
    let after = copy.current();
    println!(rt; "line end at {at}: {answer:?}, then at {after}")
}
