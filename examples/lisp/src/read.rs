//! Reads expressions: numbers, strings, symbols, lists and `'`. `;` begins a comment.

use crate::{copy, fault, Lisp, Result, Value, CDR};
use std::iter::Peekable;
use std::num::IntErrorKind::{NegOverflow, PosOverflow};
use std::str::Chars;

// What follows a \ in a string, with the character that it means.
const ESCAPES: [(char, char); 4] = [('n', '\n'), ('t', '\t'), ('"', '"'), ('\\', '\\')];

/// The string that is written like this.
pub(crate) fn quoted(text: &str) -> String {
    let mut quoted = String::from("\"");
    for it in text.chars() {
        match ESCAPES.iter().find(|escape| escape.1 == it) {
            Some((letter, _)) => quoted.extend(['\\', *letter]),
            None => quoted.push(it),
        }
    }
    quoted + "\""
}

enum Token {
    Open,
    Close,
    Quote,
    Text(String),
    Word(String),
}

// A list that is being read, or a ' and what follows it, which is a list too.
#[derive(Default)]
struct Open<'r> {
    first: Value<'r>,
    last: Value<'r>,
    is_quote: bool,
}

impl<'r> Open<'r> {
    fn append(&mut self, item: Value<'r>, lisp: &mut Lisp<'r>) -> Result<()> {
        let pair = lisp.pair(&item, &None)?;
        if self.first.is_none() {
            self.first = copy(&pair)?;
        } else {
            lisp.store(&self.last, CDR, &pair)?;
        }
        self.last = pair;
        Ok(())
    }
}

// Puts a value into the innermost list that is open. Returns it if none is.
fn put_in<'r>(
    value: Value<'r>,
    open: &mut Vec<Open<'r>>,
    lisp: &mut Lisp<'r>,
) -> Result<Option<Value<'r>>> {
    let mut value = value;
    while let Some(mut list) = open.pop() {
        list.append(value, lisp)?;
        if !list.is_quote {
            open.push(list);
            return Ok(None);
        }
        value = list.first;
    }
    Ok(Some(value))
}

fn atom<'r>(word: &str, lisp: &mut Lisp<'r>) -> Result<Value<'r>> {
    match word.parse::<i64>() {
        Ok(number) => lisp.number(Some(number)),
        Err(it) if matches!(it.kind(), PosOverflow | NegOverflow) => lisp.number(None),
        Err(_) => lisp.symbol(word),
    }
}

pub(crate) struct Reader<'t> {
    rest: Peekable<Chars<'t>>,
}

impl<'t> Reader<'t> {
    pub(crate) fn new(text: &'t str) -> Self {
        Reader { rest: text.chars().peekable() }
    }

    /// The next expression, or nothing at the end of the text.
    pub(crate) fn next<'r>(&mut self, lisp: &mut Lisp<'r>) -> Result<Option<Value<'r>>> {
        let mut open: Vec<Open<'r>> = Vec::new();
        loop {
            let value = match self.token()? {
                None => match open.last() {
                    None => return Ok(None),
                    Some(list) if list.is_quote => return fault("nothing follows '"),
                    Some(_) => return fault("a ) is missing"),
                },
                Some(Token::Open) => {
                    open.push(Open::default());
                    continue;
                }
                Some(Token::Quote) => {
                    let mut list = Open { is_quote: true, ..Open::default() };
                    list.append(lisp.symbol("quote")?, lisp)?;
                    open.push(list);
                    continue;
                }
                Some(Token::Close) => match open.pop() {
                    None => return fault("a ) is too much"),
                    Some(list) if list.is_quote => return fault("nothing follows '"),
                    Some(list) => list.first,
                },
                Some(Token::Text(text)) => lisp.string(&text)?,
                Some(Token::Word(word)) => atom(&word, lisp)?,
            };
            if let Some(whole) = put_in(value, &mut open, lisp)? {
                return Ok(Some(whole));
            }
        }
    }

    fn token(&mut self) -> Result<Option<Token>> {
        loop {
            return Ok(Some(match self.rest.next() {
                None => return Ok(None),
                Some(';') => {
                    self.rest.by_ref().find(|it| *it == '\n');
                    continue;
                }
                Some(it) if it.is_whitespace() => continue,
                Some('(') => Token::Open,
                Some(')') => Token::Close,
                Some('\'') => Token::Quote,
                Some('"') => Token::Text(self.string()?),
                Some(first) => Token::Word(self.word(first)),
            }));
        }
    }

    // The rest of a word, behind its first character.
    fn word(&mut self, first: char) -> String {
        let ends = |it: &char| it.is_whitespace() || "()'\";".contains(*it);
        let mut word = String::from(first);
        while let Some(it) = self.rest.next_if(|it| !ends(it)) {
            word.push(it);
        }
        word
    }

    // The rest of a string, behind its first ".
    fn string(&mut self) -> Result<String> {
        let mut text = String::new();
        loop {
            match self.rest.next() {
                None => return fault("a \" is missing"),
                Some('"') => return Ok(text),
                Some('\\') => text.push(self.escaped()?),
                Some(it) => text.push(it),
            }
        }
    }

    fn escaped(&mut self) -> Result<char> {
        let Some(letter) = self.rest.next() else { return fault("a \" is missing") };
        match ESCAPES.iter().find(|escape| escape.0 == letter) {
            Some((_, meant)) => Ok(*meant),
            None => fault(format!("\\{letter} isn't an escape")),
        }
    }
}
