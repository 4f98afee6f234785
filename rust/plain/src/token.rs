//! Tokens: blanks, comments, strings, names, number runs, `/begin`, `/end`,
//! and the items of skipped blocks.
use crate::{refuse, Refusal};

/// A stretch of the text: its first byte and the one past it.
#[derive(Clone, Copy, PartialEq, Eq, Debug)]
pub struct Span {
    pub from: usize,
    pub past: usize,
}

/// What a token is; `Item` comes only from skipped blocks.
#[derive(Clone, Copy, PartialEq, Eq, Debug)]
pub enum Kind {
    Name,
    Number,
    Text,
    Begin,
    End,
    Item,
    Finish,
}

/// One token and where it stands.
#[derive(Clone, Copy, Debug)]
pub struct Token {
    pub kind: Kind,
    pub span: Span,
}

/// The reader's place in the text.
pub struct Lexer<'a> {
    pub text: &'a [u8],
    pub at: usize,
}

/// Tells whether a byte is a blank.
fn is_blank(byte: u8) -> bool {
    matches!(byte, b' ' | b'\t' | b'\r' | b'\n')
}

/// Tells whether a byte may stand inside a name.
fn in_name(byte: u8) -> bool {
    byte.is_ascii_alphanumeric() || matches!(byte, b'_' | b'.' | b'[' | b']')
}

impl<'a> Lexer<'a> {
    /// Tells whether a comment starts at a place.
    fn comment_at(&self, at: usize) -> bool {
        self.text.get(at) == Some(&b'/') && matches!(self.text.get(at + 1), Some(b'/' | b'*'))
    }

    /// Tells whether a run may end at a place: a blank, a quote, a comment or the end.
    fn parted_at(&self, at: usize) -> bool {
        match self.text.get(at) {
            None | Some(b'"') => true,
            Some(&byte) => is_blank(byte) || self.comment_at(at),
        }
    }

    /// Moves past blanks and comments.
    fn skip_blanks(&mut self) -> Result<(), Refusal> {
        loop {
            while self.at < self.text.len() && is_blank(self.text[self.at]) {
                self.at += 1;
            }
            if !self.comment_at(self.at) {
                return Ok(());
            }
            let start = self.at;
            if self.text[start + 1] == b'/' {
                while self.at < self.text.len() && self.text[self.at] != b'\n' {
                    self.at += 1;
                }
            } else {
                self.at += 2;
                loop {
                    if self.at + 1 >= self.text.len() {
                        return refuse(1, start);
                    }
                    if self.text[self.at] == b'*' && self.text[self.at + 1] == b'/' {
                        break;
                    }
                    self.at += 1;
                }
                self.at += 2;
            }
        }
    }

    /// Takes the string whose opening quote stands at the place.
    fn take_string(&mut self) -> Result<Token, Refusal> {
        let from = self.at;
        let mut at = from + 1;
        loop {
            let next_is_quote = self.text.get(at + 1) == Some(&b'"');
            match self.text.get(at) {
                None => return refuse(1, from),
                Some(b'\\') if next_is_quote => at += 2,
                Some(b'"') if next_is_quote => at += 2,
                Some(b'"') => break,
                Some(_) => at += 1,
            }
        }
        Ok(self.token(Kind::Text, from, at + 1))
    }

    /// Moves to a token's end and hands the token back.
    fn token(&mut self, kind: Kind, from: usize, past: usize) -> Token {
        self.at = past;
        Token { kind, span: Span { from, past } }
    }

    /// Finds the end of the run that starts at a place; a byte not allowed in it is 1.
    fn run_end(&self, from: usize) -> Result<usize, Refusal> {
        let mut past = from;
        while !self.parted_at(past) {
            past += 1;
        }
        if self.text[from..past].iter().any(|byte| !(33..=126).contains(byte)) {
            return refuse(1, from);
        }
        Ok(past)
    }

    /// Takes the next token outside skipped blocks.
    pub fn next(&mut self) -> Result<Token, Refusal> {
        self.skip_blanks()?;
        let from = self.at;
        let Some(&byte) = self.text.get(from) else {
            return Ok(self.token(Kind::Finish, from, from));
        };
        if byte == b'"' {
            return self.take_string();
        }
        if byte.is_ascii_alphabetic() || byte == b'_' {
            let mut past = from + 1;
            while past < self.text.len() && in_name(self.text[past]) {
                past += 1;
            }
            if !self.parted_at(past) || past - from > 128 {
                return refuse(1, from);
            }
            return Ok(self.token(Kind::Name, from, past));
        }
        if byte.is_ascii_digit() || matches!(byte, b'+' | b'-' | b'.') {
            let past = self.run_end(from)?;
            return Ok(self.token(Kind::Number, from, past));
        }
        let rest = &self.text[from..];
        if rest.starts_with(b"/begin") && self.parted_at(from + 6) {
            return Ok(self.token(Kind::Begin, from, from + 6));
        }
        if rest.starts_with(b"/end") && self.parted_at(from + 4) {
            return Ok(self.token(Kind::End, from, from + 4));
        }
        refuse(1, from)
    }

    /// Takes the next item or string of a skipped block.
    pub fn next_item(&mut self) -> Result<Token, Refusal> {
        self.skip_blanks()?;
        let from = self.at;
        if from >= self.text.len() {
            return Ok(self.token(Kind::Finish, from, from));
        }
        if self.text[from] == b'"' {
            return self.take_string();
        }
        let past = self.run_end(from)?;
        Ok(self.token(Kind::Item, from, past))
    }
}
