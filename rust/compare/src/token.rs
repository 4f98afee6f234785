//! The generator's tokens, and how they are put together into a text.
use crate::rng::Rng;

/// What a token stands for; damage is chosen by it.
#[derive(Clone, Copy, PartialEq, Eq, Debug)]
pub enum Kind {
    Begin,
    End,
    Keyword,
    Choice,
    Def,
    Ref,
    Deposit,
    Text,
    Item,
    Position,
    Points,
    Number,
    Uint,
    Address,
    Lower,
    Upper,
    Decimal,
    Coeff,
    Entry,
    Mask,
    Align,
    Pairs,
}

/// One token; where it is made with an exponent, also the same number without one.
#[derive(Clone, Debug)]
pub struct Token {
    pub kind: Kind,
    pub bytes: Vec<u8>,
    pub without: Option<Vec<u8>>,
}

/// A token of a kind.
pub fn token(kind: Kind, bytes: impl AsRef<[u8]>) -> Token {
    Token { kind, bytes: bytes.as_ref().to_vec(), without: None }
}

/// Takes the exponents out of a description: its tokens without them. Where a number's spellings are not of one
/// length, blanks follow the shorter, so that every token stands at the same place in both. None if it has none.
pub fn take_exponents_out(tokens: &mut [Token]) -> Option<Vec<Token>> {
    let mut others = tokens.to_vec();
    let mut any = false;
    for (one, other) in tokens.iter_mut().zip(&mut others) {
        if let Some(without) = one.without.clone() {
            let width = one.bytes.len().max(without.len());
            other.bytes = without;
            one.bytes.resize(width, b' ');
            other.bytes.resize(width, b' ');
            any = true;
        }
    }
    any.then_some(others)
}

/// A keyword.
pub fn keyword(word: &str) -> Token {
    token(Kind::Keyword, word)
}

/// A choice word.
pub fn choice(word: &str) -> Token {
    token(Kind::Choice, word)
}

/// A block: its tokens between begin and end.
pub fn block(word: &str, inside: Vec<Token>) -> Vec<Token> {
    let mut tokens = vec![token(Kind::Begin, "/begin"), keyword(word)];
    tokens.extend(inside);
    tokens.push(token(Kind::End, "/end"));
    tokens.push(keyword(word));
    tokens
}

/// What may stand between two tokens.
fn gap(before: &[u8], after: &[u8], rng: &mut Rng) -> Vec<u8> {
    let quoted = |bytes: &[u8]| bytes.first() == Some(&b'"');
    let may_touch = quoted(before) != quoted(after);
    let comment_may_touch = before.last() != Some(&b'/');
    match rng.below(40) {
        0..=3 if may_touch => Vec::new(),
        4 | 5 if comment_may_touch => b"/* c */".to_vec(),
        6 if comment_may_touch => b"// a \"comment /begin\r /end\r\n".to_vec(),
        7 => b"\t/*/ * \" **/ ".to_vec(),
        8 => b" // \xC3\xBC /* \n".to_vec(),
        9 => b" /**//***/\r\n".to_vec(),
        10..=14 => b"\n".to_vec(),
        15 => b"\r\n  ".to_vec(),
        16 | 17 => b"\t".to_vec(),
        18 => b"  \n\n\t ".to_vec(),
        _ => b" ".to_vec(),
    }
}

/// Puts tokens together, plainly or with odd gaps and comments.
pub fn render(tokens: &[Token], wild: bool, rng: &mut Rng) -> Vec<u8> {
    let mut text = Vec::new();
    if wild && rng.one_in(3) {
        text.extend(gap(b"", b"", rng));
    }
    for (at, token) in tokens.iter().enumerate() {
        text.extend(&token.bytes);
        let Some(next) = tokens.get(at + 1) else {
            break;
        };
        if wild {
            text.extend(gap(&token.bytes, &next.bytes, rng));
        } else {
            text.push(if next.kind == Kind::Begin { b'\n' } else { b' ' });
        }
    }
    match rng.below(4) {
        0 => text.extend(b"\n"),
        1 if wild => text.extend(gap(b"", b"", rng)),
        _ => {}
    }
    text
}
