//! The first pass: a source as tokens.
use super::refusal::{At, Cause, Refused};

#[derive(Clone, Copy, Debug)]
pub struct Token<'a> {
    pub at: At,
    pub text: &'a str,
}

/// The tokens of a source, and the place one past its last byte.
pub fn tokens(source: &[u8]) -> Result<(Vec<Token<'_>>, At), Refused> {
    let mut tokens = Vec::new();
    let mut at = At { line: 1, column: 1 };
    let mut in_comment = false;
    let mut begun: Option<(usize, At)> = None;
    for (i, byte) in source.iter().enumerate() {
        in_comment |= *byte == b'#';
        let is_blank = in_comment || matches!(byte, b' ' | b'\t' | b'\n' | b'\r');
        if !is_blank && !(0x21..=0x7e).contains(byte) {
            return Err((at, Cause::Lexical));
        }
        if !is_blank {
            begun = begun.or(Some((i, at)));
        } else if let Some((start, at)) = begun.take() {
            tokens.push(Token { at, text: text(&source[start..i]) });
        }
        at.column += 1;
        if *byte == b'\n' {
            at = At { line: at.line + 1, column: 1 };
            in_comment = false;
        }
    }
    if let Some((start, at)) = begun {
        tokens.push(Token { at, text: text(&source[start..]) });
    }
    Ok((tokens, at))
}

fn text(bytes: &[u8]) -> &str {
    std::str::from_utf8(bytes).expect("a token's bytes are ASCII")
}
