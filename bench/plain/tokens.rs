//! The lines of an assembler text, and the tokens of a line.

/// The longest name, without its dot or colon.
const LONGEST_NAME: usize = 32;

#[derive(Clone, Copy, PartialEq, Eq)]
pub enum Token<'t> {
    Name(&'t str),
    /// A name with a colon after it.
    Definition(&'t str),
    /// A name with a dot before it.
    Directive(&'t str),
    /// A number. One that is too large for 64 bits is the largest of them: no operand may be as large.
    Number(u64),
    Bad,
}

/// The lines of a text. No line begins after a line feed that ends the text.
pub fn lines(text: &[u8]) -> impl Iterator<Item = &[u8]> {
    let before_end = text.strip_suffix(b"\n").unwrap_or(text);
    let most = if text.is_empty() { 0 } else { usize::MAX };
    before_end.split(|byte| *byte == b'\n').take(most)
}

/// The tokens of a line, up to its comment.
pub fn tokens(line: &[u8]) -> impl Iterator<Item = Token<'_>> {
    let code = line.split(|byte| *byte == b';').next().unwrap_or(line);
    code.split(|byte| matches!(byte, b' ' | b'\t' | b'\r' | b','))
        .filter(|bytes| !bytes.is_empty())
        .map(|bytes| std::str::from_utf8(bytes).map_or(Token::Bad, token))
}

fn token(text: &str) -> Token<'_> {
    let definition = text.strip_suffix(':').filter(|name| is_name(name));
    let directive = text.strip_prefix('.').filter(|name| is_name(name));
    if is_name(text) {
        Token::Name(text)
    } else if let Some(name) = definition {
        Token::Definition(name)
    } else if let Some(name) = directive {
        Token::Directive(name)
    } else {
        number(text).map_or(Token::Bad, Token::Number)
    }
}

fn is_name(text: &str) -> bool {
    let is_letter = |byte: &u8| byte.is_ascii_alphabetic() || *byte == b'_';
    let bytes = text.as_bytes();
    bytes.len() <= LONGEST_NAME
        && bytes.first().is_some_and(is_letter)
        && bytes
            .iter()
            .all(|byte| is_letter(byte) || byte.is_ascii_digit())
}

fn number(text: &str) -> Option<u64> {
    let (digits, radix) = match text.strip_prefix("0x") {
        Some(digits) => (digits, 16),
        None => (text, 10),
    };
    let is_number = !digits.is_empty() && digits.chars().all(|digit| digit.is_digit(radix));
    is_number.then(|| u64::from_str_radix(digits, radix).unwrap_or(u64::MAX))
}
