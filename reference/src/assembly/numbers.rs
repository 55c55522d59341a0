//! Numbers and names within tokens.

const MOST_NAME: usize = 100;

/// A number of 1 to 20 decimal digits, or of `0x` and 1 to 16 hexadecimal ones.
pub fn number(text: &str) -> Option<u128> {
    let (digits, radix, most) = match text.strip_prefix("0x") {
        Some(digits) => (digits, 16, 16),
        None => (text, 10, 20),
    };
    let is_form = (1..=most).contains(&digits.len()) && digits.chars().all(|digit| digit.is_digit(radix));
    if is_form { u128::from_str_radix(digits, radix).ok() } else { None }
}

/// Whether a text may be a procedure's name.
pub fn is_procedure_name(text: &str) -> bool {
    is_name(text, |byte| byte.is_ascii_lowercase())
}

/// Whether a text may be a constant's name.
pub fn is_constant_name(text: &str) -> bool {
    is_name(text, |byte| byte.is_ascii_uppercase())
}

fn is_name(text: &str, is_letter: fn(&u8) -> bool) -> bool {
    let bytes = text.as_bytes();
    bytes.len() <= MOST_NAME
        && bytes.first().is_some_and(is_letter)
        && bytes.iter().all(|byte| is_letter(byte) || byte.is_ascii_digit() || *byte == b'_')
}
