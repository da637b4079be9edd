//! Turns bytes into hexadecimal words and back; `-` is the word for no bytes.

pub fn hex(bytes: &[u8]) -> String {
    if bytes.is_empty() {
        return "-".into();
    }
    let digit = |half: u8| char::from(b"0123456789abcdef"[usize::from(half)]);
    bytes.iter().flat_map(|&byte| [digit(byte >> 4), digit(byte & 15)]).collect()
}

pub fn unhex(word: &str) -> Result<Vec<u8>, String> {
    if word == "-" {
        return Ok(Vec::new());
    }
    if word.is_empty() || word.len() % 2 == 1 {
        return Err(format!("no bytes: {word}"));
    }
    word.as_bytes().chunks(2).map(|pair| Ok(half(pair[0])? << 4 | half(pair[1])?)).collect()
}

fn half(digit: u8) -> Result<u8, String> {
    match digit {
        b'0'..=b'9' => Ok(digit - b'0'),
        b'a'..=b'f' => Ok(digit - b'a' + 10),
        _ => Err(format!("no hexadecimal digit: {}", char::from(digit))),
    }
}
