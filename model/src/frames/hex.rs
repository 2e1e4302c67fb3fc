//! Bytes as lines of lowercase hexadecimal, two digits a byte, each line ended by 0a.

/// The digits of the bytes.
pub fn to_hex(bytes: &[u8]) -> String {
    bytes.iter().map(|byte| format!("{byte:02x}")).collect()
}

/// The bytes of a line that comes with its 0a, or what is wrong with its text.
pub fn from_line(line: &[u8]) -> Result<Vec<u8>, String> {
    let Some(digits) = line.strip_suffix(b"\n") else {
        return Err("no 0a at its end".to_owned());
    };
    if digits.is_empty() {
        return Err("it is empty".to_owned());
    }
    let values: Result<Vec<u8>, String> = digits
        .iter()
        .enumerate()
        .map(|(place, character)| digit(*character).ok_or_else(|| no_digit(*character, place + 1)))
        .collect();
    let values = values?;
    if !values.len().is_multiple_of(2) {
        return Err(format!("an odd number of digits, {}", values.len()));
    }
    Ok(values.chunks(2).map(|pair| pair[0] * 16 + pair[1]).collect())
}

/// A number of some bytes, most significant byte first.
pub fn number(bytes: &[u8]) -> u64 {
    bytes.iter().fold(0, |number, byte| number << 8 | u64::from(*byte))
}

fn digit(character: u8) -> Option<u8> {
    match character {
        b'0'..=b'9' => Some(character - b'0'),
        b'a'..=b'f' => Some(character - b'a' + 10),
        _ => None,
    }
}

fn no_digit(character: u8, column: usize) -> String {
    let what = match character {
        b'A'..=b'F' => format!("uppercase digit {}", char::from(character)),
        b'\r' => "carriage return".to_owned(),
        b' ' => "space".to_owned(),
        b'!'..=b'~' => format!("no digit but {}", char::from(character)),
        _ => format!("no digit but byte {character:02x}"),
    };
    format!("{what} at column {column}")
}
