// Files as text: a string for the shell's printf, and a picture.

use crate::rules::{read_head, read_record};
use std::fmt::Write;

/// The bytes so that `printf` makes them again.
pub fn printf_string(bytes: &[u8]) -> String {
    let mut text = String::from("'");
    for &byte in bytes {
        match byte {
            b'\'' | b'\\' | b'%' => write!(text, "\\{byte:03o}").unwrap(),
            b' '..=b'~' => text.push(byte as char),
            _ => write!(text, "\\{byte:03o}").unwrap(),
        }
    }
    text + "'"
}

/// A file as a picture: the squares in rows, then the planks. What is no file of a board or
/// record is shown by its bytes alone.
pub fn picture(bytes: &[u8]) -> String {
    let mut text = format!("printf {}\n", printf_string(bytes));
    if let (Ok((width, height, side)), Ok((_, planks))) = (read_head(bytes), read_record(bytes)) {
        writeln!(text, "{width} by {height}, {} to move", side.letter()).unwrap();
        for row in bytes[3..3 + width * height].chunks(width) {
            writeln!(text, "{}", String::from_utf8_lossy(row)).unwrap();
        }
        if !planks.is_empty() {
            writeln!(text, "planks {planks:?}").unwrap();
        }
    }
    text
}

#[cfg(test)]
mod tests {
    use super::*;

    #[test]
    fn shown() {
        let text = "printf '\\002\\001u.#\\000'\n2 by 1, u to move\n.#\nplanks [0]\n";
        assert_eq!(picture(b"\x02\x01u.#\x00"), text);
        assert_eq!(picture(b"%'\\\n"), "printf '\\045\\047\\134\\012'\n");
    }
}
