//! Bytes as two lower-case digits each, and `-` for none.

pub fn written(bytes: &[u8]) -> String {
    if bytes.is_empty() {
        return "-".to_string();
    }
    bytes.iter().map(|b| format!("{b:02x}")).collect()
}

fn digit(byte: u8) -> Option<u8> {
    match byte {
        b'0'..=b'9' => Some(byte - b'0'),
        b'a'..=b'f' => Some(byte - b'a' + 10),
        _ => None,
    }
}

/// The bytes that a word says.
pub fn read(word: &str) -> Option<Vec<u8>> {
    if word == "-" {
        return Some(Vec::new());
    }
    if word.is_empty() || word.len() % 2 == 1 {
        return None;
    }
    word.as_bytes().chunks(2).map(|two| Some(digit(two[0])? * 16 + digit(two[1])?)).collect()
}

#[cfg(test)]
mod tests {
    use super::*;

    #[test]
    fn there_and_back() {
        assert_eq!(written(&[]), "-");
        assert_eq!(written(&[0, 170, 255]), "00aaff");
        assert_eq!(read("00aaff"), Some(vec![0, 170, 255]));
        assert_eq!(read("-"), Some(vec![]));
    }

    #[test]
    fn words_that_are_no_bytes() {
        for word in ["", "0", "000", "0g", "AA", "--", "0x", "é"] {
            assert_eq!(read(word), None, "{word}");
        }
    }
}
