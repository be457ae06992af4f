//! Tables as hexadecimal text.

/// Reads pairs of hexadecimal digits. White space parts them and is otherwise
/// of no account; `#` starts a comment that runs to the end of its line.
pub fn parse(text: &str) -> Result<Vec<u8>, String> {
    let mut bytes = Vec::new();
    for (number, line) in text.lines().enumerate() {
        let line = line.split('#').next().unwrap_or("");
        for word in line.split_whitespace() {
            let digits: Option<Vec<u32>> = word.chars().map(|c| c.to_digit(16)).collect();
            match digits {
                Some(digits) if digits.len() % 2 == 0 => {
                    bytes.extend(digits.chunks(2).map(|pair| (16 * pair[0] + pair[1]) as u8));
                }
                _ => {
                    return Err(format!(
                        "line {}: {word} is not in pairs of digits",
                        number + 1
                    ))
                }
            }
        }
    }
    Ok(bytes)
}

/// Bytes as hexadecimal text, one space apart.
pub fn text(bytes: &[u8]) -> String {
    let words: Vec<String> = bytes.iter().map(|byte| format!("{byte:02X}")).collect();
    words.join(" ")
}

#[cfg(test)]
mod tests {
    use super::*;

    #[test]
    fn reads_bytes_past_comments() {
        assert_eq!(
            parse("# no\n01 0a# 02\n\n FF10\n"),
            Ok(vec![1, 10, 255, 16])
        );
        assert_eq!(parse(""), Ok(vec![]));
        assert!(parse("1").is_err());
        assert!(parse("0g").is_err());
    }

    #[test]
    fn writes_what_it_reads() {
        let bytes: Vec<u8> = (0..=255).collect();
        assert_eq!(parse(&text(&bytes)), Ok(bytes));
    }
}
