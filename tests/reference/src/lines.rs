//! RULES 1.1 and 1.3 (document 01, "The loop text"): lines, the bytes allowed, and which lines are skipped.

/// The form of a line is broken (number 2).
#[derive(Debug, Clone, Copy, PartialEq, Eq)]
pub struct Broken;

/// "text over 2,048 bytes" is number 1.
pub const TEXT_LIMIT: usize = 2048;

/// The five bytes a directive begins with, in lower case.
const OMP: &[u8] = b"!$omp";

/// The lines of a text in order. "After a last newline no further line begins; the empty text is
/// one line." (READING 1)
pub fn split_lines(text: &[u8]) -> Vec<&[u8]> {
    let mut lines: Vec<&[u8]> = text.split(|&byte| byte == b'\n').collect();
    if lines.len() > 1 && lines.last().is_some_and(|line| line.is_empty()) {
        lines.pop();
    }
    lines
}

/// What a line is before its tokens are read. The text in it is in lower case.
#[derive(Debug, Clone, PartialEq, Eq)]
pub enum Line {
    /// "Empty and blank lines are skipped, and so are lines whose first nonblank byte is `!`".
    Skipped,
    /// What stands after the five bytes of a directive.
    Directive(String),
    /// A line of any other form.
    Plain(String),
}

/// Sorts a line. A byte outside 32 to 126 breaks it, in a comment too (READING 4, 5).
pub fn sort_line(line: &[u8]) -> Result<Line, Broken> {
    if !line.iter().all(|byte| (32..=126).contains(byte)) {
        return Err(Broken);
    }
    let content: Vec<u8> = line
        .iter()
        .skip_while(|&&byte| byte == b' ')
        .map(u8::to_ascii_lowercase)
        .collect();
    if let Some(rest) = content.strip_prefix(OMP) {
        // "blanks before them allowed and one needed after; any other line that starts so is
        // broken" (READING 8, 9, 10)
        return match rest.first() {
            Some(b' ') => Ok(Line::Directive(as_text(rest))),
            _ => Err(Broken),
        };
    }
    match content.first() {
        None | Some(b'!') => Ok(Line::Skipped),
        Some(_) => Ok(Line::Plain(as_text(&content))),
    }
}

/// Bytes already known to be printable.
fn as_text(bytes: &[u8]) -> String {
    bytes.iter().map(|&byte| char::from(byte)).collect()
}

#[cfg(test)]
mod tests {
    use super::*;

    #[test]
    fn lines_are_counted_as_reading_1_says() {
        for (text, count) in [("", 1), ("\n", 1), ("\n\n", 2), ("\n ", 2), ("a\nb", 2)] {
            assert_eq!(split_lines(text.as_bytes()).len(), count, "{text:?}");
        }
    }

    #[test]
    fn comments_and_directives_are_told_apart() {
        for skipped in [
            "", "   ", "! x", "  !x", "! $omp", "!$ omp", "!$om", "!!$omp",
        ] {
            assert_eq!(
                sort_line(skipped.as_bytes()),
                Ok(Line::Skipped),
                "{skipped:?}"
            );
        }
        for broken in ["!$omp", "!$ompx", "  !$ompparallel do", "a\t", "! \u{7f}"] {
            assert_eq!(sort_line(broken.as_bytes()), Err(Broken), "{broken:?}");
        }
        let directive = Ok(Line::Directive(" do".to_string()));
        assert_eq!(sort_line(b"  !$OmP DO"), directive);
    }
}
