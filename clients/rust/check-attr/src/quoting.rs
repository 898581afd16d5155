//! Paths in quotes, as git prints and reads them.

/// What stands behind a backslash, and the byte that it means.
const ESCAPES: [(u8, u8); 9] = [
    (b'a', 0x07),
    (b'b', 0x08),
    (b't', b'\t'),
    (b'n', b'\n'),
    (b'v', 0x0b),
    (b'f', 0x0c),
    (b'r', b'\r'),
    (b'"', b'"'),
    (b'\\', b'\\'),
];

/// Appends a text as git prints a path: in quotes if it has bytes that need them. Those beyond ASCII do if `core.quotePath` is
/// true.
pub fn push_quoted(to: &mut Vec<u8>, text: &[u8], quotes_beyond_ascii: bool) {
    let is_plain =
        |&byte: &u8| (byte >= 0x20) & (byte != b'"') & (byte != b'\\') & (byte != 0x7f) & ((byte < 0x80) | !quotes_beyond_ascii);
    // Most texts are plain: without an early end several bytes are looked at at once.
    if text.iter().fold(true, |plain, byte| plain & is_plain(byte)) {
        to.extend_from_slice(text);
        return;
    }
    to.push(b'"');
    for byte in text {
        if is_plain(byte) {
            to.push(*byte);
        } else if let Some((letter, _)) = ESCAPES.iter().find(|(_, meant)| meant == byte) {
            to.extend_from_slice(&[b'\\', *letter]);
        } else {
            to.extend_from_slice(&[b'\\', b'0' + (byte >> 6), b'0' + (byte >> 3 & 7), b'0' + (byte & 7)]);
        }
    }
    to.push(b'"');
}

/// The text that stands in quotes at the start of a line. What follows the quotes is passed over. `None` if they are not closed
/// or have a bad escape.
pub fn unquoted(line: &[u8]) -> Option<Vec<u8>> {
    let mut rest = line.strip_prefix(b"\"")?;
    let mut text = Vec::new();
    loop {
        let (&byte, behind) = rest.split_first()?;
        rest = behind;
        match byte {
            b'"' => return Some(text),
            b'\\' => {
                let (meant, behind) = unescaped(rest)?;
                text.push(meant);
                rest = behind;
            }
            _ => text.push(byte),
        }
    }
}

/// The byte that is meant by what stands behind a backslash, and what follows it.
fn unescaped(rest: &[u8]) -> Option<(u8, &[u8])> {
    match rest {
        [high @ b'0'..=b'3', middle @ b'0'..=b'7', low @ b'0'..=b'7', behind @ ..] => {
            Some(((high - b'0') << 6 | (middle - b'0') << 3 | (low - b'0'), behind))
        }
        [letter, behind @ ..] => ESCAPES.iter().find(|(it, _)| it == letter).map(|(_, meant)| (*meant, behind)),
        [] => None,
    }
}

#[cfg(test)]
mod tests {
    use super::*;

    /// A text, and how git prints it with `core.quotePath` true and false.
    const ROWS: &[(&[u8], &[u8], &[u8])] = &[
        (b"a b", b"a b", b"a b"),
        (b"", b"", b""),
        (b"say \"hi\"", b"\"say \\\"hi\\\"\"", b"\"say \\\"hi\\\"\""),
        (b"a\\b\tc\n", b"\"a\\\\b\\tc\\n\"", b"\"a\\\\b\\tc\\n\""),
        (b"\x07\x08\x0b\x0c\r\x01\x7f", b"\"\\a\\b\\v\\f\\r\\001\\177\"", b"\"\\a\\b\\v\\f\\r\\001\\177\""),
        (b"z\xc3\xbc", b"\"z\\303\\274\"", b"z\xc3\xbc"),
        (b"\xff\"", b"\"\\377\\\"\"", b"\"\xff\\\"\""),
    ];

    #[test]
    fn texts_are_quoted_and_unquoted() {
        for (text, quoted, raw) in ROWS {
            for (quotes, wanted) in [(true, quoted), (false, raw)] {
                let mut given = Vec::new();
                push_quoted(&mut given, text, quotes);
                assert_eq!(given, *wanted);
                if given.starts_with(b"\"") {
                    assert_eq!(unquoted(&given).as_deref(), Some(*text));
                }
            }
        }
    }

    #[test]
    fn what_follows_the_quotes_is_passed_over() {
        assert_eq!(unquoted(b"\"a\\141\" and more").as_deref(), Some(&b"aa"[..]));
    }

    #[test]
    fn bad_quotes_are_refused() {
        for line in [&b"a"[..], b"\"a", b"\"\\q\"", b"\"\\400\"", b"\"\\18\"", b"\"\\", b"\"", b""] {
            assert_eq!(unquoted(line), None);
        }
    }
}
