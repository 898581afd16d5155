//! Answers as JSON: texts are strings, and what is not UTF-8 is an object with its base 64.

use yektrod::{Answer, State};

const DIGITS: &[u8; 64] = b"ABCDEFGHIJKLMNOPQRSTUVWXYZabcdefghijklmnopqrstuvwxyz0123456789+/";

/// Appends the answers for a path as one object.
pub fn push_answers<'a>(to: &mut Vec<u8>, path: &[u8], answers: impl Iterator<Item = Answer<'a>>) {
    to.extend_from_slice(b"{\"path\":");
    push_text(to, path);
    to.extend_from_slice(b",\"attributes\":[");
    for (index, answer) in answers.enumerate() {
        if index > 0 {
            to.push(b',');
        }
        push_answer(to, &answer);
    }
    to.extend_from_slice(b"]}");
}

fn push_answer(to: &mut Vec<u8>, answer: &Answer<'_>) {
    let origin = answer.origin.as_ref();
    to.extend_from_slice(b"{\"name\":");
    push_text(to, answer.name);
    to.extend_from_slice(b",\"state\":");
    match answer.state {
        State::Value(value) => {
            to.extend_from_slice(b"\"value\",\"value\":");
            push_text(to, value);
        }
        state => push_text(to, state.as_bytes()),
    }
    to.extend_from_slice(b",\"source\":");
    push_optional(to, origin.map(|origin| origin.source));
    let line = origin.map_or("null".to_string(), |origin| origin.line.to_string());
    to.extend_from_slice(format!(",\"line\":{line},\"pattern\":").as_bytes());
    push_optional(to, origin.map(|origin| origin.pattern));
    to.extend_from_slice(b",\"macro\":");
    push_optional(to, origin.and_then(|origin| origin.via).map(|via| via.name));
    to.push(b'}');
}

fn push_optional(to: &mut Vec<u8>, text: Option<&[u8]>) {
    match text {
        Some(text) => push_text(to, text),
        None => to.extend_from_slice(b"null"),
    }
}

fn push_text(to: &mut Vec<u8>, text: &[u8]) {
    if std::str::from_utf8(text).is_err() {
        to.extend_from_slice(b"{\"base64\":\"");
        push_base64(to, text);
        to.extend_from_slice(b"\"}");
        return;
    }
    to.push(b'"');
    for &byte in text {
        match byte {
            b'"' | b'\\' => to.extend_from_slice(&[b'\\', byte]),
            0..=0x1f | 0x7f => to.extend_from_slice(format!("\\u{byte:04x}").as_bytes()),
            _ => to.push(byte),
        }
    }
    to.push(b'"');
}

/// Appends the base 64 of RFC 4648, with padding.
fn push_base64(to: &mut Vec<u8>, bytes: &[u8]) {
    for chunk in bytes.chunks(3) {
        let byte = |at: usize| u32::from(chunk.get(at).copied().unwrap_or(0));
        let bits = byte(0) << 16 | byte(1) << 8 | byte(2);
        let digit = |index: u32| DIGITS[(bits >> (18 - 6 * index) & 63) as usize];
        let digits = [digit(0), digit(1), digit(2), digit(3)];
        to.extend_from_slice(&digits[..chunk.len() + 1]);
        to.extend_from_slice(&b"=="[..3 - chunk.len()]);
    }
}

#[cfg(test)]
mod tests {
    use super::*;
    use yektrod::{Macro, Origin};

    #[test]
    fn base64_is_that_of_rfc_4648() {
        let rows = [
            ("", ""),
            ("f", "Zg=="),
            ("fo", "Zm8="),
            ("foo", "Zm9v"),
            ("foob", "Zm9vYg=="),
            ("fooba", "Zm9vYmE="),
            ("foobar", "Zm9vYmFy"),
        ];
        for (text, wanted) in rows {
            let mut given = Vec::new();
            push_base64(&mut given, text.as_bytes());
            assert_eq!(given, wanted.as_bytes());
        }
    }

    #[test]
    fn answers_are_an_object() {
        let via = Some(Macro { name: b"binary", number: 4 });
        let origin = Some(Origin { source: b"a\"b", list: 1, line: 7, pattern: b"\xff\xfe\xfd", via });
        let answers = [
            Answer { name: b"text", number: Some(1), state: State::Value(b"\x01\\"), is_macro: false, origin },
            Answer { name: b"eol", number: None, state: State::Unspecified, is_macro: false, origin: None },
        ];
        let mut given = Vec::new();
        push_answers(&mut given, "é\n".as_bytes(), answers.into_iter());
        let wanted = concat!(
            r#"{"path":"é\u000a","attributes":[{"name":"text","state":"value","value":"\u0001\\","#,
            r#""source":"a\"b","line":7,"pattern":{"base64":"//79"},"macro":"binary"},"#,
            r#"{"name":"eol","state":"unspecified","source":null,"line":null,"pattern":null,"macro":null}]}"#
        );
        assert_eq!(String::from_utf8(given).unwrap(), wanted);
        let mut given = Vec::new();
        push_answers(&mut given, b"", std::iter::empty());
        assert_eq!(given, b"{\"path\":\"\",\"attributes\":[]}");
    }
}
