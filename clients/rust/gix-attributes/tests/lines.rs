//! The lines of attributes files, as gitattributes(5) has them, and that the library drops the same lines.

use bstr::BStr;
use gix_attributes::{Assignment, NameRef, State, StateRef, parse};
use std::collections::BTreeSet;
use yektrod::{Engine, Place};

/// The lines of a file: the pattern or the macro, the assignments, the number. Of a line with an error only the number.
fn lines(file: &[u8]) -> Vec<String> {
    let line = |line: gix_error::Result<(parse::Kind, parse::Iter<'_>, usize)>| {
        let (kind, assignments, number) = line?;
        let assignments: gix_error::Result<Vec<_>> = assignments.map(|it| it.map(|it| it.to_string())).collect();
        let first = match kind {
            parse::Kind::Pattern(pattern) => pattern.to_string(),
            parse::Kind::Macro(name) => format!("[attr]{}", name.as_str()),
        };
        Ok::<_, gix_error::Error>(format!("{number} {first} {}", assignments?.join(" ")))
    };
    gix_attributes::parse(file).map(|it| line(it).unwrap_or_else(|error| format!("invalid: {}", error.is_validation()))).collect()
}

#[test]
fn lines_have_a_pattern_and_assignments() {
    assert_eq!(lines(b"*.c text -diff !merge eol=lf a=\n"), ["1 *.c text -diff !merge eol=lf a="]);
    assert_eq!(lines(b"# a\n\n \t\r\n  *.h\ttext\r\n"), ["4 *.h text"]);
    assert_eq!(lines(b"\"a \\142\" x\n"), ["1 a b x"]);
    assert_eq!(lines(b"a=b x=y=z -w=1\n"), ["1 a=b x=y=z -w"]);
    assert_eq!(lines(b"[attr]m -a b=c\n[attr] n\n"), ["1 [attr]m -a b=c", "2 [attr] n"]);
    assert_eq!(lines(b"\xef\xbb\xbf* a\n\xef\xbb\xbf* a\n").len(), 2);
    assert!(lines(b"").is_empty());
}

#[test]
fn lines_that_are_not_valid_are_errors() {
    let invalid = "invalid: true";
    assert_eq!(lines(b"!a b\n* c\n"), [invalid, "2 * c"]);
    // The backslash is no part of the name that it matches.
    assert_eq!(lines(b"\\!a b\n"), ["1 !a b"]);
    for line in ["[attr]-m a", "[attr]builtin_m a", "* a%", "* -", "* builtin_a", "* =a", "* --a", "* \u{e4}"] {
        assert_eq!(lines(line.as_bytes()), [invalid], "{line}");
    }
}

#[test]
fn names_and_states() {
    for name in ["", "-a", "a b", "\u{e4}", "a/b"] {
        let error: gix_error::Error = NameRef::try_from(BStr::new(name)).unwrap_err();
        assert!(error.is_validation(), "{name}");
        assert!(error.metadata_merged().contains_key("input"), "{name}");
    }
    for name in ["a", "A-b.c_9", "_", ".", "9"] {
        assert_eq!(NameRef::try_from(BStr::new(name)).unwrap().to_owned().as_str(), name);
    }
    let value = StateRef::from_bytes(b"v");
    assert_eq!((value.is_set(), value.is_unset(), value.is_unspecified()), (true, false, false));
    assert_eq!((value.as_bstr(), StateRef::Set.as_bstr()), (Some("v".into()), None));
    assert_eq!((StateRef::Set.is_set(), StateRef::Unset.is_unset(), StateRef::Unspecified.is_unspecified()), (true, true, true));
    let name = NameRef::try_from(BStr::new("a")).unwrap().to_owned();
    let assignment = Assignment { name, state: State::Value("v".into()) };
    assert_eq!((assignment.as_ref().state, assignment.as_ref().to_owned()), (value, assignment.clone()));
}

/// What the files of the next test are made of.
#[rustfmt::skip]
const WORDS: [&[u8]; 32] = [
    b"[attr]", b"m", b" ", b"\t", b"\r", b"\n", b"\n", b"\n", b"*", b"a", b"=", b"-", b"!", b"\\", b"\"", b"\"a\\",
    b"\0", b"\x0b", b"#", b"builtin_", b"[attr]m", b"[attr]-", b"/", b"\xef\xbb\xbf", b"\xff\xfe", b"\xfe\xff", b"\\!",
    b"\"\\", b"7", b"n\" ", b".", b"\xc3\xa4",
];

/// The library tells which lines it drops. This crate's parser drops the same, or no line could be told of an answer.
#[test]
fn the_library_drops_the_same_lines() {
    let mut state = 1u64;
    for round in 0..20_000 {
        let mut file = Vec::new();
        for _ in 0..round % 40 {
            state = state.wrapping_mul(6_364_136_223_846_793_005).wrapping_add(1_442_695_040_888_963_407);
            file.extend_from_slice(WORDS[(state >> 59) as usize]);
        }
        let dropped = Engine::new().unwrap().add(&file, Place::top(), true).unwrap().dropped;
        let dropped: BTreeSet<usize> = dropped.iter().map(|it| it.line).collect();
        let lines = (1..).zip(file.split(|&byte| byte == b'\n'));
        let left_out: BTreeSet<usize> = lines.filter(|&line| is_left_out(line)).map(|(number, _)| number).collect();
        assert_eq!(left_out, dropped, "{}", file.escape_ascii());
    }
}

/// Whether this crate's parser leaves a line out. One that isn't the first has no byte order mark.
fn is_left_out((number, line): (usize, &[u8])) -> bool {
    let file = if number == 1 { line.to_vec() } else { [b"\n", line].concat() };
    gix_attributes::parse(&file).any(|it| it.map_or(true, |(_, mut assignments, _)| assignments.any(|it| it.is_err())))
}
