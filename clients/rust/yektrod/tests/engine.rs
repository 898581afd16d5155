//! The calls of an engine, and what they refuse.

use std::sync::mpsc;
use std::thread;
use yektrod::{Case, Engine, Error, Place, Reason, State};

fn place<'a>(directory: &'a [u8], source: &'a [u8]) -> Place<'a> {
    Place { directory, source }
}

#[test]
fn answers_tell_where_they_come_from() {
    let mut engine = Engine::new().unwrap();
    let added = engine.add(b"[attr]m a=1 -b\n", Place::top(), true).unwrap();
    assert_eq!((added.list, added.dropped.len()), (1, 0));
    let added = engine.add(b"\n*.c m\n*.c !d\n", place(b"s\xff", b"\xfe"), false).unwrap();
    assert_eq!(added.list, 2);
    let answers = engine.ask(b"s\xff/x.c", Case::Sensitive, Some(false)).unwrap();
    let by_name = |name: &[u8]| answers.iter().find(|answer| answer.name == name).unwrap();
    let (a, b, m) = (by_name(b"a"), by_name(b"b"), by_name(b"m"));
    assert_eq!((answers.len(), a.state, b.state, m.state), (3, State::Value(b"1"), State::Unset, State::Set));
    assert_eq!((a.is_macro, m.is_macro), (false, true));
    let origin = a.origin.unwrap();
    assert_eq!((origin.source, origin.list, origin.line, origin.pattern), (&b"\xfe"[..], 2, 2, &b"*.c"[..]));
    assert_eq!((origin.via.unwrap().name, Some(origin.via.unwrap().number)), (&b"m"[..], m.number));
    assert_eq!(m.origin.unwrap().via, None);
    assert_eq!(format!("{:?}", b), format!("{b:?}"));
    assert_eq!(format!("{:?}", a.state), "Value(\"1\")");
}

#[test]
fn names_and_answers_by_number() {
    let mut engine = Engine::new().unwrap();
    engine.add(b"[attr]m n\n[attr]n o\n* m !p\n", Place::top(), true).unwrap();
    engine.select(&["o", "no name", "unknown"]).unwrap();
    let answers = engine.ask(b"f", Case::Sensitive, None).unwrap();
    let o = answers.get(0).unwrap();
    assert_eq!((answers.get(1).unwrap().number, answers.get(1).unwrap().state), (None, State::Unspecified));
    assert_eq!((answers.get(2).unwrap().origin, answers.get(3)), (None, None));
    let (o, cause) = (o.number.unwrap(), o.origin.unwrap().via.unwrap().number);

    // The chain of causes: o by n, n by m, m by its line.
    let n = engine.found(cause).unwrap().unwrap();
    assert_eq!((n.name, n.state, n.origin.unwrap().line), (&b"n"[..], State::Set, 3));
    let cause = n.origin.unwrap().via.unwrap().number;
    let m = engine.found(cause).unwrap().unwrap();
    assert_eq!((m.name, m.origin.unwrap().via), (&b"m"[..], None));

    let count = engine.names().unwrap();
    let names: Vec<Vec<u8>> = (0..count).map(|number| engine.name(number).unwrap().unwrap().to_vec()).collect();
    assert_eq!(names[o], b"o");
    assert!(names.contains(&b"binary".to_vec()));
    assert_eq!(engine.name(count), Ok(None));
    assert_eq!(engine.found(count), Ok(None));

    engine.select_all().unwrap();
    engine.ask(b"f", Case::Sensitive, None).unwrap();
    let p = names.iter().position(|name| name == b"p").unwrap();
    let p = engine.found(p).unwrap().unwrap();
    assert_eq!((p.state, p.origin.unwrap().line), (State::Unspecified, 3));
}

#[test]
fn answers_that_are_longer_than_the_buffers() {
    let mut engine = Engine::new().unwrap();
    for length in [0, 1, 100, 10_000, 1_000] {
        let value = vec![b'v'; length];
        let line = [b"* a=", &value[..], b" b c d e f g\n"].concat();
        engine.add(&line, place(b"", &value), true).unwrap();
        let answers = engine.ask(b"f", Case::Sensitive, None).unwrap();
        let a = answers.get(0).unwrap();
        assert_eq!((answers.len(), a.state.as_bytes(), a.origin.unwrap().source), (7, &value[..], &value[..]));
        let number = a.number.unwrap();
        assert_eq!(engine.found(number).unwrap().unwrap().state.as_bytes(), value);
    }
    let name = "n".repeat(100_000);
    engine.add(format!("* {name}\n").as_bytes(), Place::top(), true).unwrap();
    let mut engine = Engine::new().unwrap();
    engine.add(format!("x {name}\n").as_bytes(), Place::top(), true).unwrap();
    let last = engine.names().unwrap() - 1;
    assert_eq!(engine.name(last).unwrap().unwrap(), name.as_bytes());
}

#[test]
fn lists_are_removed() {
    let mut engine = Engine::new().unwrap();
    engine.add(b"* a\n", Place::top(), true).unwrap();
    engine.select(&["a", "binary"]).unwrap();
    let state = |engine: &mut Engine| engine.ask(b"f", Case::Sensitive, None).unwrap().get(0).unwrap().state == State::Set;
    assert!(state(&mut engine));
    engine.pop().unwrap();
    assert!(!state(&mut engine));
    engine.pop().unwrap();
    assert_eq!(engine.pop(), Err(Error::NoList));
    assert_eq!(engine.add(b"* a\n", Place::top(), true).unwrap().list, 0);
    assert!(state(&mut engine));
}

#[test]
fn dropped_lines_have_reasons() {
    let mut engine = Engine::new().unwrap();
    let added = engine.add(b"!a b\n* a\n[attr]-m x\n* -\n* builtin_x\n", Place::top(), true).unwrap();
    let reasons: Vec<_> = added.dropped.iter().map(|dropped| (dropped.line, dropped.reason)).collect();
    let wanted = [(1, Reason::NegativePattern), (3, Reason::MacroName), (4, Reason::InvalidName), (5, Reason::Reserved)];
    assert_eq!(reasons, wanted);
}

#[test]
fn what_is_refused_changes_nothing() {
    let mut engine = Engine::new().unwrap();
    engine.add(b"* a\n", Place::top(), true).unwrap();
    engine.select(&["a"]).unwrap();
    for directory in ["/", "a/", "/a", "a//b", ".", "a/..", "./a"] {
        let refused = engine.add(b"* -a\n", place(directory.as_bytes(), b""), true);
        assert_eq!(refused, Err(Error::InvalidDirectory), "{directory}");
    }
    assert_eq!(engine.select(&[&b"b"[..], b"\xff"]), Err(Error::InvalidName));
    let answers = engine.ask(b"f", Case::Sensitive, None).unwrap();
    assert_eq!((answers.len(), answers.get(0).unwrap().state), (1, State::Set));
    assert_eq!(Error::InvalidName.to_string(), "a selected name is not UTF-8");
    assert_eq!(Error::Version(0x01_02_03).to_string(), "libyektrod has version 1.2.3");
}

#[test]
fn case_and_directories() {
    let mut engine = Engine::new().unwrap();
    engine.add(b"A.c x\nd/ y\n", Place::top(), true).unwrap();
    let mut count = |path: &[u8], case, is_dir| engine.ask(path, case, is_dir).unwrap().len();
    assert_eq!((count(b"a.c", Case::Sensitive, None), count(b"a.c", Case::Fold, None)), (0, 1));
    let counts = [Some(true), Some(false), None].map(|is_dir| count(b"d", Case::Sensitive, is_dir));
    assert_eq!(counts, [1, 0, 0]);
}

/// One engine goes round eight threads, each of which adds a list and asks, while each thread has one of its own, too.
#[test]
fn engines_change_threads() {
    let threads = 8;
    let (to_first, mut from) = mpsc::channel::<Engine>();
    let mut running = Vec::new();
    for number in 0..threads {
        let (to_next, from_this) = mpsc::channel();
        running.push(thread::spawn(move || {
            let mut own = Engine::new().unwrap();
            own.add(b"* own\n", Place::top(), true).unwrap();
            let mut engine = from.recv().unwrap();
            engine.add(format!("f* a{number}\n").as_bytes(), Place::top(), true).unwrap();
            for round in 0..200 {
                let path = format!("f{round}");
                assert_eq!(engine.ask(path.as_bytes(), Case::Sensitive, None).unwrap().len(), number + 1);
                assert_eq!(own.ask(path.as_bytes(), Case::Sensitive, None).unwrap().len(), 1);
            }
            to_next.send(engine).unwrap();
        }));
        from = from_this;
    }
    to_first.send(Engine::new().unwrap()).unwrap();
    let mut engine = from.recv().unwrap();
    assert_eq!(engine.ask(b"f", Case::Sensitive, None).unwrap().len(), threads);
    running.into_iter().for_each(|thread| thread.join().unwrap());
}
