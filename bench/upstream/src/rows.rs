//! Rows on calls, states and memory.

use crate::faults::{macro_named, panics};
use bstr::BStr;
use gix_attributes::glob::pattern::Case::Sensitive;
use gix_attributes::glob::search::pattern::List;
use gix_attributes::glob::{Pattern, wildmatch::Mode};
use gix_attributes::search::{Attributes, MetadataCollection, Outcome};
use gix_attributes::{NameRef, Search, Source, StateRef, parse};
use gix_quote::ansi_c::undo;
use std::borrow::Cow;
use std::env::current_exe;
use std::ffi::OsString;
use std::os::unix::process::ExitStatusExt;
use std::process::{Command, ExitCode, Stdio};
use std::sync::mpsc;
use std::time::Duration;
use std::{fs, thread};

/// An input, as the pages have it, and what the crate does with it.
pub type Row = (&'static str, fn() -> String);

/// Inputs that can't be run, and why.
pub const NOT_RUN: &[(&str, &str)] = &[
    ("an impl of `search::Pattern`", "a signature"),
    (
        "`* a=x` and `g a=y`, where x and y have the same 64-bit hash",
        "no such values are known; the sources `/s` and `s` show it",
    ),
];

pub const ROWS: &[Row] = &[
    ("`undo` of `a`", || match undo("a".into()) {
        Ok((text, 1)) if *text == "a" => "the text unchanged".into(),
        other => format!("{other:?}"),
    }),
    ("`undo` of `\"a\"`", || match undo("\"a\"".into()) {
        Ok((Cow::Owned(_), 3)) => "copied".into(),
        other => format!("{other:?}"),
    }),
    ("the line `\"\\400\" a`, while memory is short", || refused("quotes")),
    ("the line `[attr]-m x`", || match gix_attributes::parse(b"[attr]-m x").next() {
        Some(Err(error)) if error.to_string().contains("line 1") && !error.to_string().contains("-m") => {
            "an error whose text has the line".into()
        }
        other => format!("{:?}", other.is_some()),
    }),
    ("the line `* x=true`", || {
        let (_, mut items, _) = gix_attributes::parse(b"* x=true").next().expect("a line").expect("a valid line");
        match items.next().expect("an item").expect("a valid item").state {
            StateRef::Value(value) if value.as_bstr() == "true" => "a value, though its documents call `true` special".into(),
            other => format!("{other:?}"),
        }
    }),
    ("`to_owned` of the name `a`, while memory is short", || refused("name")),
    ("`List::from_bytes` of `!a b`", || {
        let list = List::from_bytes(b"!a b", "s".into(), None, Attributes).expect("no root");
        if list.patterns.is_empty() { "the list alone".into() } else { "a line".into() }
    }),
    ("`[attr]m x` added, then `[attr]m y`, then popped", || {
        let (mut search, mut collection) = add(&[("* m\n[attr]m x", "s")]);
        search.add_patterns_buffer(b"[attr]m y", "t".into(), None, &mut collection, true).expect("no root");
        search.pop_pattern_list();
        let mut outcome = initialised(&collection);
        ask(&search, "f", &mut outcome);
        in_words(look_up(&outcome), "`m y`", "`m` still expands to `y`")
    }),
    ("`pop_pattern_list`", || {
        let pop: fn(&mut Search) -> Option<List<Attributes>> = Search::pop_pattern_list;
        pop(&mut Search::default());
        "takes the search alone".into()
    }),
    ("`* a` added, while memory is short", || refused("buffer")),
    ("`* a` and `[attr]a b`, initialised; `[attr]a -b` added, initialised again", || again("* a\n[attr]a b", "[attr]a -b")),
    ("the same, with `[attr]a c` added: a new name", || again("* a\n[attr]a b", "[attr]a c")),
    ("the same, with `[attr]a` (an empty body) and `* c` added", || again("* a\n[attr]a b", "[attr]a\n* c")),
    ("selection `z`, initialised by the collection of `* z y`, then by that of `* w z q`", || {
        let (first, second) = (add(&[("* z y", "s")]), add(&[("* w z q", "s")]));
        let mut outcome = Outcome::default();
        outcome.initialize_with_selection(&first.1, ["z"]);
        outcome.initialize(&second.1);
        ask(&second.0, "f", &mut outcome);
        let told: Vec<_> = outcome.iter_selected().map(|it| format!("answers `{}`", it.assignment)).collect();
        told.join(" ")
    }),
    ("`* c b` and `* a=1`, selection `b`, searched again for the path on the outcome that is done", || {
        let (search, collection) = add(&[("* c b\n* a=1", "s")]);
        let mut outcome = Outcome::default();
        outcome.initialize_with_selection(&collection, ["b"]);
        let mut filled = [0; 3];
        for count in &mut filled {
            ask(&search, "f", &mut outcome);
            *count = outcome.iter().count();
        }
        match filled {
            [first, second, _] if second == first + 1 => "one more attribute is filled".into(),
            other => format!("{other:?}"),
        }
    }),
    ("selection `text`, `text`, of `* text`", || {
        let (search, collection) = add(&[("* text", "s")]);
        let mut outcome = Outcome::default();
        outcome.initialize_with_selection(&collection, ["text", "text"]);
        ask(&search, "f", &mut outcome);
        if outcome.is_done() { "done".into() } else { "never done".into() }
    }),
    ("`copy_into` an outcome with another selection", || {
        let (search, collection) = add(&[("* a\ng b", "s")]);
        let (mut outcome, mut other) = (Outcome::default(), Outcome::default());
        outcome.initialize_with_selection(&collection, ["a"]);
        other.initialize_with_selection(&collection, ["b"]);
        ask(&search, "f", &mut outcome);
        outcome.copy_into(&collection, &mut other);
        if other.is_done() { "takes over how many are left".into() } else { "counts anew".into() }
    }),
    ("`copy_into` an outcome of another collection", || {
        let ((_, small), (_, large)) = (add(&[("* a", "s")]), add(&[("* a b", "s")]));
        let (mut outcome, mut other) = (Outcome::default(), Outcome::default());
        outcome.initialize(&small);
        other.initialize_with_selection(&large, ["b"]);
        panics(|| {
            outcome.copy_into(&small, &mut other);
            other.iter_selected().count()
        })
    }),
    ("`* a`, searched for `f` twice on one outcome", || {
        let (search, collection) = add(&[("* a", "s")]);
        let mut outcome = initialised(&collection);
        let mut ask = || ask(&search, "f", &mut outcome);
        match [ask(), ask()] {
            [true, false] => "false the second time, though a pattern matched".into(),
            other => format!("{other:?}"),
        }
    }),
    ("files of `Source::GitInstallation`, then of `Source::Local`, with `* a=x` and `* a=y`", || {
        let (search, collection) = add(&[("* a=x", "s"), ("* a=y", "t")]);
        let mut outcome = initialised(&collection);
        ask(&search, "f", &mut outcome);
        in_words(look_up(&outcome), "`a=y`", "`a=y`, though its documents say the first")
    }),
    ("`update_from_list` of a macro whose text is `-m`", || {
        let mut collection = MetadataCollection::default();
        collection.update_from_list(&mut macro_named("[attr]m x", b"-m"));
        if collection.iter().any(|(name, _)| name == "-m") { "taken unchecked".into() } else { "not taken".into() }
    }),
    ("`XDG_CONFIG_HOME` set to the empty text", || {
        let mut variables = |name: &str| (name == "XDG_CONFIG_HOME").then(OsString::new);
        match Source::Git.storage_location(&mut variables) {
            Some(path) => format!("`{}`, below the current directory", path.display()),
            None => "no file".into(),
        }
    }),
    ("`add_patterns_file` of a link", || {
        let directory = std::env::temp_dir().join(format!("upstream-{}", std::process::id()));
        fs::create_dir(&directory).expect("a directory");
        fs::write(directory.join("file"), "* a").expect("a file");
        std::os::unix::fs::symlink("file", directory.join("link")).expect("a link");
        let followed = [false, true].map(|follow| {
            let (mut buffer, mut collection) = (Vec::new(), MetadataCollection::default());
            let file = directory.join("link");
            Search::default().add_patterns_file(file, follow, None, &mut buffer, &mut collection, true).expect("a file or none")
        });
        fs::remove_dir_all(&directory).expect("removed");
        if followed == [false, true] { "followed if `follow_symlinks` is set".into() } else { format!("{followed:?}") }
    }),
    ("the pattern `/a*` against `a/b`", || {
        let pattern = Pattern::from_bytes(b"/a*").expect("a pattern");
        let path: &BStr = "a/b".into();
        let matched = [Mode::empty(), Mode::NO_MATCH_SLASH_LITERAL]
            .map(|mode| pattern.matches_repo_relative_path(path, Some(2), Some(false), Sensitive, mode));
        if matched == [true, false] { "by a mode".into() } else { format!("{matched:?}") }
    }),
];

/// A search of lists, which are lines and a source, and its collection.
pub fn add(lists: &[(&str, &str)]) -> (Search, MetadataCollection) {
    let (mut search, mut collection) = (Search::default(), MetadataCollection::default());
    for (lines, source) in lists {
        search.add_patterns_buffer(lines.as_bytes(), source.into(), None, &mut collection, true).expect("no root");
    }
    (search, collection)
}

/// An outcome that is ready for searches by a collection.
pub fn initialised(collection: &MetadataCollection) -> Outcome {
    let mut outcome = Outcome::default();
    outcome.initialize(collection);
    outcome
}

/// Looks a file up.
pub fn ask(search: &Search, path: &str, outcome: &mut Outcome) -> bool {
    search.pattern_matching_relative_path(path.into(), Sensitive, Some(false), outcome)
}

/// What an outcome has, in the order of names.
pub fn look_up(outcome: &Outcome) -> String {
    let mut told: Vec<_> = outcome.iter().map(|it| (it.assignment.name.as_str().to_owned(), it.assignment.to_string())).collect();
    told.sort();
    let told: Vec<_> = told.into_iter().map(|it| it.1).collect();
    format!("`{}`", told.join(" "))
}

/// What these words say of the answers if they are the expected ones, and else the answers.
fn in_words(answers: String, expected: &str, words: &str) -> String {
    if answers == expected { words.into() } else { answers }
}

/// What a new outcome of lines has for a path.
pub fn found(lines: &str, path: &str) -> String {
    let (search, collection) = add(&[(lines, "s")]);
    let mut outcome = initialised(&collection);
    ask(&search, path, &mut outcome);
    look_up(&outcome)
}

/// What an outcome has that was initialised before a second list was added, and again afterwards.
fn again(lines: &str, more: &str) -> String {
    let (mut search, mut collection) = add(&[(lines, "s")]);
    let mut outcome = initialised(&collection);
    search.add_patterns_buffer(more.as_bytes(), "t".into(), None, &mut collection, true).expect("no root");
    outcome.initialize(&collection);
    ask(&search, "f", &mut outcome);
    look_up(&outcome)
}

/// What a call gives within a time. It is left running after that.
pub fn within<T: Send + 'static>(time: Duration, call: impl FnOnce() -> T + Send + 'static) -> Option<T> {
    let (sender, receiver) = mpsc::channel();
    thread::spawn(move || sender.send(call()));
    receiver.recv_timeout(time).ok()
}

/// How a process ends that makes a call without memory.
fn refused(what: &str) -> String {
    let program = current_exe().expect("a program");
    let shell = r#"ulimit -v 200000; ulimit -c 0; exec "$0" refuse "$1""#;
    let ends = |what| {
        let mut command = Command::new("sh");
        command.args(["-c", shell]).arg(&program).arg(what).stdout(Stdio::null()).stderr(Stdio::null()).status().expect("a shell")
    };
    match (ends("nothing").success(), ends(what).signal()) {
        (true, Some(ABORT)) => "the process ends".into(),
        other => format!("{other:?}"),
    }
}

const ABORT: i32 = 6;

/// Takes all memory, and makes a call.
pub fn refuse(what: &str) -> ExitCode {
    let (name, line): (&BStr, &[u8]) = ("a".into(), b"\"\\400\" a");
    let (mut search, mut collection, source) = (Search::default(), MetadataCollection::default(), "s".into());
    let mut taken: Vec<Vec<u8>> = Vec::with_capacity(1 << 20);
    let mut size = 1 << 28;
    while size > 0 {
        let mut block = Vec::new();
        if taken.len() < taken.capacity() && block.try_reserve_exact(size).is_ok() {
            taken.push(block);
        } else {
            size = if size > 1024 { size / 2 } else { size.saturating_sub(8) };
        }
    }
    let made = match what {
        "name" => NameRef::try_from(name).is_ok_and(|name| name.to_owned().as_str() == "a"),
        "quotes" => parse::Lines::new(line).all(|line| line.is_ok()),
        "buffer" => search.add_patterns_buffer(b"* a", source, None, &mut collection, true).is_ok(),
        _ => true,
    };
    drop(taken);
    if made { ExitCode::SUCCESS } else { ExitCode::FAILURE }
}
