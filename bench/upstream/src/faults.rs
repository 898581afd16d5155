//! Rows on patterns, on files that a search tells, on time and on panics.

use crate::rows::{Row, add, ask, found, initialised, look_up, within};
use bstr::BString;
use gix_attributes::Search;
use gix_attributes::glob::pattern::Case::{self, Fold, Sensitive};
use gix_attributes::glob::search::pattern::List;
use gix_attributes::search::{Attributes, MetadataCollection, Outcome};
use std::panic::{AssertUnwindSafe, catch_unwind};
use std::path::Path;
use std::time::Duration;

pub const ROWS: &[Row] = &[
    ("`[attr]binary -diff -text` and `*.png binary`, for `a.png`", || {
        in_order_of_a_stack("[attr]binary -diff -text\n*.png binary")
    }),
    ("the same, with `*.png binary new`", || in_order_of_a_stack("[attr]binary -diff -text\n*.png binary new")),
    ("`[0-Z]` against `_`, folded", || matches("[0-Z]", "_", Fold)),
    ("`[A-z]` against `_`, folded", || matches("[A-z]", "_", Fold)),
    ("`[B-A]` against `a`, folded", || matches("[B-A]", "a", Fold)),
    ("`[a[:]` against `:`", || matches("[a[:]", ":", Sensitive)),
    ("`[![:]` against `:`", || matches("[![:]", ":", Sensitive)),
    ("64 times `*a` against 64 times `a`", || matches(&"*a".repeat(64), &"a".repeat(64), Sensitive)),
    ("63 times `*a` against 63 times `a`", || matches(&"*a".repeat(63), &"a".repeat(63), Sensitive)),
    ("24 times `**/` and then `[x]`, against 30 times `a/` and then `c`", || {
        let started = std::time::Instant::now();
        let said = matches(&format!("{}[x]", "**/".repeat(24)), &format!("{}c", "a/".repeat(30)), Sensitive);
        if started.elapsed().as_secs() > 1 { format!("{said}, after some seconds") } else { said }
    }),
    ("64 times `**/` and then `[x]`, against 30 times `a/` and then `c`", || {
        slow(format!("{}[x]", "**/".repeat(64)), format!("{}c", "a/".repeat(30)))
    }),
    ("64 times `**/` and then `b`, against 64 times `a/` and then `b`", || {
        slow(format!("{}b", "**/".repeat(64)), format!("{}b", "a/".repeat(64)))
    }),
    ("`[z-a]` against `z`", || matches("[z-a]", "z", Sensitive)),
    ("`[[:space:]]` against the byte 0B or 0C", || {
        let both = ["\x0b", "\x0c"].map(|byte| matches("[[:space:]]", byte, Sensitive));
        if both[0] == both[1] { both[0].clone() } else { both.join(", ") }
    }),
    ("`**\\/b` against `x/y/b`", || matches("**\\/b", "x/y/b", Sensitive)),
    ("sources `/s` (`* a`), then `s` (`* b`)", told_source),
    ("root `a/`, source `a//./b/s`", || base("a/", "a//./b/s")),
    ("root `a/./`, source `a/b/s`", || base("a/./", "a/b/s")),
    ("the empty root, source `A/`", || base("", "A/")),
    ("the empty root, source `/`", || base("", "/")),
    ("2B 2F 76 38 (`+/v8`) and ` a`, against `+/v8`", || {
        if found("+/v8 a", "+/v8") == "`a`" { "`a` is set".into() } else { "a mark of UTF-7: no pattern is left".into() }
    }),
    ("an outcome that is not initialised, searched", || {
        let (search, _) = add(&[("* a", "s")]);
        panics(|| search.pattern_matching_relative_path("f".into(), Sensitive, None, &mut Outcome::default()))
    }),
    ("`* a`, searched with an outcome of an empty collection", || {
        let (search, _) = add(&[("* a", "s")]);
        let mut outcome = initialised(&MetadataCollection::default());
        panics(|| ask(&search, "f", &mut outcome))
    }),
    ("`f a=1` and `g a=2`, an outcome each, both copied into a third", copies),
    ("`update_from_list` of a macro whose text is the byte FF", || {
        let mut list = macro_named("[attr]m x", b"\xff");
        panics(|| MetadataCollection::default().update_from_list(&mut list))
    }),
    ("`* a =x`, added", || {
        let mut collection = MetadataCollection::default();
        let added = Search::default().add_patterns_buffer(b"* a =x", "s".into(), None, &mut collection, true);
        if added.is_ok() && collection.iter().next().is_none() { "`Ok(())`, and no line".into() } else { "something else".into() }
    }),
];

/// Whether a pattern matches a path.
pub fn matches(pattern: &str, path: &str, case: Case) -> String {
    let (search, collection) = add(&[(&format!("{pattern} a"), "s")]);
    let mut outcome = initialised(&collection);
    let found = search.pattern_matching_relative_path(path.into(), case, Some(false), &mut outcome);
    if found { "match".into() } else { "no match".into() }
}

fn slow(pattern: String, path: String) -> String {
    let said = within(Duration::from_secs(20), move || matches(&pattern, &path, Sensitive));
    said.unwrap_or_else(|| "no answer in 20 seconds".into())
}

/// What is answered for `a.png` where calls come in the order of `gix_worktree::Stack`: an outcome is initialised with the collection of
/// the global files, then the file of the top directory is read, and then the outcome is initialised again.
fn in_order_of_a_stack(file: &str) -> String {
    let mut collection = MetadataCollection::default();
    let globals = Search::new_globals(Vec::<&str>::new(), &mut Vec::new(), &mut collection).expect("no file to read");
    let mut outcome = initialised(&collection);
    let mut stack = Search::default();
    let root = Some(Path::new(""));
    stack.add_patterns_buffer(file.as_bytes(), ".gitattributes".into(), root, &mut collection, true).expect("a parent");
    outcome.initialize(&collection);
    for group in [&stack, &globals] {
        ask(group, "a.png", &mut outcome);
    }
    look_up(&outcome)
}

fn told_source() -> String {
    let (search, collection) = add(&[("* a", "/s"), ("* b", "s")]);
    let mut outcome = initialised(&collection);
    ask(&search, "f", &mut outcome);
    let told = outcome.iter().find(|it| it.assignment.name.as_str() == "a").and_then(|it| it.location.source);
    format!("`a` is from `{}`", told.expect("a source").display())
}

/// The base of a list, by its root and source.
fn base(root: &str, source: &str) -> String {
    match List::from_bytes(b"", source.into(), Some(Path::new(root)), Attributes) {
        Ok(list) => list.base.map_or("no base".into(), |base| format!("base `{base}`")),
        Err(_) => "an error (0.37.0)".into(),
    }
}

/// A list of one line, a macro, whose name is replaced.
pub fn macro_named(line: &str, name: &[u8]) -> List<Attributes> {
    let mut list = List::from_bytes(line.as_bytes(), "s".into(), None, Attributes).expect("no root");
    list.patterns[0].pattern.text = BString::from(name);
    list
}

fn copies() -> String {
    let (search, collection) = add(&[("f a=1\ng a=2", "s")]);
    let mut kept = Outcome::default();
    panics(|| {
        for path in ["f", "g"] {
            let mut outcome = initialised(&collection);
            ask(&search, path, &mut outcome);
            outcome.copy_into(&collection, &mut kept);
            look_up(&kept);
        }
    })
}

/// What a call's panic says, without the values that follow a colon.
pub fn panics<T>(call: impl FnOnce() -> T) -> String {
    let Err(panic) = catch_unwind(AssertUnwindSafe(call)) else { return "no panic".into() };
    let text = panic.downcast_ref::<String>().map(String::as_str).or(panic.downcast_ref::<&str>().copied()).unwrap_or_default();
    let text = text.strip_prefix("BUG: ").unwrap_or(text);
    format!("panics: `{}`", text.split(": ").next().unwrap_or_default())
}
