//! Searches and outcomes: what gitattributes(5) says, and what gitoxide's crates do with them.

use bstr::{BStr, ByteSlice};
use gix_attributes::Search;
use gix_attributes::glob::pattern::Case;
use gix_attributes::search::{AttributeId, Match, MatchKind, MetadataCollection, Outcome};
use std::path::Path;

/// A search with these lists, each with its directory, and the names of all.
fn search(lists: &[(&str, &str)]) -> (Search, MetadataCollection) {
    let (mut search, mut names) = (Search::default(), MetadataCollection::default());
    for (directory, file) in lists {
        add(&mut search, &mut names, directory, file);
    }
    (search, names)
}

fn add(search: &mut Search, names: &mut MetadataCollection, directory: &str, file: &str) {
    let source = Path::new(directory).join(".gitattributes");
    search.add_patterns_buffer(file.as_bytes(), source, Some(Path::new("")), names, directory.is_empty()).unwrap();
}

fn find(search: &Search, path: &str, outcome: &mut Outcome) -> bool {
    search.pattern_matching_relative_path(path.into(), Case::Sensitive, Some(false), outcome)
}

fn texts<'a>(found: impl Iterator<Item = Match<'a>>) -> Vec<String> {
    found.map(|it| it.assignment.to_string()).collect()
}

fn outcome(names: &MetadataCollection, selection: &[&str]) -> Outcome {
    let mut outcome = Outcome::default();
    outcome.initialize_with_selection(names, selection);
    outcome
}

#[test]
fn the_last_line_and_the_deepest_directory_win() {
    let (search, names) = search(&[("", "*.c a b=1\n*.c b=2\n"), ("sub", "*.c -a\n")]);
    let mut outcome = outcome(&names, &["a", "b", "nothing"]);
    assert!(find(&search, "f.c", &mut outcome));
    assert_eq!(texts(outcome.iter_selected()), ["a", "b=2", "!nothing"]);
    let b = outcome.iter_selected().nth(1).unwrap();
    assert_eq!((b.location.source, b.location.sequence_number), (Some(Path::new(".gitattributes")), 2));
    assert_eq!((b.pattern.to_string(), b.kind), ("*.c".to_string(), MatchKind::Attribute { macro_id: None }));

    outcome.reset();
    assert!(find(&search, "sub/f.c", &mut outcome));
    assert_eq!(texts(outcome.iter_selected()), ["-a", "b=2", "!nothing"]);
    assert!(outcome.is_done());
    outcome.reset();
    assert!(!find(&search, "f.h", &mut outcome));
    assert_eq!(texts(outcome.iter_selected()), ["!a", "!b", "!nothing"]);
}

#[test]
fn macros_bring_attributes_and_are_told() {
    let (search, names) = search(&[("", "[attr]m n x=1\n[attr]n -y\n* m\n* !x\n")]);
    let mut all = Outcome::default();
    all.initialize(&names);
    assert!(find(&search, "f", &mut all));
    assert_eq!(texts(all.iter()), ["m", "n", "!x", "-y"]);
    let of = |name: &str, outcome: &Outcome| {
        let id = names.iter().find(|(known, _)| *known == name).unwrap().1.id;
        outcome.match_by_id(id).map(|it| (it.assignment.to_string(), it.kind))
    };
    let id = |name: &str| names.iter().find(|(known, _)| *known == name).unwrap().1.id;
    assert_eq!(of("m", &all), Some(("m".into(), MatchKind::Macro { parent_macro_id: None })));
    assert_eq!(of("n", &all), Some(("n".into(), MatchKind::Macro { parent_macro_id: Some(id("m")) })));
    assert_eq!(of("y", &all), Some(("-y".into(), MatchKind::Attribute { macro_id: Some(id("n")) })));
    assert_eq!(all.match_by_id(AttributeId(99)), None);

    // The same under a selection, also of macros that aren't selected, and of all others.
    let mut some = outcome(&names, &["y"]);
    assert!(find(&search, "f", &mut some));
    for name in ["m", "n", "x", "y"] {
        assert_eq!(of(name, &some), of(name, &all), "{name}");
    }
    assert_eq!(texts(some.iter()), ["m", "n", "!x", "-y"]);
    assert_eq!(texts(some.iter_selected()), ["-y"]);
    some.reset();
    assert_eq!((some.match_by_id(id("m")), some.iter().count()), (None, 0));
    assert!(find(&search, "f", &mut some));
    assert_eq!(texts(some.iter_selected()), ["-y"]);
}

/// Two searches find what one does, also for a macro of the later one that the first one unsets.
#[test]
fn searches_follow_one_another() {
    let mut names = MetadataCollection::default();
    let (mut globals, mut stack) = (Search::default(), Search::default());
    add(&mut globals, &mut names, "", "[attr]m x=1\n* m y\n");
    add(&mut stack, &mut names, "", "*.c -m\n");
    let mut outcome = Outcome::default();
    for round in 0..3 {
        for (path, first, then) in [("f.c", vec!["-m"], vec!["-m", "y"]), ("f", vec![], vec!["m", "x=1", "y"])] {
            outcome.initialize(&names);
            assert_eq!(find(&stack, path, &mut outcome), !first.is_empty());
            assert_eq!(texts(outcome.iter()), first, "{round}");
            let mut copy = outcome.clone();
            assert!(find(&globals, path, &mut outcome));
            assert_eq!(texts(outcome.iter()), then, "{round}");
            assert!(find(&globals, path, &mut copy));
            assert_eq!(texts(copy.iter()), then);
            assert!(!find(&globals, path, &mut copy));
            assert_eq!(texts(copy.iter()), then);
        }
        // The other way round.
        outcome.initialize(&names);
        assert!(find(&globals, "f.c", &mut outcome));
        assert_eq!((texts(outcome.iter()), outcome.is_done()), (vec!["m".into(), "x=1".into(), "y".into()], true));
        assert!(!find(&stack, "f.c", &mut outcome));
    }
}

/// What was found stays, whatever is searched for then.
#[test]
fn another_path_without_a_reset() {
    let (search, names) = search(&[("", "[attr]m x y\n/a -m !z w=v\n/b m z -w\n/c z x=2\n")]);
    let mut outcome = Outcome::default();
    outcome.initialize(&names);
    assert!(find(&search, "a", &mut outcome));
    assert_eq!(texts(outcome.iter()), ["-m", "!z", "w=v"]);
    assert!(!find(&search, "b", &mut outcome));
    assert!(find(&search, "c", &mut outcome));
    assert_eq!(texts(outcome.iter()), ["-m", "x=2", "!z", "w=v"]);
    let lines: Vec<usize> = outcome.iter().map(|it| it.location.sequence_number).collect();
    assert_eq!(lines, [2, 4, 2, 2]);
    outcome.reset();
    assert!(find(&search, "b", &mut outcome));
    assert_eq!(texts(outcome.iter()), ["m", "x", "y", "z", "-w"]);
}

#[test]
fn lists_are_popped_and_the_collection_stays() {
    let (mut search, mut names) = search(&[("", "[attr]m x\n* m\n"), ("d", "* -m\n")]);
    let mut outcome = outcome(&names, &["m", "x"]);
    find(&search, "d/f", &mut outcome);
    assert_eq!(texts(outcome.iter_selected()), ["-m", "!x"]);
    let popped = search.pop_pattern_list().unwrap();
    assert_eq!((popped.patterns.len(), popped.base), (1, Some("d/".into())));
    outcome.initialize(&names);
    find(&search, "d/f", &mut outcome);
    assert_eq!(texts(outcome.iter_selected()), ["m", "x"]);
    search.pop_pattern_list().unwrap();
    assert_eq!((search.pop_pattern_list(), search.num_pattern_lists()), (None, 0));
    // The definition is there still.
    add(&mut search, &mut names, "", "* m\n");
    outcome.initialize(&names);
    find(&search, "f", &mut outcome);
    assert_eq!(texts(outcome.iter_selected()), ["m", "x"]);
    // The last one counts, also if it is empty.
    add(&mut search, &mut names, "", "[attr]m -x\n");
    outcome.initialize(&names);
    find(&search, "f", &mut outcome);
    assert_eq!(texts(outcome.iter_selected()), ["m", "-x"]);
    add(&mut search, &mut names, "", "[attr]m\n");
    outcome.initialize(&names);
    find(&search, "f", &mut outcome);
    assert_eq!(texts(outcome.iter_selected()), ["m", "!x"]);
}

#[test]
fn outcomes_are_copied_into_others() {
    let (search, names) = search(&[("", "* a b c=1\n")]);
    let mut from = outcome(&names, &["a", "c"]);
    find(&search, "f", &mut from);
    let mut all = Outcome::default();
    from.copy_into(&names, &mut all);
    assert_eq!((texts(all.iter()), all.is_done()), (vec!["a".into(), "b".into(), "c=1".into()], true));
    let mut other = outcome(&names, &["c", "d", "b"]);
    from.copy_into(&names, &mut other);
    assert_eq!((texts(other.iter_selected()), other.is_done()), (vec!["c=1".into(), "!d".into(), "b".into()], true));
    assert_eq!(format!("{other:?}"), "Outcome(c=1, !d, b)");
}

/// An outcome of two collections in turn, whose names have other numbers.
#[test]
fn another_collection() {
    let (first, first_names) = search(&[("", "* z y\n")]);
    let (second, second_names) = search(&[("", "[attr]m q\n* w z q m\n")]);
    let mut outcome = outcome(&first_names, &["z", "q"]);
    for _ in 0..2 {
        find(&first, "f", &mut outcome);
        assert_eq!(texts(outcome.iter_selected()), ["z", "!q"]);
        outcome.initialize(&second_names);
        find(&second, "f", &mut outcome);
        assert_eq!(texts(outcome.iter_selected()), ["z", "q"]);
        outcome.initialize(&first_names);
    }
}

#[test]
fn directories_of_any_bytes() {
    use std::os::unix::ffi::OsStrExt;
    let (mut search, mut names) = (Search::default(), MetadataCollection::default());
    for directory in [&b"\xe9"[..], b"a/../b", b"."] {
        let source = Path::new(std::ffi::OsStr::from_bytes(directory)).join(".gitattributes");
        search.add_patterns_buffer(b"*.c text\n", source, Some(Path::new("")), &mut names, false).unwrap();
    }
    let mut outcome = outcome(&names, &["text"]);
    let path: &BStr = b"\xe9/a.c".as_bstr();
    assert!(search.pattern_matching_relative_path(path, Case::Sensitive, Some(false), &mut outcome));
    assert_eq!(texts(outcome.iter_selected()), ["text"]);
}

#[test]
fn searches_are_values() {
    let (mut one, mut names) = search(&[("", "* a\n")]);
    let (mut two, mut copied) = (one.clone(), names.clone());
    assert_eq!(one, two);
    add(&mut one, &mut names, "", "* b -a\n");
    add(&mut two, &mut copied, "", "* c !a\n");
    assert_ne!(one, two);
    for (search, names, wanted) in [(&one, &names, ["-a", "b"]), (&two, &copied, ["!a", "c"])] {
        let mut outcome = Outcome::default();
        outcome.initialize(names);
        find(search, "f", &mut outcome);
        assert_eq!(texts(outcome.iter()), wanted);
    }
    let mut outcome = Outcome::default();
    outcome.initialize(&Default::default());
    assert!(outcome.is_done() && !find(&one, "f", &mut outcome));
}

/// Searches, collections and outcomes go from thread to thread, and are read by several.
#[test]
fn threads() {
    fn are_sent_and_shared<T: Send + Sync>(_: &T) {}
    let (search, names) = search(&[("", "[attr]m x\n*.c m\n")]);
    let mut outcome = outcome(&names, &["x"]);
    are_sent_and_shared(&(&search, &names, &outcome));
    find(&search, "f.c", &mut outcome);
    std::thread::scope(|scope| {
        for _ in 0..4 {
            scope.spawn(|| {
                assert_eq!(texts(outcome.iter()), ["m", "x"]);
                let (search, mut own) = (search.clone(), outcome.clone());
                for path in ["f.c", "f.h", "d/f.c"] {
                    own.initialize(&names);
                    find(&search, path, &mut own);
                    assert_eq!(texts(own.iter_selected()), [if path.ends_with(".c") { "x" } else { "!x" }]);
                }
            });
        }
    });
    std::thread::spawn(move || assert_eq!(texts(outcome.iter_selected()), ["x"])).join().unwrap();
}
