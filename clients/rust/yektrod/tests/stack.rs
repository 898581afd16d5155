//! What a stack reads, keeps and hands out, beside its answers.

mod made;

use made::{Chance, Map, Tree, NONE, SMALL};
use std::collections::BTreeMap;
use std::thread;
use yektrod::stack::{AskError, Limits, Options};
use yektrod::{Answer, Answers, Case, Error, Reason, Stack};

/// States and where they come from, by name.
type Told = BTreeMap<Vec<u8>, (Vec<u8>, Option<(Vec<u8>, usize)>)>;

fn told(answers: Answers<'_>) -> Told {
    let row = |answer: Answer<'_>| {
        let origin = answer.origin.map(|origin| (origin.source.to_vec(), origin.line));
        (answer.name.to_vec(), (answer.state.as_bytes().to_vec(), origin))
    };
    answers.iter().map(row).collect()
}

fn stack(tree: &Tree, limits: Limits) -> Stack<Map> {
    Stack::with_options(tree.reader(), tree.options(limits)).unwrap()
}

fn map(files: &[(&str, &str)]) -> Map {
    let files = files.iter().map(|(directory, contents)| (directory.as_bytes().to_vec(), contents.as_bytes().to_vec()));
    Tree { files: files.collect(), ..Tree::default() }.reader()
}

/// The states of an attribute for some paths.
fn states(stack: &mut Stack<Map>, name: &str, paths: &[&str]) -> Vec<String> {
    stack.select(&[name]).unwrap();
    paths.iter().map(|path| stack.ask(path.as_bytes(), None).unwrap().get(0).unwrap().state.to_string()).collect()
}

/// How many files git reads: for each path those of its directories that are not directories of the path before it.
fn reads_of_git(tree: &Tree, paths: &[Vec<u8>]) -> usize {
    let mut before: Vec<&[u8]> = Vec::new();
    let mut count = 0;
    for path in paths {
        let directories: Vec<&[u8]> = tree.files.keys().map(Vec::as_slice).filter(|it| is_above(it, path)).collect();
        count += directories.iter().filter(|it| !before.contains(it)).count();
        before = directories;
    }
    count
}

/// Whether a path lies in a directory or below it.
fn is_above(directory: &[u8], path: &[u8]) -> bool {
    directory.is_empty() || path.strip_prefix(directory).map_or(false, |rest| rest.len() > 1 && rest[0] == b'/')
}

#[test]
fn answers_do_not_depend_on_the_order_or_the_limits() {
    let mut chance = Chance::new(1);
    let tree = Tree::new(&mut chance, 100);
    let mut paths = tree.paths(&mut chance, 2_000);
    let mut alone = stack(&tree, Limits::default());
    let wanted: BTreeMap<_, _> = paths.iter().map(|path| (path.clone(), told(alone.ask(path, None).unwrap()))).collect();
    for limits in [Limits::default(), SMALL, NONE] {
        for sorted in [true, false] {
            let mut asked = stack(&tree, limits);
            if sorted {
                paths.sort();
            } else {
                chance.shuffle(&mut paths);
            }
            for path in &paths {
                assert_eq!(told(asked.ask(path, None).unwrap()), wanted[path], "{}", path.escape_ascii());
            }
        }
    }
}

#[test]
fn each_directory_is_read_once() {
    let mut chance = Chance::new(2);
    let tree = Tree::new(&mut chance, 100);
    let mut asked = stack(&tree, Limits::default());
    for path in tree.paths(&mut chance, 3_000) {
        asked.ask(&path, None).unwrap();
    }
    assert!(tree.files.keys().all(|directory| asked.reader().reads.contains_key(directory)));
    assert!(asked.reader().reads.values().all(|&count| count == 1));
}

/// With no contents kept, each list that is added is one read.
#[test]
fn few_lists_are_added_again_if_all_may_stand() {
    let mut chance = Chance::new(3);
    let tree = Tree::new(&mut chance, 100);
    let mut asked = stack(&tree, Limits { contents: 0, ..Limits::default() });
    for path in tree.paths(&mut chance, 3_000) {
        asked.ask(&path, None).unwrap();
    }
    let reads: usize = tree.files.keys().map(|directory| asked.reader().reads[directory]).sum();
    assert!(reads < 3 * tree.files.len(), "{reads} reads of {} files", tree.files.len());
}

#[test]
fn no_more_than_twice_as_many_lists_are_added_as_by_git() {
    for seed in 4..10 {
        let mut chance = Chance::new(seed);
        let tree = Tree::new(&mut chance, 100);
        let paths = tree.paths(&mut chance, 1_000);
        for lists in [0, 5_000, 10_000, 50_000, 100_000] {
            let mut asked = stack(&tree, Limits { lists, contents: 0, ..Limits::default() });
            for path in &paths {
                asked.ask(path, None).unwrap();
            }
            let reads: usize = tree.files.keys().filter_map(|directory| asked.reader().reads.get(directory)).sum();
            let wanted = reads_of_git(&tree, &paths);
            assert!(reads <= 2 * wanted, "{lists}: {reads} reads, and {wanted} of git");
            assert!(lists > 0 || reads <= wanted, "{reads} reads, and {wanted} of git");
            assert!(lists < 100_000 || 10 * reads < 7 * wanted, "{reads} reads, and {wanted} of git");
        }
    }
}

#[test]
fn in_a_walk_each_list_is_added_once() {
    let mut chance = Chance::new(11);
    let tree = Tree::new(&mut chance, 100);
    let mut paths = tree.paths(&mut chance, 3_000);
    paths.sort();
    let mut asked = stack(&tree, Limits { lists: 0, contents: 0, ..Limits::default() });
    for path in &paths {
        asked.ask(path, None).unwrap();
    }
    assert!(asked.reader().reads.values().all(|&count| count == 1));
}

#[test]
fn lists_that_are_added_again_let_others_stay() {
    let heavy = "x a\n".repeat(200);
    let files = [("", &heavy[..]), ("a", "* a\n"), ("b", "* b\n"), ("c", &heavy), ("d", "* d\n")];
    let options = Options { limits: Limits { lists: 10_000, contents: 0, ..Limits::default() }, ..Options::default() };
    let mut asked = Stack::with_options(map(&files), options).unwrap();
    let mut reads_of_a = |path: &[u8]| {
        asked.ask(path, None).unwrap();
        asked.reader().reads[&b"a"[..]]
    };
    let reads = [b"a/f", b"b/f", b"a/f", b"b/f", b"a/f", b"b/f", b"a/f"].map(|path| reads_of_a(path));
    assert_eq!(reads, [1, 1, 2, 2, 2, 2, 2]);
    // One that is above the limit by itself is taken off, and all others with it.
    assert_eq!([b"c/f", b"a/f", b"d/f", b"a/f"].map(|path| reads_of_a(path)), [2, 2, 2, 3]);
}

#[test]
fn info_alone() {
    let tree = Tree { info: b"* a\n".to_vec(), ..Tree::default() };
    assert_eq!(states(&mut stack(&tree, Limits::default()), "a", &["f", "d/f"]), ["set", "set"]);
}

#[test]
fn each_failure_of_the_reader_in_turn() {
    let mut chance = Chance::new(20);
    let tree = Tree::new(&mut chance, 40);
    let paths = tree.paths(&mut chance, 120);
    let mut whole = stack(&tree, Limits::default());
    let wanted: Vec<Told> = paths.iter().map(|path| told(whole.ask(path, None).unwrap())).collect();
    for limits in [Limits::default(), SMALL, NONE] {
        let mut fails_at = 1;
        while fails(&tree, limits, &paths, &wanted, fails_at) {
            fails_at += 1;
        }
        assert!(fails_at > tree.files.len());
    }
}

/// Asks for all paths while one read fails; then the path before it has its answers, and so has the path itself. Returns
/// whether it came to this read.
fn fails(tree: &Tree, limits: Limits, paths: &[Vec<u8>], wanted: &[Told], fails_at: usize) -> bool {
    let mut asked = stack(tree, limits);
    asked.reader_mut().fails_at = Some(fails_at);
    let mut failed = false;
    let mut before: Option<(&Vec<u8>, &Told)> = None;
    for (path, wanted) in paths.iter().zip(wanted) {
        let first = match asked.ask(path, None) {
            Ok(answers) => Some(told(answers)),
            Err(AskError::Read { directory, error }) => {
                assert!(is_above(&directory, path), "{} for {}", directory.escape_ascii(), path.escape_ascii());
                assert_eq!(error.to_string(), "this read fails");
                None
            }
            Err(error) => panic!("{error}"),
        };
        if let (None, Some((path, wanted))) = (&first, before) {
            assert_eq!(told(asked.ask(path, None).unwrap()), *wanted, "{} after read {fails_at} failed", path.escape_ascii());
        }
        failed |= first.is_none();
        before = Some((path, wanted));
        let answers = first.unwrap_or_else(|| told(asked.ask(path, None).unwrap()));
        assert_eq!(answers, *wanted, "{} after read {fails_at} failed", path.escape_ascii());
    }
    failed
}

#[test]
fn a_path_after_a_failure_may_be_another_one() {
    let mut asked = Stack::new(map(&[("", "* a=top\n"), ("b", "* a=b\n"), ("c", "* a=c\n")])).unwrap();
    asked.select(&["a"]).unwrap();
    asked.reader_mut().fails_at = Some(3);
    assert_eq!(states(&mut asked, "a", &["f", "b/f"]), ["top", "b"]);
    asked.reader_mut().fails_at = Some(4);
    asked.reader_mut().count = 3;
    assert!(matches!(asked.ask(b"c/f", None), Err(AskError::Read { .. })));
    assert_eq!(states(&mut asked, "a", &["f", "b/f", "c/f"]), ["top", "b", "c"]);
}

#[test]
fn precedence_of_the_files() {
    let tree = Tree {
        files: map(&[("", "* c=top d=top e=top f=top\n"), ("a", "* d=a e=a f=a\n"), ("a/b", "* e=b f=b\n")]).files,
        system: b"* a=system b=system c=system\n".to_vec(),
        user: b"* b=user c=user\n".to_vec(),
        info: b"* f=info\n".to_vec(),
        ..Tree::default()
    };
    let mut asked = stack(&tree, Limits::default());
    let names = ["a", "b", "c", "d", "e", "f"];
    let mut of = |path: &[u8]| {
        asked.select(&names).unwrap();
        asked.ask(path, None).unwrap().iter().map(|answer| answer.state.to_string()).collect::<Vec<_>>()
    };
    assert_eq!(of(b"a/b/f"), ["system", "user", "top", "a", "b", "info"]);
    assert_eq!(of(b"a/f"), ["system", "user", "top", "a", "a", "info"]);
    assert_eq!(of(b"f"), ["system", "user", "top", "top", "top", "info"]);
}

#[test]
fn macros_are_defined_everywhere_but_below_the_top() {
    let tree = Tree {
        files: map(&[("", "[attr]m3 x3\n* m1 m2 m3 m4 m5\n"), ("a", "[attr]m4 x4\n")]).files,
        system: b"[attr]m1 x1\n".to_vec(),
        user: b"[attr]m2 x2\n".to_vec(),
        info: b"[attr]m5 x5\n".to_vec(),
        ..Tree::default()
    };
    let mut asked = stack(&tree, Limits::default());
    asked.select(&["x1", "x2", "x3", "x4", "x5"]).unwrap();
    let states: Vec<String> = asked.ask(b"a/f", None).unwrap().iter().map(|answer| answer.state.to_string()).collect();
    assert_eq!(states, ["set", "set", "set", "unspecified", "set"]);
}

#[test]
fn a_slash_at_the_end_makes_a_directory() {
    let files = [("", "* a=top\nd/ b\n"), ("d", "* a=d\n")];
    let mut asked = Stack::new(map(&files)).unwrap();
    assert_eq!(states(&mut asked, "a", &["d", "d/", "d/d/", "d/d/f", ""]), ["top", "top", "d", "d", "top"]);
    assert_eq!(states(&mut asked, "b", &["d", "d/", "d/d/", "d/d"]), ["unspecified", "set", "set", "unspecified"]);
    assert_eq!(asked.ask(b"d", Some(true)).unwrap().get(0).unwrap().state.to_string(), "set");
    assert_eq!(asked.ask(b"d/", Some(false)).unwrap().get(0).unwrap().state.to_string(), "set");
}

#[test]
fn paths_that_are_refused() {
    let mut asked = Stack::new(map(&[("", "* a\n")])).unwrap();
    for path in ["/", "/a", "a//", "//", "a//b", "./a", "a/.", "..", "../a", "a/../b"] {
        assert!(matches!(asked.ask(path.as_bytes(), None), Err(AskError::InvalidPath)), "{path}");
    }
    assert_eq!(states(&mut asked, "a", &["a", "...", ".a/b.."]), ["set", "set", "set"]);
}

#[test]
fn dropped_lines_are_handed_out_once() {
    let tree = Tree {
        files: map(&[("", "* a\n!x b\n"), ("d", "* builtin_x\n\n* -\n"), ("e", "* a\n")]).files,
        user: b"[attr]-x b\n".to_vec(),
        info: b"!x b\n".to_vec(),
        ..Tree::default()
    };
    let mut asked = stack(&tree, NONE);
    let mut handed_out = Vec::new();
    for path in ["f", "d/f", "e/f", "d/f", "f", "d/f"] {
        asked.ask(path.as_bytes(), None).unwrap();
        for file in asked.take_dropped() {
            let source = String::from_utf8(file.source).unwrap();
            handed_out.extend(file.lines.iter().map(|dropped| (path, source.clone(), dropped.line, dropped.reason)));
        }
    }
    let row = |path, source: &str, line, reason| (path, source.to_string(), line, reason);
    let wanted = [
        row("f", "/home/user/attributes", 1, Reason::MacroName),
        row("f", ".gitattributes", 2, Reason::NegativePattern),
        row("f", ".git/info/attributes", 1, Reason::NegativePattern),
        row("d/f", "d/.gitattributes", 1, Reason::Reserved),
        row("d/f", "d/.gitattributes", 3, Reason::InvalidName),
    ];
    assert_eq!(handed_out, wanted);
}

#[test]
fn directories_that_differ_in_case() {
    let options = Options { case: Case::Fold, ..Options::default() };
    let files = [("a", "* x=a\n"), ("a/b", "* x=b\n"), ("A", "* x=A y\n")];
    let mut asked = Stack::with_options(map(&files), options).unwrap();
    assert_eq!(states(&mut asked, "x", &["a/b/f", "A/f", "a/b/f", "a/B/f", "B/f"]), ["b", "A", "b", "a", "unspecified"]);
    assert_eq!(states(&mut asked, "y", &["A/f", "a/f", "A/b/f"]), ["set", "unspecified", "set"]);
}

#[test]
fn selections_stay() {
    let mut asked = Stack::new(map(&[("d", "* a=1 b=2\n"), ("e", "* b=3\n")])).unwrap();
    asked.select(&["b", "a"]).unwrap();
    for path in ["f", "d/f", "e/f", "d/f"] {
        let answers = asked.ask(path.as_bytes(), None).unwrap();
        assert_eq!(answers.iter().map(|answer| answer.name).collect::<Vec<_>>(), [b"b", b"a"]);
    }
    asked.select_all().unwrap();
    assert_eq!((asked.ask(b"f", None).unwrap().len(), asked.ask(b"e/f", None).unwrap().len()), (0, 1));
    assert_eq!(asked.select(&[b"\xff"]), Err(Error::InvalidName));
}

#[test]
fn stacks_change_threads() {
    let mut chance = Chance::new(30);
    let tree = Tree::new(&mut chance, 60);
    let paths = tree.paths(&mut chance, 800);
    let mut one = stack(&tree, Limits::default());
    let wanted: Vec<Told> = paths.iter().map(|path| told(one.ask(path, None).unwrap())).collect();
    let mut asked = stack(&tree, SMALL);
    for (paths, wanted) in paths.chunks(100).zip(wanted.chunks(100)) {
        let (paths, wanted) = (paths.to_vec(), wanted.to_vec());
        let passed_on = thread::spawn(move || {
            for (path, wanted) in paths.iter().zip(wanted) {
                assert_eq!(told(asked.ask(path, None).unwrap()), wanted);
            }
            asked
        });
        asked = passed_on.join().unwrap();
    }
}
