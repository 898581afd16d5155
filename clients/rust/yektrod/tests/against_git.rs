//! Stacks over trees that are made by chance answer as `git check-attr` does in work trees of the same files.

mod made;

use made::{Chance, Tree, NONE, SMALL};
use std::collections::BTreeMap;
use std::ffi::OsStr;
use std::fs;
use std::io::Write;
use std::os::unix::ffi::OsStrExt;
use std::path::{Path, PathBuf};
use std::process::{Command, Stdio};
use yektrod::stack::Limits;
use yektrod::{Answers, Case, Stack};

const NAMES: [&str; 9] = ["text", "eol", "diff", "binary", "m1", "m2", "value", "unknown", "text"];

/// States by name, as git prints both.
type Told = BTreeMap<Vec<u8>, Vec<u8>>;

/// A work tree in a directory of its own, which is removed at the end.
struct WorkTree(PathBuf);

impl WorkTree {
    fn new(name: &str, tree: &Tree) -> WorkTree {
        let top = std::env::temp_dir().join(format!("yektrod-{}-{name}", std::process::id()));
        fs::create_dir_all(&top).unwrap();
        let made = WorkTree(top);
        made.git(&["init", "-q", "."], b"");
        made.git(&["config", "core.attributesFile", ".git/user"], b"");
        for directory in &tree.directories {
            fs::create_dir_all(made.path(directory)).unwrap();
        }
        for (directory, contents) in &tree.files {
            fs::write(made.path(directory).join(".gitattributes"), contents).unwrap();
        }
        // A test can't write git's system file. One file of both gives the same answers.
        fs::write(made.0.join(".git/user"), [&tree.system[..], &tree.user].concat()).unwrap();
        fs::create_dir_all(made.0.join(".git/info")).unwrap();
        fs::write(made.0.join(".git/info/attributes"), &tree.info).unwrap();
        made
    }

    fn path(&self, directory: &[u8]) -> PathBuf {
        self.0.join(OsStr::from_bytes(directory))
    }

    /// What git prints, of nobody's configuration.
    fn git(&self, words: &[&str], input: &[u8]) -> Vec<u8> {
        let mut command = git(&self.0);
        let mut child = command.args(words).spawn().unwrap();
        let mut stdin = child.stdin.take().unwrap();
        let input = input.to_vec();
        let writer = std::thread::spawn(move || stdin.write_all(&input));
        let output = child.wait_with_output().unwrap();
        writer.join().unwrap().unwrap();
        assert!(output.status.success(), "git {words:?}: {}", String::from_utf8_lossy(&output.stderr));
        output.stdout
    }

    /// What git tells of each path.
    fn answers(&self, words: &[&str], paths: &[Vec<u8>]) -> BTreeMap<Vec<u8>, Told> {
        let mut answers: BTreeMap<Vec<u8>, Told> = paths.iter().map(|path| (path.clone(), Told::new())).collect();
        let output = self.git(&[&["check-attr", "--stdin", "-z"], words].concat(), &paths.join(&0));
        let mut fields = output.split(|&byte| byte == 0);
        while let (Some(path), Some(name), Some(state)) = (fields.next(), fields.next(), fields.next()) {
            if !name.starts_with(b"builtin_") {
                answers.get_mut(path).unwrap().insert(name.to_vec(), state.to_vec());
            }
        }
        answers
    }
}

impl Drop for WorkTree {
    fn drop(&mut self) {
        let _ = fs::remove_dir_all(&self.0);
    }
}

fn git(directory: &Path) -> Command {
    let mut command = Command::new("git");
    let path = std::env::var_os("PATH").unwrap_or_default();
    command.current_dir(directory).env_clear().env("PATH", path).env("HOME", directory).env("LC_ALL", "C").envs([
        ("GIT_CONFIG_NOSYSTEM", "1"),
        ("GIT_ATTR_NOSYSTEM", "1"),
        ("GIT_CONFIG_GLOBAL", "/dev/null"),
        ("GIT_FLUSH", "0"),
    ]);
    command.stdin(Stdio::piped()).stdout(Stdio::piped()).stderr(Stdio::piped());
    command
}

fn told(answers: Answers<'_>) -> Told {
    answers.iter().map(|answer| (answer.name.to_vec(), answer.state.as_bytes().to_vec())).collect()
}

/// Asks for each path, all names and some, and compares with git.
fn compare(name: &str, tree: &Tree, paths: &[Vec<u8>], case: Case, limits: &[Limits]) {
    let work_tree = WorkTree::new(name, tree);
    let fold: &[&str] = &["config", "core.ignoreCase", if case == Case::Fold { "true" } else { "false" }];
    work_tree.git(fold, b"");
    let all = work_tree.answers(&["--all"], paths);
    let some = work_tree.answers(&NAMES, paths);
    for &limits in limits {
        let mut options = tree.options(limits);
        options.case = case;
        let mut stack = Stack::with_options(tree.reader(), options).unwrap();
        for (index, path) in paths.iter().enumerate() {
            let is_dir = if index % 2 == 0 { Some(false) } else { None };
            assert_eq!(told(stack.ask(path, is_dir).unwrap()), all[path], "{name}: {}, {limits:?}", path.escape_ascii());
        }
        stack.select(&NAMES).unwrap();
        for path in paths {
            assert_eq!(told(stack.ask(path, None).unwrap()), some[path], "{name}: {}, {limits:?}", path.escape_ascii());
        }
    }
}

/// Whether git is here. The gate sees to it that it is.
fn has_git() -> bool {
    let found = Command::new("git").arg("--version").stdout(Stdio::null()).status().is_ok();
    if !found {
        eprintln!("there is no git here, so this is left out");
    }
    found
}

#[test]
fn shuffled_paths_of_many_directories() {
    if !has_git() {
        return;
    }
    for seed in 0..3 {
        let mut chance = Chance::new(seed);
        let tree = Tree::new(&mut chance, 30 + 80 * seed as usize);
        let paths = tree.paths(&mut chance, 10_000);
        compare(&format!("shuffled-{seed}"), &tree, &paths, Case::Sensitive, &[Limits::default(), SMALL]);
    }
}

#[test]
fn paths_in_order() {
    if !has_git() {
        return;
    }
    let mut chance = Chance::new(100);
    let tree = Tree::new(&mut chance, 200);
    let mut paths = tree.paths(&mut chance, 10_000);
    paths.sort();
    compare("ordered", &tree, &paths, Case::Sensitive, &[Limits::default(), SMALL, NONE]);
}

#[test]
fn letters_in_either_case() {
    if !has_git() {
        return;
    }
    for seed in 200..203 {
        let mut chance = Chance::new(seed);
        let tree = Tree::new(&mut chance, 60);
        let paths = tree.paths(&mut chance, 2_000);
        compare(&format!("fold-{seed}"), &tree, &paths, Case::Fold, &[Limits::default(), NONE]);
    }
}
