//! Random programs over the surface of the crate `gix-attributes`: lists are added and popped, two searches of one collection
//! follow one another, outcomes, searches and collections are copied, names are selected, letters match in either case. What is
//! found is printed after each step, so that the outputs of two crates can be compared.
//!
//! usage: random FIRST LAST new|kept
//!
//! It plays the programs with the seeds from FIRST to below LAST, with an outcome that is new for each path, or one that is kept
//! while the collection grows.

use gix_attributes::Search;
use gix_attributes::glob::pattern::Case;
use gix_attributes::search::{Match, MatchKind, MetadataCollection, Outcome};
use std::error::Error;
use std::fmt::Write;
use std::path::{Path, PathBuf};

/// Numbers by chance, the same ones for a seed.
struct Random(u64);

impl Random {
    fn new(seed: u64) -> Random {
        Random(seed.wrapping_mul(0x9e37_79b9_7f4a_7c15) ^ 0x2545_f491_4f6c_dd1d)
    }

    fn below(&mut self, count: usize) -> usize {
        self.0 = self.0.wrapping_mul(6_364_136_223_846_793_005).wrapping_add(1_442_695_040_888_963_407);
        ((self.0 >> 33) % count as u64) as usize
    }

    fn of<T: Copy>(&mut self, choices: &[T]) -> T {
        choices[self.below(choices.len())]
    }

    /// An attributes file.
    fn file(&mut self) -> String {
        let mut file = String::new();
        for _ in 0..self.below(7) {
            match self.below(12) {
                0 | 1 => write!(file, "[attr]{}", self.of(&["m", "n", "o", "binary", "a"])).unwrap(),
                2 => file.push_str(self.of(&[
                    "\"a b\"",
                    "\"x\\141\"",
                    "!a",
                    "# c",
                    "",
                    " \t",
                    "\\!a",
                    "[attr]-m",
                    "[attr]builtin_x",
                    "/",
                    "a/",
                    "\"a",
                    "\\",
                ])),
                _ => {
                    for _ in 0..1 + self.below(4) {
                        file.push_str(self.of(&["a", "b", "*", "**", "?", "/", "[a-c]", "\\a", "A", "*.c", "/**/", ".c"]));
                    }
                }
            }
            for _ in 0..self.below(4) {
                file.push(' ');
                file.push_str(self.of(&["", "", "", "-", "!"]));
                let names = ["a", "b", "c", "m", "n", "o", "binary", "text", "x=1", "x=", "a=v=w", "m=v", "-y", "builtin_z"];
                file.push_str(self.of(&names));
            }
            file.push_str(self.of(&["\n", "\n", "\n", "\r\n"]));
        }
        file
    }

    fn path(&mut self) -> String {
        let mut part = |_| (0..1 + self.below(3)).map(|_| self.of(&["a", "b", "c", "A", ".c", "x"])).collect::<String>();
        let mut parts = vec![part(0)];
        while parts.len() < 3 && parts[parts.len() - 1].len() % 2 == 0 {
            parts.push(part(0));
        }
        parts.join("/")
    }

    /// Names, each once: the crate counts a name that is selected twice as two.
    fn selection(&mut self) -> Vec<&'static str> {
        let mut names = Vec::new();
        for _ in 0..self.below(4) {
            let name = self.of(&["a", "b", "m", "x", "text", "zz", "-bad", "binary"]);
            if !names.contains(&name) {
                names.push(name);
            }
        }
        names
    }
}

/// Two searches with the names of both.
struct Lists {
    names: MetadataCollection,
    globals: Search,
    stack: Search,
}

impl Lists {
    fn new(random: &mut Random) -> Result<Lists, Box<dyn Error>> {
        let mut names = MetadataCollection::default();
        let mut globals = match random.below(3) {
            0 => Search::default(),
            _ => Search::new_globals(Vec::<PathBuf>::new(), &mut Vec::new(), &mut names)?,
        };
        for number in 0..random.below(3) {
            let source = format!("global {number}").into();
            globals.add_patterns_buffer(random.file().as_bytes(), source, None, &mut names, true)?;
        }
        Ok(Lists { names, globals, stack: Search::default() })
    }

    fn push(&mut self, random: &mut Random) -> Result<(), Box<dyn Error>> {
        let directory = Path::new(random.of(&["", "a", "a/b", "A", "b"]));
        let allow_macros = directory.as_os_str().is_empty() && random.below(2) == 0;
        let (file, source) = (random.file(), directory.join(".gitattributes"));
        Ok(self.stack.add_patterns_buffer(file.as_bytes(), source, Some(Path::new("")), &mut self.names, allow_macros)?)
    }
}

fn outcome(names: &MetadataCollection, selection: &[&str]) -> Outcome {
    let mut outcome = Outcome::default();
    if !selection.is_empty() {
        outcome.initialize_with_selection(names, selection);
    }
    outcome
}

/// All that is told of a match, with the chain of macros that bring it.
fn text(it: Match<'_>, outcome: &Outcome) -> String {
    let kind = if matches!(it.kind, MatchKind::Macro { .. }) { "macro " } else { "" };
    let mut text = format!("{kind}{} {:?} {:?}", it.assignment, it.pattern, it.location);
    let mut next = it.kind.source_id();
    while let Some(cause) = next.and_then(|id| outcome.match_by_id(id)) {
        write!(text, " of {}", cause.assignment).unwrap();
        next = cause.kind.source_id();
    }
    text
}

/// What is found. Under a selection all else is told too where the search didn't end early.
fn texts(outcome: &Outcome, selection: &[&str], names: &MetadataCollection) -> Vec<String> {
    let all_are_found = selection.is_empty() || !outcome.is_done();
    let all = all_are_found.then(|| outcome.iter().map(|it| text(it, outcome))).into_iter().flatten();
    let mut texts: Vec<String> = outcome.iter_selected().map(|it| text(it, outcome)).chain(all).collect();
    if all_are_found {
        let mut copy = Outcome::default();
        outcome.copy_into(names, &mut copy);
        texts.push(format!("copied: {copy:?}"));
    }
    texts
}

fn play(seed: u64, is_kept: bool) -> Result<(), Box<dyn Error>> {
    let mut random = Random::new(seed);
    let mut lists = Lists::new(&mut random)?;
    let selection = random.selection();
    let mut found = outcome(&Default::default(), &selection);
    let mut other = found.clone();
    println!("{seed}: {selection:?}");
    for _ in 0..6 {
        match random.below(5) {
            0 => drop(lists.stack.pop_pattern_list()),
            1 | 2 => lists.push(&mut random)?,
            3 => lists = Lists { names: lists.names.clone(), globals: lists.globals.clone(), stack: lists.stack.clone() },
            _ => std::mem::swap(&mut found, &mut other),
        }
        let (path, case) = (random.path(), random.of(&[Case::Sensitive, Case::Sensitive, Case::Fold]));
        let is_dir = random.of(&[None, Some(true), Some(false)]);
        if !is_kept {
            found = outcome(&lists.names, &selection);
        }
        found.initialize(&lists.names);
        print!("  {path} {case:?} {is_dir:?} of {} lists:", lists.stack.num_pattern_lists());
        let in_order = random.below(6) > 0;
        for is_first in [in_order, !in_order] {
            let search = if is_first { &lists.stack } else { &lists.globals };
            if !found.is_done() {
                let any = search.pattern_matching_relative_path(path.as_str().into(), case, is_dir, &mut found);
                print!(" {any} {}", found.is_done());
            }
        }
        println!(" {found:?} {:?}", texts(&found, &selection, &lists.names));
    }
    Ok(())
}

fn main() -> Result<(), Box<dyn Error>> {
    let arguments: Vec<String> = std::env::args().skip(1).collect();
    let [first, last, mode] = &arguments[..] else { return Err("usage: random FIRST LAST new|kept".into()) };
    (first.parse()?..last.parse()?).try_for_each(|seed| play(seed, mode == "kept"))
}
