//! Trees that are made by chance: the same ones for the same seed.
#![allow(dead_code)]

use std::collections::BTreeMap;
use std::io;
use yektrod::stack::{File, Limits, Options, Reader};

/// Numbers that only look random (SplitMix64, a public-domain generator).
pub struct Chance(u64);

impl Chance {
    pub fn new(seed: u64) -> Chance {
        Chance(seed)
    }

    /// A number below the limit.
    pub fn below(&mut self, limit: usize) -> usize {
        self.0 = self.0.wrapping_add(0x9e37_79b9_7f4a_7c15);
        let mut mixed = self.0;
        mixed = (mixed ^ (mixed >> 30)).wrapping_mul(0xbf58_476d_1ce4_e5b9);
        mixed = (mixed ^ (mixed >> 27)).wrapping_mul(0x94d0_49bb_1331_11eb);
        ((mixed ^ (mixed >> 31)) % limit as u64) as usize
    }

    pub fn one_of<T: Clone>(&mut self, all: &[T]) -> T {
        all[self.below(all.len())].clone()
    }

    pub fn shuffle<T>(&mut self, all: &mut [T]) {
        for end in (1..all.len()).rev() {
            all.swap(end, self.below(end + 1));
        }
    }
}

/// Names of directories. Some differ in case alone, some are not UTF-8 or have blanks.
const DIRECTORIES: [&[u8]; 10] = [b"a", b"A", b"b", b"src", b"Src", b"docs", b"two words", b"z\xc3\xbc", b"\xe9", b"x.c"];
const FRONTS: [&[u8]; 7] = [b"a", b"Main", b"main", b"x", b"two words", b"\xff", b"lib.core"];
const ENDS: [&[u8]; 5] = [b".c", b".h", b".md", b".C", b""];
const PATTERNS: [&[u8]; 30] = [
    b"*",
    b"*.c",
    b"*.[ch]",
    b"*.md",
    b"x*",
    b"main.*",
    b"Main*",
    b"/*.md",
    b"/a*",
    b"a/*",
    b"src/**/*.h",
    b"/src/**",
    b"**/x*",
    b"**/a/*.c",
    b"docs/",
    b"a/",
    b"**/src/",
    b"/b/**/main*",
    b"b/src",
    b"?",
    b"[!a-m]*",
    b"[[:upper:]]*",
    b"\"two words*\"",
    b"\"two words/*\"",
    b"\"\\377*\"",
    b"\"\\351/\"",
    b"z\xc3\xbc/**",
    b"lib.core*",
    b"!*.c",
    b"x.c",
];
const ITEMS: [&[u8]; 24] = [
    b"text",
    b"-text",
    b"!text",
    b"text=auto",
    b"eol=lf",
    b"!eol",
    b"diff",
    b"diff=cpp",
    b"-diff",
    b"binary",
    b"-binary",
    b"!binary",
    b"m1",
    b"-m1",
    b"!m1",
    b"m2",
    b"m2=v",
    b"m3",
    b"-m3",
    b"merge=union",
    b"x.y",
    b"empty=",
    b"value=\xe9",
    b"encoding=utf-8",
];
const MACROS: [&[u8]; 6] = [
    b"[attr]m1 m2 text",
    b"[attr]m1 -diff x.y=1",
    b"[attr]m2 m3 -eol",
    b"[attr]m3 m1 !merge w",
    b"[attr]m2 empty",
    b"[attr]text marker",
];

/// The attributes files of a tree by directory, and the three that belong to none.
#[derive(Clone, Default)]
pub struct Tree {
    pub directories: Vec<Vec<u8>>,
    pub files: BTreeMap<Vec<u8>, Vec<u8>>,
    pub system: Vec<u8>,
    pub user: Vec<u8>,
    pub info: Vec<u8>,
}

impl Tree {
    /// A tree of so many directories, up to five deep. Some two thirds of them have a file.
    pub fn new(chance: &mut Chance, count: usize) -> Tree {
        let mut tree = Tree { directories: vec![Vec::new()], ..Tree::default() };
        for _ in 1..count {
            let above = chance.one_of(&tree.directories);
            let directory = join(&above, chance.one_of(&DIRECTORIES));
            if !tree.directories.contains(&directory) && above.iter().filter(|&&byte| byte == b'/').count() < 4 {
                tree.directories.push(directory);
            }
        }
        for directory in &tree.directories {
            if directory.is_empty() || chance.below(3) > 0 {
                tree.files.insert(directory.clone(), contents(chance));
            }
        }
        tree.system = contents(chance);
        tree.user = contents(chance);
        tree.info = contents(chance);
        tree
    }

    /// Paths of the tree and of directories that it doesn't have, each once. Some end in a slash.
    pub fn paths(&self, chance: &mut Chance, count: usize) -> Vec<Vec<u8>> {
        let mut paths = std::collections::BTreeSet::new();
        while paths.len() < count {
            let mut path = chance.one_of(&self.directories);
            if chance.below(8) == 0 {
                path = join(&path, chance.one_of(&DIRECTORIES));
            }
            if chance.below(8) > 0 || path.is_empty() {
                path = join(&path, chance.one_of(&FRONTS));
                path.extend_from_slice(chance.below(1000).to_string().as_bytes());
                path.extend_from_slice(chance.one_of(&ENDS));
            }
            if chance.below(6) == 0 {
                path.push(b'/');
            }
            paths.insert(path);
        }
        let mut paths: Vec<Vec<u8>> = paths.into_iter().collect();
        chance.shuffle(&mut paths);
        paths
    }

    pub fn reader(&self) -> Map {
        Map { files: self.files.clone(), reads: BTreeMap::new(), count: 0, fails_at: None }
    }

    pub fn options(&self, limits: Limits) -> Options {
        let file = |source: &str, contents: &[u8]| Some(File { source: source.into(), contents: contents.to_vec() });
        Options {
            system: file("/etc/gitattributes", &self.system),
            user: file("/home/user/attributes", &self.user),
            info: file(".git/info/attributes", &self.info),
            limits,
            ..Options::default()
        }
    }
}

/// Some lines, with macros, and some that are dropped.
fn contents(chance: &mut Chance) -> Vec<u8> {
    let mut contents = Vec::new();
    for _ in 0..1 + chance.below(6) {
        if chance.below(4) == 0 {
            contents.extend_from_slice(chance.one_of(&MACROS));
        } else {
            contents.extend_from_slice(chance.one_of(&PATTERNS));
            for _ in 0..1 + chance.below(3) {
                contents.push(b' ');
                contents.extend_from_slice(chance.one_of(&ITEMS));
            }
        }
        contents.push(b'\n');
    }
    contents
}

pub fn join(directory: &[u8], name: &[u8]) -> Vec<u8> {
    let slash: &[u8] = if directory.is_empty() { b"" } else { b"/" };
    [directory, slash, name].concat()
}

/// Reads the files of a map, counts what it reads, and fails at one of the reads.
pub struct Map {
    pub files: BTreeMap<Vec<u8>, Vec<u8>>,
    pub reads: BTreeMap<Vec<u8>, usize>,
    pub count: usize,
    pub fails_at: Option<usize>,
}

impl Reader for Map {
    fn read(&mut self, directory: &[u8]) -> io::Result<Option<Vec<u8>>> {
        self.count += 1;
        if self.fails_at == Some(self.count) {
            return Err(io::Error::new(io::ErrorKind::Other, "this read fails"));
        }
        *self.reads.entry(directory.to_vec()).or_default() += 1;
        Ok(self.files.get(directory).cloned())
    }
}

/// So small that lists are taken off, contents read anew and directories forgotten again and again.
pub const SMALL: Limits = Limits { lists: 20_000, contents: 500, directories: 3_000 };
/// Nothing is kept but what the path at hand needs.
pub const NONE: Limits = Limits { lists: 0, contents: 0, directories: 0 };
