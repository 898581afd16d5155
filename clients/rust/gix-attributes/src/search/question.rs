//! What an outcome is asked.

use super::lists::Lines;
use bstr::{BStr, BString};
use gix_glob::pattern::Case;
use gix_parallel::OwnShared;

/// What an outcome was asked since it was reset: a path, and the lists that were searched for it.
///
/// Searches one after the other find what one search of their joined lists does, the first one's last. So the lists of the search
/// that is likely to follow are asked at once: those that did the last time.
#[derive(Clone, Default)]
pub(crate) struct Question {
    path: BString,
    case: Case,
    is_dir: Option<bool>,
    is_asked: bool,
    /// The lists that are asked, those of the first search last.
    lists: Vec<OwnShared<Lines>>,
    /// The index of the first list that was searched. Those below are the ones that are likely to follow.
    searched: usize,
    /// The index of the first list of the first search.
    first: usize,
    /// What was found for other paths since the reset, as a line that is read after all lists; empty if nothing was.
    pub(crate) earlier: Vec<u8>,
}

impl Question {
    /// Forgets the path.
    pub(crate) fn reset(&mut self) {
        self.is_asked = false;
        self.earlier.clear();
    }

    /// Whether there is a path.
    pub(crate) fn is_asked(&self) -> bool {
        self.is_asked
    }

    /// Whether it is this path.
    pub(crate) fn is_for(&self, path: &BStr, case: Case, is_dir: Option<bool>) -> bool {
        self.is_asked && self.path == path && self.case == case && self.is_dir == is_dir
    }

    /// Begins with a path and the lists of the first search.
    pub(crate) fn begin(&mut self, lists: &[&OwnShared<Lines>], path: &BStr, case: Case, is_dir: Option<bool>) {
        self.path.clear();
        self.path.extend_from_slice(path);
        (self.case, self.is_dir, self.is_asked) = (case, is_dir, true);
        if !are_same(&self.lists[self.first..], lists) {
            self.lists.truncate(self.first);
            self.lists.extend(lists.iter().map(|&lines| lines.clone()));
        }
        self.searched = self.first;
    }

    /// Adds the lists of a further search. Returns whether the engine has to be asked again, as other lists were likely to
    /// follow.
    pub(crate) fn extend(&mut self, lists: &[&OwnShared<Lines>]) -> bool {
        let is_new = !are_same(&self.lists[..self.searched], lists);
        if is_new {
            self.lists.splice(..self.searched, lists.iter().map(|&lines| lines.clone()));
            self.first = self.first - self.searched + lists.len();
        }
        self.searched = 0;
        is_new
    }

    /// Whether the list at an index was searched. `EARLIER` counts as an index too.
    pub(crate) fn has_searched(&self, list: usize) -> bool {
        self.is_asked && list >= self.searched
    }

    pub(crate) fn lists(&self) -> &[OwnShared<Lines>] {
        &self.lists
    }

    pub(crate) fn path(&self) -> &BStr {
        BStr::new(&self.path)
    }

    pub(crate) fn case(&self) -> yektrod::Case {
        match self.case {
            Case::Sensitive => yektrod::Case::Sensitive,
            Case::Fold => yektrod::Case::Fold,
        }
    }

    pub(crate) fn is_dir(&self) -> Option<bool> {
        self.is_dir
    }
}

fn are_same(lists: &[OwnShared<Lines>], others: &[&OwnShared<Lines>]) -> bool {
    lists.len() == others.len() && lists.iter().zip(others).all(|(list, other)| OwnShared::ptr_eq(list, other))
}
