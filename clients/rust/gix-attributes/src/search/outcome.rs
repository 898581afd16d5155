//! What is found for a path.

use super::engine::{Engine, Selection};
use super::found::{EARLIER, Found, nothing};
use super::lists::Lines;
use super::metadata::{Known, write_assignment};
use super::question::Question;
use super::{AttributeId, Match, MetadataCollection};
use crate::NameRef;
use bstr::BStr;
use gix_glob::pattern::Case;
use gix_parallel::OwnShared;
use std::fmt;
use std::sync::{Mutex, OnceLock};

/// What is found for a path: of all names of a collection, or of those that are selected.
///
/// It has an engine of its own, which it opens when it is first asked, and to which it brings the lists of each search. So it is
/// best kept from path to path.
#[derive(Default)]
pub struct Outcome {
    known: OwnShared<Known>,
    selected: Selection,
    /// By the index in the selection, or without one by number. It may be of a list that was not searched yet.
    found: Vec<Option<Found>>,
    /// How many of those that are looked for are not found. `None` before `initialize`.
    remaining: Option<usize>,
    question: Question,
    /// What was found without regard to the selection, by number, if anyone asked.
    unselected: OnceLock<Vec<Option<Found>>>,
    engine: Mutex<Option<Engine>>,
}

impl Outcome {
    /// Looks for all names of a collection from now on, or for those that were selected before, as the collection knows
    /// them, and forgets what was found. It is to be called again after the collection has changed.
    pub fn initialize(&mut self, collection: &MetadataCollection) {
        if !OwnShared::ptr_eq(&self.known, collection.known()) {
            self.known = collection.known().clone();
            for (name, id) in &mut self.selected {
                *id = self.known.id(name);
            }
        }
        self.reset();
    }

    /// Looks for these names from now on, and forgets what was found. Without any name all are looked for. A text that is no
    /// valid name is always unspecified.
    pub fn initialize_with_selection(
        &mut self,
        collection: &MetadataCollection,
        attribute_names: impl IntoIterator<Item = impl AsRef<str>>,
    ) {
        let known = collection.known();
        let with_id = |name: &str| (OwnShared::from(name), known.id(name));
        self.selected = attribute_names.into_iter().map(|name| with_id(name.as_ref())).collect();
        self.known = known.clone();
        if let Some(engine) = self.engine.get_mut().expect(NO_PANIC) {
            engine.deselect();
        }
        self.reset();
    }

    /// Forgets what was found, for the next path.
    pub fn reset(&mut self) {
        let count = if self.selected.is_empty() { self.known.names().len() } else { self.selected.len() };
        self.found.clear();
        self.found.resize_with(count, || None);
        self.question.reset();
        self.unselected.take();
        self.remaining = Some(self.wanted());
    }

    /// Copies what was found into another outcome, which is initialized with the collection, and keeps its selection. Of names
    /// that are selected there and not here it gets what would have been found here.
    pub fn copy_into(&self, collection: &MetadataCollection, dest: &mut Outcome) {
        dest.initialize(collection);
        dest.question = self.question.clone();
        for index in 0..dest.found.len() {
            let id = if dest.selected.is_empty() { Some(AttributeId(index)) } else { dest.selected[index].1 };
            dest.found[index] = id.and_then(|id| self.found_by_id(id)).cloned();
        }
        dest.remaining = Some(dest.wanted() - dest.count());
    }

    /// What was found, by number. Under a selection it is asked anew for all names, so [`Outcome::iter_selected`] is the way to
    /// those that are selected.
    pub fn iter(&self) -> impl Iterator<Item = Match<'_>> {
        let found = if self.selected.is_empty() { &self.found } else { self.unselected() };
        found.iter().filter_map(|found| self.visible(found)).map(|found| found.to_match(self.known.names()))
    }

    /// What was found for each name of the selection, in its order, also where nothing was; without a selection nothing.
    pub fn iter_selected(&self) -> impl Iterator<Item = Match<'_>> {
        let (names, selected) = (self.known.names(), self.selected.iter().zip(&self.found));
        selected.map(move |((name, id), found)| match (self.visible(found), id) {
            (Some(found), _) => found.to_match(names),
            (None, Some(id)) => nothing(names[id.0].as_ref()),
            (None, None) => nothing(NameRef::of(name.as_bytes()).unwrap_or(NameRef::invalid())),
        })
    }

    /// What was found for the name with this number. Under a selection it is asked anew for a name that isn't selected.
    pub fn match_by_id(&self, id: AttributeId) -> Option<Match<'_>> {
        self.found_by_id(id).map(|found| found.to_match(self.known.names()))
    }

    /// Whether all that is looked for is found.
    ///
    /// # Panics
    ///
    /// If it is not initialized.
    pub fn is_done(&self) -> bool {
        self.remaining() == 0
    }
}

const NO_PANIC: &str = "no call panicked with the engine";

impl Outcome {
    /// Searches lists below those that were searched for the path, and returns whether anything was found that is looked for.
    pub(crate) fn search(&mut self, lists: &[&OwnShared<Lines>], path: &BStr, case: Case, is_dir: Option<bool>) -> bool {
        let before = self.remaining();
        if before == 0 {
            return false;
        }
        if self.question.is_for(path, case, is_dir) {
            if self.question.extend(lists) {
                self.ask();
            }
        } else {
            self.keep_earlier();
            self.question.begin(lists, path, case, is_dir);
            self.ask();
        }
        self.unselected.take();
        let remaining = self.wanted() - self.count();
        self.remaining = Some(remaining);
        remaining != before
    }

    /// Asks the engine, and takes what is found in place of what was, but for what was found for other paths.
    fn ask(&mut self) {
        let slots = &mut self.found;
        slots.iter_mut().for_each(|slot| *slot = slot.take().filter(|found| found.list == EARLIER));
        let selection = (!self.selected.is_empty()).then_some(&self.selected);
        let engine = Engine::of(self.engine.get_mut().expect(NO_PANIC), &self.known);
        engine.ask(&self.question, selection, |index, found| {
            slots[index].get_or_insert(found);
        });
    }

    /// Has what was found for a path stand for the next one.
    fn keep_earlier(&mut self) {
        if !self.question.is_asked() {
            return;
        }
        let mut line = b"*".to_vec();
        for slot in &mut self.found {
            *slot = slot.take().filter(|found| self.question.has_searched(found.list));
            if let Some(found) = slot {
                found.list = EARLIER;
                write_assignment(&mut line, found.assignment(self.known.names()));
            }
        }
        self.question.earlier = line;
    }

    /// What was found of a list that was searched.
    fn visible<'a>(&self, found: &'a Option<Found>) -> Option<&'a Found> {
        found.as_ref().filter(|found| self.question.has_searched(found.list))
    }

    fn found_by_id(&self, id: AttributeId) -> Option<&Found> {
        let index = self.selected.iter().position(|&(_, selected)| selected == Some(id));
        let found = match index {
            Some(index) => self.found.get(index),
            None if self.selected.is_empty() => self.found.get(id.0),
            None => self.unselected().get(id.0),
        };
        found.and_then(|found| self.visible(found))
    }

    /// What was found without regard to the selection, by number.
    fn unselected(&self) -> &Vec<Option<Found>> {
        self.unselected.get_or_init(|| {
            let mut all = Vec::new();
            if self.question.is_asked() {
                all.resize_with(self.known.names().len(), || None);
                let mut engine = self.engine.lock().expect(NO_PANIC);
                Engine::of(&mut engine, &self.known).ask(&self.question, None, |index, found| all[index] = Some(found));
            }
            all
        })
    }

    fn remaining(&self) -> usize {
        self.remaining.expect("an outcome has to be initialized before a search")
    }

    /// How many names are looked for.
    fn wanted(&self) -> usize {
        if self.selected.is_empty() {
            self.known.names().len()
        } else {
            self.selected.iter().filter(|(_, id)| id.is_some()).count()
        }
    }

    /// How many of them were found.
    fn count(&self) -> usize {
        self.found.iter().filter(|found| self.visible(found).is_some()).count()
    }
}

/// The engine of the copy is opened when it is asked.
impl Clone for Outcome {
    fn clone(&self) -> Outcome {
        Outcome {
            known: self.known.clone(),
            selected: self.selected.clone(),
            found: self.found.clone(),
            remaining: self.remaining,
            question: self.question.clone(),
            unselected: self.unselected.clone(),
            engine: Mutex::default(),
        }
    }
}

/// The assignments that were found: all, or those of the selection.
impl fmt::Debug for Outcome {
    fn fmt(&self, f: &mut fmt::Formatter<'_>) -> fmt::Result {
        let mut tuple = f.debug_tuple("Outcome");
        let all = self.selected.is_empty().then(|| self.iter());
        for it in all.into_iter().flatten().chain(self.iter_selected()) {
            tuple.field(&format_args!("{}", it.assignment));
        }
        tuple.finish()
    }
}
