//! The engine that answers.

use super::found::Found;
use super::lists::Lines;
use super::metadata::Known;
use super::question::Question;
use super::{AttributeId, MatchKind, ROOM};
use crate::State;
use bstr::ByteSlice;
use gix_parallel::OwnShared;
use smallvec::SmallVec;
use yektrod::{Answer, Error, Place};

/// The names that are looked for, with their numbers, if they are known.
pub(crate) type Selection = SmallVec<[(OwnShared<str>, Option<AttributeId>); ROOM]>;

/// An engine with the definitions of macros of a collection as its first list, and then the lists of the last question.
pub(crate) struct Engine {
    engine: yektrod::Engine,
    known: OwnShared<Known>,
    lists: Vec<OwnShared<Lines>>,
    /// The numbers of the engine's names in the collection, so far as they were needed.
    ids: Vec<Option<AttributeId>>,
    selected: Selected,
}

/// Which names the engine looks for.
#[derive(PartialEq)]
enum Selected {
    /// It is to be told.
    Nothing,
    /// All names of the collection, by number.
    All,
    /// Those of the outcome's selection.
    Selection,
}

impl Engine {
    /// An engine for a collection: the one of the slot, if it has the collection's macros.
    pub(crate) fn of<'a>(slot: &'a mut Option<Engine>, known: &OwnShared<Known>) -> &'a mut Engine {
        match slot {
            Some(engine) if OwnShared::ptr_eq(engine.known.definitions(), known.definitions()) => engine.know(known),
            _ => *slot = Some(done(Engine::open(known))),
        }
        slot.as_mut().expect("just opened")
    }

    /// Asks, and tells what is found in lists: for each name of the selection, or without one for each name of the collection,
    /// with its index among these.
    pub(crate) fn ask(&mut self, question: &Question, selection: Option<&Selection>, found: impl FnMut(usize, Found)) {
        self.hold(question.lists());
        self.select(selection);
        if question.earlier.is_empty() {
            self.tell(question, selection, found);
        } else {
            done(self.engine.add(&question.earlier, Place::top(), false));
            self.tell(question, selection, found);
            done(self.engine.pop());
        }
    }

    /// Selects again when it is asked.
    pub(crate) fn deselect(&mut self) {
        self.selected = Selected::Nothing;
    }

    fn open(known: &OwnShared<Known>) -> Result<Engine, Error> {
        let mut engine = yektrod::Engine::new()?;
        // The built-in list goes: whether there is its macro is said by the collection.
        engine.pop()?;
        engine.add(known.definitions(), Place::top(), true)?;
        Ok(Engine { engine, known: known.clone(), lists: Vec::new(), ids: Vec::new(), selected: Selected::Nothing })
    }

    fn know(&mut self, known: &OwnShared<Known>) {
        if !OwnShared::ptr_eq(&self.known, known) {
            self.known = known.clone();
            self.ids.clear();
            self.deselect();
        }
    }

    /// Brings lists to the engine: what it has beyond the lists in common goes, and the others come.
    fn hold(&mut self, lists: &[OwnShared<Lines>]) {
        let common = self.lists.iter().zip(lists).take_while(|(held, list)| OwnShared::ptr_eq(held, list)).count();
        for _ in common..self.lists.len() {
            done(self.engine.pop());
        }
        self.lists.truncate(common);
        for lines in &lists[common..] {
            let place = Place { directory: &lines.directory, source: b"" };
            match self.engine.add(&lines.contents, place, false) {
                // No path lies there.
                Err(Error::InvalidDirectory) => done(self.engine.add(b"", Place::top(), false)),
                added => done(added),
            };
            self.lists.push(lines.clone());
        }
    }

    fn select(&mut self, selection: Option<&Selection>) {
        let wanted = if selection.is_some() { Selected::Selection } else { Selected::All };
        if self.selected == wanted {
            return;
        }
        let names: Vec<&str> = match selection {
            Some(selection) => selection.iter().map(|(name, _)| &**name).collect(),
            None => self.known.names().iter().map(AsRef::as_ref).collect(),
        };
        done(self.engine.select(&names));
        self.selected = wanted;
    }

    fn tell(&mut self, question: &Question, selection: Option<&Selection>, mut found: impl FnMut(usize, Found)) {
        let answers = done(self.engine.ask(question.path(), question.case(), question.is_dir()));
        for (index, answer) in answers.iter().enumerate() {
            let id = selection.map_or(Some(AttributeId(index)), |selection| selection[index].1);
            let origin = answer.origin.filter(|origin| origin.list <= self.lists.len());
            if let (Some(id), Some(origin)) = (id, origin) {
                let cause = origin.via.map(|via| number(&mut self.ids, &self.known, via));
                // The definitions are the first list, and no line of theirs has a pattern.
                let list = origin.list - 1;
                let lines = self.lists[list].clone();
                let line = lines.patterns.binary_search_by_key(&origin.line, |&(line, _)| line);
                let line = line.expect("the library finds the lines that are found here");
                found(index, Found { id, state: state(&answer), kind: kind(&answer, cause), list, lines, line });
            }
        }
    }
}

/// The number of a macro in the collection, which has all macros that the engine knows.
fn number(ids: &mut Vec<Option<AttributeId>>, known: &Known, it: yektrod::Macro<'_>) -> AttributeId {
    if ids.len() <= it.number {
        ids.resize(it.number + 1, None);
    }
    *ids[it.number].get_or_insert_with(|| {
        let id = it.name.to_str().ok().and_then(|name| known.id(name));
        id.expect("macros are those of the collection")
    })
}

fn state(answer: &Answer<'_>) -> State {
    match answer.state {
        yektrod::State::Set => State::Set,
        yektrod::State::Unset => State::Unset,
        yektrod::State::Value(value) => State::Value(crate::state::ValueRef::from_bytes(value).to_owned()),
        yektrod::State::Unspecified => State::Unspecified,
    }
}

fn kind(answer: &Answer<'_>, cause: Option<AttributeId>) -> MatchKind {
    if answer.is_macro { MatchKind::Macro { parent_macro_id: cause } } else { MatchKind::Attribute { macro_id: cause } }
}

/// What a call returns. The calls of this crate can't fail, so it panics where the library's do, for want of memory.
fn done<T>(result: Result<T, Error>) -> T {
    result.unwrap_or_else(|error| panic!("yektrod: {error}"))
}
