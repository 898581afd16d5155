//! A run: finds the repository, and answers path by path.

use crate::arguments::{Arguments, Options};
use crate::configuration::{environment_truth, Configuration};
use crate::contents::{Kind, Lines};
use crate::failure::{shown, warn, Failure};
use crate::files::{self, Links};
use crate::git::Git;
use crate::modes::{self, Modes};
use crate::objects::Objects;
use crate::output::{Form, Format, Output};
use crate::paths::Base;
use crate::quoting::unquoted;
use crate::reader::Reader;
use crate::repository::{self, Repository};
use crate::source;
use std::ffi::OsStr;
use std::io::{self, BufRead};
use std::os::unix::ffi::OsStrExt;
use std::path::Path;
use yektrod::stack::{self, AskError};
use yektrod::{Answer, Case, Stack, State};

/// Answers what is asked. Git looks for a repository before it refuses an argument.
///
/// # Errors
///
/// Whatever ends the run. The answers for the paths before are printed.
pub fn run(arguments: Result<Arguments, Failure>) -> Result<(), Failure> {
    let mut git = Git::from_here()?;
    let repository = Repository::enter(&git)?;
    if let Some(top) = &repository.top {
        git = git.with_paths_below(top);
    }
    let configuration = Configuration::read(&git)?;
    let arguments = arguments?;
    let mut checker = Checker::new(&git, repository, &configuration, &arguments)?;
    let ended = checker.answer_all(&arguments);
    checker.output.flush()?;
    ended
}

struct Checker {
    base: Base,
    stack: Stack<Reader>,
    /// Whether a path was asked for.
    has_begun: bool,
    /// `None` if nothing asks for modes.
    modes: Option<Modes>,
    output: Output,
}

impl Checker {
    fn new(git: &Git, repository: Repository, configuration: &Configuration, arguments: &Arguments) -> Result<Checker, Failure> {
        let mut objects = Objects::new(git);
        let place = source::place(&arguments.options, configuration, repository.top.is_none(), &mut objects)?;
        let options = stack_options(git, &repository, configuration)?;
        let mut stack = Stack::with_options(Reader::new(git.clone(), place, objects), options).map_err(of_engine)?;
        if !arguments.options.all {
            stack.select(&arguments.names).map_err(of_engine)?;
        }
        let Options { json, nul, show_origin, cached, .. } = arguments.options;
        let format = match (json, nul) {
            (true, _) => Format::Json,
            (false, true) => Format::Fields,
            (false, false) => Format::Lines,
        };
        let form = Form { format, show_origin, quotes: configuration.quotes };
        let asks_modes = arguments.names.iter().any(|name| name == modes::NAME);
        Ok(Checker {
            base: Base { top: repository.top, prefix: repository.prefix, folds: configuration.folds },
            stack,
            has_begun: false,
            modes: asks_modes.then(|| Modes::new(git.clone(), cached)),
            output: Output::new(form, environment_truth("GIT_FLUSH")?)?,
        })
    }

    fn answer_all(&mut self, arguments: &Arguments) -> Result<(), Failure> {
        if arguments.options.stdin {
            return self.answer_input(arguments.options.nul);
        }
        arguments.paths.iter().try_for_each(|path| self.answer(path))
    }

    /// Answers for each path on standard input before the next one is read. What can't be read ends it, as for git.
    fn answer_input(&mut self, nul: bool) -> Result<(), Failure> {
        let mut input = io::stdin().lock();
        let end = if nul { 0 } else { b'\n' };
        let mut line = Vec::new();
        while input.read_until(end, &mut line).map_or(false, |read| read > 0) {
            let path = before_nul(line.strip_suffix(&[end]).unwrap_or(&line));
            if !nul && path.starts_with(b"\"") {
                let path = unquoted(path).ok_or_else(|| Failure::Fatal("line is badly quoted".to_string()))?;
                self.answer(&path)?;
            } else {
                self.answer(path)?;
            }
            self.output.path_ends()?;
            line.clear();
        }
        Ok(())
    }

    /// Answers for a path as it is given.
    fn answer(&mut self, given: &[u8]) -> Result<(), Failure> {
        let given = before_nul(given);
        let path = self.base.inside(given)?;
        if !self.has_begun {
            // Git reads the top's file and `info/attributes` before others, and tells answers in the order in which it reads
            // names.
            self.stack.ask(b"", Some(true)).map_err(of_stack)?;
            self.has_begun = true;
        }
        let answers = self.stack.ask(&path, Some(false)).map_err(of_stack)?;
        let mode = match &mut self.modes {
            Some(modes) => modes.mode(&path)?,
            None => None,
        };
        let answers = answers.iter().map(|answer| match &mode {
            Some(mode) if answer.name == modes::NAME => Answer { state: State::Value(mode), ..answer },
            _ => answer,
        });
        self.output.answers(given, answers);
        self.tell_dropped();
        Ok(())
    }

    fn tell_dropped(&mut self) {
        for file in self.stack.take_dropped() {
            for dropped in &file.lines {
                warn(&format!("{}:{} is left out: {}", shown(&file.source), dropped.line, dropped.reason));
            }
        }
    }
}

/// A path, which a NUL ends.
fn before_nul(text: &[u8]) -> &[u8] {
    text.split(|&byte| byte == 0).next().unwrap_or_default()
}

/// The files that belong to no directory, and whether letters match in either case.
fn stack_options(git: &Git, repository: &Repository, configuration: &Configuration) -> Result<stack::Options, Failure> {
    let system = repository::system_file(git)?;
    let start = repository.top.as_deref().map_or(git.directory(), |top| Path::new(OsStr::from_bytes(top)));
    let user = configuration.user_file().map(|path| start.join(path));
    Ok(stack::Options {
        system: system.and_then(|path| file_beside(&path, &path)),
        user: user.and_then(|path| file_beside(&path, &path)),
        info: file_beside(&git.directory().join(&repository.info), &repository.info),
        case: if configuration.folds { Case::Fold } else { Case::Sensitive },
        ..stack::Options::default()
    })
}

/// A file that belongs to no directory, told by this name. Macros may be defined there.
fn file_beside(path: &Path, name: &Path) -> Option<stack::File> {
    let source = name.as_os_str().as_bytes().to_vec();
    let contents = files::read(path, &source, Links::Followed)?;
    let lines = Lines::read(contents, Kind::File, &source, true);
    lines.warnings.iter().for_each(|words| warn(words));
    Some(stack::File { source, contents: lines.contents })
}

fn of_engine(error: yektrod::Error) -> Failure {
    Failure::Fatal(error.to_string())
}

fn of_stack(error: AskError) -> Failure {
    match error {
        AskError::Read { error, .. } => error.into(),
        error => Failure::Fatal(error.to_string()),
    }
}
