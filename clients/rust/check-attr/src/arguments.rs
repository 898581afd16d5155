//! The command line, read as git's parse-options reads it.

use crate::failure::{shown, Failure};

/// What `-h` prints, and what follows an argument that is wrong.
pub const USAGE: &str = "\
usage: check-attr [<options>] [--source <tree-ish>] [-a | --all | <attr>...] [--] <pathname>...
   or: check-attr --stdin [-z] [<options>] [--source <tree-ish>] [-a | --all | <attr>...]

    -a, --[no-]all        report all attributes set on file
    --[no-]cached         use .gitattributes only from the index
    --[no-]stdin          read file names from stdin
    -z                    terminate input and output records by a NUL character
    --[no-]source <tree-ish>
                          which tree-ish to check attributes at
    --[no-]show-origin    report the file, line, pattern and macro that decide
    --[no-]json           report all of this as JSON, a line for each path
    --help, --version     print this, print the version
";

/// What is wanted.
#[derive(Debug, PartialEq, Eq)]
pub enum Command {
    Usage,
    Help,
    Version,
    Check(Arguments),
}

#[derive(Debug, PartialEq, Eq)]
pub struct Arguments {
    pub options: Options,
    /// The names that are looked up; empty if all are.
    pub names: Vec<Vec<u8>>,
    /// The paths; empty if they stand on standard input.
    pub paths: Vec<Vec<u8>>,
}

#[derive(Clone, Debug, Default, PartialEq, Eq)]
pub struct Options {
    pub all: bool,
    pub cached: bool,
    pub stdin: bool,
    /// `-z`
    pub nul: bool,
    pub show_origin: bool,
    pub json: bool,
    pub source: Option<Vec<u8>>,
}

/// An option with a long name.
#[derive(Clone, Copy, Debug, PartialEq, Eq)]
enum Long {
    All,
    Cached,
    Stdin,
    Source,
    ShowOrigin,
    Json,
}

impl Long {
    /// All of them: those of git stand last, as what is ambiguous is told by the last two.
    const EACH: [Long; 6] = [Long::ShowOrigin, Long::Json, Long::All, Long::Cached, Long::Stdin, Long::Source];

    fn name(self) -> &'static str {
        match self {
            Long::All => "all",
            Long::Cached => "cached",
            Long::Stdin => "stdin",
            Long::Source => "source",
            Long::ShowOrigin => "show-origin",
            Long::Json => "json",
        }
    }
}

/// An option as it is given: which, and whether with `no-`.
type Given = (Long, bool);

/// Reads the words behind the program's name.
///
/// # Errors
///
/// Those of parse-options, and those of `git check-attr` for words that don't go together and for names that are invalid.
pub fn parse(words: Vec<Vec<u8>>) -> Result<Command, Failure> {
    if words == [b"-h"] {
        return Ok(Command::Usage);
    }
    let mut options = Options::default();
    let mut left = Vec::new();
    let mut words = words.into_iter();
    while let Some(word) = words.next() {
        match &word[..] {
            b"--end-of-options" => break,
            b"--" => {
                left.push(word);
                break;
            }
            b"--help" => return Ok(Command::Help),
            b"--version" => return Ok(Command::Version),
            [b'-', b'-', long @ ..] => options.set_long(long, &mut words)?,
            [b'-', letters @ ..] if !letters.is_empty() => {
                if options.set_letters(letters)? {
                    return Ok(Command::Usage);
                }
            }
            _ => left.push(word),
        }
    }
    left.extend(words);
    Arguments::new(options, left).map(Command::Check)
}

impl Options {
    /// Sets the options of a word of letters. Whether the usage is asked for.
    fn set_letters(&mut self, letters: &[u8]) -> Result<bool, Failure> {
        for (at, letter) in letters.iter().enumerate() {
            match letter {
                b'a' => self.all = true,
                b'z' => self.nul = true,
                _ => return unknown_letter(letters, at),
            }
            if at == 0 {
                refuse_long_name(letters)?;
            }
        }
        Ok(false)
    }

    /// Sets an option with a long name, which may be shortened. Its value may be the next word.
    fn set_long(&mut self, long: &[u8], words: &mut impl Iterator<Item = Vec<u8>>) -> Result<(), Failure> {
        let (name, value) = match long.iter().position(|&byte| byte == b'=') {
            Some(equals) => (&long[..equals], Some(long[equals + 1..].to_vec())),
            None => (long, None),
        };
        let (option, is_negated) = find(name, long)?;
        let told = format!("{}{}", if is_negated { "no-" } else { "" }, option.name());
        if value.is_some() && (is_negated || option != Long::Source) {
            return Err(Failure::Option(format!("option `{told}' takes no value")));
        }
        match option {
            Long::All => self.all = !is_negated,
            Long::Cached => self.cached = !is_negated,
            Long::Stdin => self.stdin = !is_negated,
            Long::ShowOrigin => self.show_origin = !is_negated,
            Long::Json => self.json = !is_negated,
            Long::Source if is_negated => self.source = None,
            Long::Source => {
                let value = value.or_else(|| words.next());
                let missing = || Failure::Option(format!("option `{told}' requires a value"));
                self.source = Some(value.ok_or_else(missing)?);
            }
        }
        Ok(())
    }
}

/// The option of this name, or the only one whose name begins so.
fn find(name: &[u8], word: &[u8]) -> Result<Given, Failure> {
    let mut found: Vec<Given> = Vec::new();
    for option in Long::EACH {
        let own = option.name().as_bytes();
        for is_negated in [false, true] {
            let begun = if is_negated { name.strip_prefix(b"no-") } else { Some(name) };
            if begun == Some(own) {
                return Ok((option, is_negated));
            }
            let is_short = is_negated && b"no-".starts_with(name);
            if is_short || begun.map_or(false, |begun| own.starts_with(begun)) {
                found.push((option, is_negated));
                break;
            }
        }
    }
    match found[..] {
        [] => Err(Failure::Usage(format!("unknown option `{}'", shown(word)))),
        [only] => Ok(only),
        [.., one, other] => {
            let told = |(option, is_negated): Given| format!("--{}{}", if is_negated { "no-" } else { "" }, option.name());
            Err(Failure::Ambiguous(format!("ambiguous option: {} (could be {} or {})", shown(word), told(one), told(other))))
        }
    }
}

/// What comes of a letter that is no option.
fn unknown_letter(letters: &[u8], at: usize) -> Result<bool, Failure> {
    if at == 0 {
        refuse_long_name(letters)?;
    }
    match letters[at] {
        b'h' => Ok(true),
        letter if letter.is_ascii() => Err(Failure::Usage(format!("unknown switch `{}'", char::from(letter)))),
        _ => Err(Failure::Usage(format!("unknown non-ascii option in string: `-{}'", shown(letters)))),
    }
}

/// Refuses `-stdin` and the like.
fn refuse_long_name(letters: &[u8]) -> Result<(), Failure> {
    let is_name = Long::EACH.iter().any(|it| it.name().as_bytes().starts_with(letters));
    if letters.len() >= 3 && (is_name || letters.starts_with(b"no-")) {
        return Err(Failure::Option(format!("did you mean `--{}` (with two dashes)?", shown(letters))));
    }
    Ok(())
}

impl Arguments {
    /// Separates names and paths.
    fn new(options: Options, words: Vec<Vec<u8>>) -> Result<Arguments, Failure> {
        let wrong = |words: &str| Err(Failure::Usage(words.to_string()));
        let marked = words.iter().position(|it| it == b"--");
        let count = match marked {
            Some(1..) if options.all => return wrong("Attributes and --all both specified"),
            _ if options.all => 0,
            Some(0) => return wrong("No attribute specified"),
            Some(marked) => marked,
            None if words.is_empty() => return wrong("No attribute specified"),
            // Without a mark the first word is a name, and with --stdin each.
            None if options.stdin => words.len(),
            None => 1,
        };
        let mut names = words;
        let paths = names.split_off(marked.map_or(count, |marked| marked + 1));
        names.truncate(count);
        if options.stdin && !paths.is_empty() {
            return wrong("Can't specify files with --stdin");
        }
        if !options.stdin && paths.is_empty() {
            return wrong("No file specified");
        }
        match names.iter().find(|name| !is_valid_name(name)) {
            Some(name) => Err(Failure::InvalidName(name.clone())),
            None => Ok(Arguments { options, names, paths }),
        }
    }
}

/// Whether an attribute may have this name.
fn is_valid_name(name: &[u8]) -> bool {
    let is_of_name = |byte: &u8| byte.is_ascii_alphanumeric() || b"-._".contains(byte);
    !name.is_empty() && name[0] != b'-' && name.iter().all(is_of_name)
}

#[cfg(test)]
mod tests {
    use super::*;

    fn parsed(words: &str) -> Result<Command, Failure> {
        parse(words.split(' ').filter(|it| !it.is_empty()).map(|it| it.as_bytes().to_vec()).collect())
    }

    fn arguments(words: &str) -> Arguments {
        match parsed(words) {
            Ok(Command::Check(arguments)) => arguments,
            other => panic!("{words}: {other:?}"),
        }
    }

    fn texts(words: &[&str]) -> Vec<Vec<u8>> {
        words.iter().map(|it| it.as_bytes().to_vec()).collect()
    }

    #[test]
    fn names_and_paths_are_separated() {
        let rows: &[(&str, &[&str], &[&str])] = &[
            ("text a b", &["text"], &["a", "b"]),
            ("text eol -- a", &["text", "eol"], &["a"]),
            ("text -- a -- b", &["text"], &["a", "--", "b"]),
            ("-a a b", &[], &["a", "b"]),
            ("a --all", &[], &["a"]),
            ("-a -- -x", &[], &["-x"]),
            ("--stdin text eol", &["text", "eol"], &[]),
            ("--stdin text --", &["text"], &[]),
            ("--stdin -a", &[], &[]),
            ("--all --no-all text a", &["text"], &["a"]),
            ("text - a", &["text"], &["-", "a"]),
            ("--end-of-options text -a", &["text"], &["-a"]),
        ];
        for (words, names, paths) in rows {
            let found = arguments(words);
            assert_eq!((found.names, found.paths), (texts(names), texts(paths)), "{words}");
        }
    }

    #[test]
    fn options_may_be_shortened_and_taken_back() {
        assert!(arguments("--st -za").options.nul);
        assert!(arguments("--sh --al a").options.show_origin);
        assert!(arguments("-z --c text a").options.cached);
        assert!(!arguments("--cached --no-c text a").options.cached);
        assert_eq!(arguments("--so HEAD text a").options.source.as_deref(), Some(&b"HEAD"[..]));
        assert_eq!(arguments("--source=x=y text a").options.source.as_deref(), Some(&b"x=y"[..]));
        assert_eq!(arguments("--source x --no-source text a").options.source, None);
    }

    #[test]
    fn wrong_words_are_refused_in_gits_words() {
        let rows = [
            ("", 129, "No attribute specified"),
            ("--", 129, "No attribute specified"),
            ("-a", 129, "No file specified"),
            ("text", 129, "No file specified"),
            ("-a text -- a", 129, "Attributes and --all both specified"),
            ("--stdin -a a", 129, "Can't specify files with --stdin"),
            ("--unknown text a", 129, "unknown option `unknown'"),
            ("-q text a", 129, "unknown switch `q'"),
            ("-ü text a", 129, "unknown non-ascii option in string: `-ü'"),
            ("--s text a", 129, "ambiguous option: s (could be --stdin or --source)"),
            ("--no text a", 129, "ambiguous option: no (could be --no-stdin or --no-source)"),
            ("--= text a", 129, "ambiguous option: = (could be --stdin or --source)"),
            ("--all=1 a", 129, "option `all' takes no value"),
            ("--no-source=1 a", 129, "option `no-source' takes no value"),
            ("text a --source", 129, "option `source' requires a value"),
            ("-stdin text", 129, "did you mean `--stdin` (with two dashes)?"),
            ("-all", 129, "did you mean `--all` (with two dashes)?"),
            ("text -x -- a", 129, "unknown switch `x'"),
            ("text= -- a", 255, "text=: not a valid attribute name"),
        ];
        for (words, status, told) in rows {
            let failure = parsed(words).unwrap_err();
            assert_eq!(failure.status(), status, "{words}");
            assert!(failure.to_string().starts_with(&format!("error: {told}")), "{words}: {failure}");
        }
    }

    #[test]
    fn help_is_found_among_other_words() {
        assert_eq!(parsed("-h").unwrap(), Command::Usage);
        assert_eq!(parsed("-ah").unwrap(), Command::Usage);
        assert_eq!(parsed("--help").unwrap(), Command::Help);
        assert_eq!(parsed("text --version").unwrap(), Command::Version);
        assert_eq!(arguments("text -- --help").paths, texts(&["--help"]));
    }
}
