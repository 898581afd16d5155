//! Runs gitoxide's own crate `gix-attributes`, to know what it does. `run.sh` has how.
//!
//! - `upstream rows TOP`: for each row of the tables of [`TABLES`], what the crate does with the row's input, compared with what the
//!   row says. It ends with 1 if a row differs, or if there is no code for it.
//! - `upstream play [FILE..]`: answers the script on standard input (docs/SCRIPT.md). The files are global ones.
//! - `upstream measured`: the same for bench/peers.py, with one outcome for many paths and without the lines `dropped:`.
//! - `upstream refuse CALL`: takes all memory and makes a call, for the rows on memory that is short.
#![forbid(unsafe_code)]

mod faults;
mod rows;
mod script;

use std::io::{BufWriter, Read, Write};
use std::process::ExitCode;
use std::{env, fs, io};

/// Pages, and the headings below which their tables are: the first column is an input, the second what the crate does with it.
const TABLES: [(&str, &str); 2] =
    [("docs/DIFFERENCES.md", "## From `gix-attributes` 0.36.0"), ("docs/FROM_GITOXIDE.md", "## Faults of the crate")];

fn main() -> ExitCode {
    let arguments: Vec<String> = env::args().skip(1).collect();
    let words: Vec<&str> = arguments.iter().map(String::as_str).collect();
    match words.as_slice() {
        ["rows", top] => run_rows(top),
        ["play", files @ ..] => play(files, false),
        ["measured"] => play(&[], true),
        ["refuse", what] => rows::refuse(what),
        _ => {
            eprintln!("usage: upstream rows TOP | upstream play [FILE..] <SCRIPT | upstream measured <SCRIPT");
            ExitCode::from(2)
        }
    }
}

fn play(files: &[&str], is_measured: bool) -> ExitCode {
    let mut script = Vec::new();
    io::stdin().read_to_end(&mut script).expect("a script on standard input");
    let mut output = BufWriter::with_capacity(1 << 16, io::stdout().lock());
    match script::play(files, &script, is_measured, &mut output).and_then(|malformed| output.flush().map(|()| malformed)) {
        Ok(None) => ExitCode::SUCCESS,
        Ok(Some(record)) => {
            eprintln!("upstream: malformed record {record}");
            ExitCode::from(2)
        }
        Err(error) => {
            eprintln!("upstream: {error}");
            ExitCode::FAILURE
        }
    }
}

/// The first two cells of each row of the tables below a heading, up to the next one of its rank.
fn table<'a>(page: &'a str, heading: &str) -> Vec<(&'a str, &'a str)> {
    page.lines()
        .skip_while(|line| *line != heading)
        .skip(1)
        .take_while(|line| !line.starts_with("## "))
        .filter_map(|line| {
            let mut cells = line.strip_prefix("| ")?.split(" | ");
            Some((cells.next()?, cells.next()?))
        })
        .filter(|row| row.0 != "input")
        .collect()
}

/// What the crate does with an input: nothing known, a reason for which it isn't run, or what it says.
fn run(input: &str) -> Option<Result<String, &'static str>> {
    if let Some((_, why)) = rows::NOT_RUN.iter().find(|row| row.0 == input) {
        return Some(Err(why));
    }
    let (_, run) = rows::ROWS.iter().chain(faults::ROWS).find(|row| row.0 == input)?;
    Some(Ok(run()))
}

fn run_rows(top: &str) -> ExitCode {
    // A panic is what some rows tell.
    std::panic::set_hook(Box::new(|_| {}));
    let pages =
        TABLES.map(|(name, heading)| (name, heading, fs::read_to_string(format!("{top}/{name}")).expect("the page can be read")));
    let rows: Vec<_> = pages
        .iter()
        .flat_map(|(name, heading, page)| table(page, heading).into_iter().map(move |(input, there)| (name, input, there)))
        .collect();
    let (mut same, mut failed) = (0, 0);
    for (name, input, there) in &rows {
        match run(input) {
            Some(Ok(said)) if said == *there => same += 1,
            Some(Err(why)) => println!("not run: {input}: {why}"),
            said => {
                failed += 1;
                let said = said.map_or("there is no code for this row".into(), |said| said.unwrap_or_default());
                println!("{name}: {input}\n  the page: {there}\n  the crate: {said}");
            }
        }
    }
    let known = rows::ROWS.iter().chain(faults::ROWS).map(|row| row.0).chain(rows::NOT_RUN.iter().map(|row| row.0));
    for input in known.filter(|input| rows.iter().all(|row| row.1 != *input)) {
        failed += 1;
        println!("no page has this row: {input}");
    }
    println!("{same} rows are as the pages say, {failed} are not");
    if failed == 0 { ExitCode::SUCCESS } else { ExitCode::FAILURE }
}
