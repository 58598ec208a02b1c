//! `./audit`: what a reader of the exported contracts has to believe.

use std::env;
use std::io::{self, Write};
use std::path::{Path, PathBuf};
use std::process::ExitCode;

use lanegravel_audit::check::{self, Part, Report};
use lanegravel_audit::header;
use lanegravel_audit::print;
use lanegravel_audit::problem::Problem;
use lanegravel_audit::project::{Project, read_text};
use lanegravel_audit::reach::{self, Call};

const HELP: &str = "\
audit: what a reader of the exported contracts has to believe

  ./audit [--top] [CALL..]     print it for these calls, or for all of them
  ./audit --index [CALL..]     names and places alone, and the count
  ./audit --check              see that docs/PROMISES.md and docs/AUDIT.md name what is there, that every
                               exported function has an `ensures` and no `requires`, and that nothing is
                               assumed: no hole, axiom or foreign function, none in rt's logs
  ./audit --check=PART         one of these alone: documents, exported, sources
  ./audit --logs               rt's logs alone, build/rt/, as ./test keeps them: every library has a verdict in
                               what `rt ci` printed, or is said there to be kept from an earlier run, every
                               static library has one of its build, and none assumes anything
  ./audit --help               print this

A CALL is `detect` or `lanegravel_detect`. What is printed, in reading order: each call's declaration
for C and its contract; every definition, struct and enum that these reach by a name in a type or a body,
once, from the bottom (floats and lists first) or with --top from the top, with its place, its comment and
the sentences of the demands and of document 01 that docs/PROMISES.md has beside it; the names of the kit's
definitions that are reached; what is assumed. The last line counts.

Exit status: 0, or 1 where a name can't be resolved, something is wrong, or an argument is unknown;
standard error says what, with file and line.
";

#[derive(Default)]
struct Options {
    root: PathBuf,
    top: bool,
    index: bool,
    check: Vec<Part>,
    logs: bool,
    calls: Vec<String>,
}

fn main() -> ExitCode {
    let mut options = Options::default();
    for argument in env::args().skip(1) {
        match argument.as_str() {
            "--help" => {
                return write(HELP);
            }
            "--top" => options.top = true,
            "--index" => options.index = true,
            "--check" => options.check.extend(check::PARTS.map(|(_, part)| part)),
            "--logs" => options.logs = true,
            other if other.starts_with("--root=") => options.root = other[7..].into(),
            other if part(other).is_some() => options.check.extend(part(other)),
            other if other.starts_with('-') => {
                eprintln!("audit: unknown argument {other}; --help says which there are");
                return ExitCode::FAILURE;
            }
            call => options.calls.push(call.to_string()),
        }
    }
    match run(&options) {
        Ok(text) => write(&text),
        Err(problems) => {
            for problem in problems {
                eprintln!("audit: {problem}");
            }
            ExitCode::FAILURE
        }
    }
}

/// The part of `--check=PART`.
fn part(argument: &str) -> Option<Part> {
    let name = argument.strip_prefix("--check=")?;
    let found = check::PARTS.iter().find(|(n, _)| *n == name)?;
    Some(found.1)
}

fn write(text: &str) -> ExitCode {
    match io::stdout().write_all(text.as_bytes()) {
        Err(error) if error.kind() != io::ErrorKind::BrokenPipe => {
            eprintln!("audit: {error}");
            ExitCode::FAILURE
        }
        _ => ExitCode::SUCCESS, // a reader who has seen enough is no failure
    }
}

fn run(options: &Options) -> Result<String, Vec<Problem>> {
    let project = Project::read(&options.root).map_err(|p| vec![p])?;
    let all = calls(&project).map_err(|p| vec![p])?;
    if options.logs {
        return told(check::logs(&project));
    }
    if !options.check.is_empty() {
        let report = check::check(&project, &all, &options.check);
        return told(report.map_err(|p| vec![p])?);
    }
    let calls = chosen(&project, all, &options.calls)?;
    let reached = reach::reach(&project, &calls);
    if !reached.problems.is_empty() {
        return Err(reached.problems);
    }
    let order = print::reading_order(&project, &reached, options.top);
    match options.index {
        true => Ok(print::index(&project, &order, &reached)),
        false => print::whole(&project, &calls, &order, &reached).map_err(|p| vec![p]),
    }
}

/// The exported functions, in the order in which the header declares them.
fn calls(project: &Project) -> Result<Vec<Call>, Problem> {
    let header = read_text(&project.root, Path::new(check::HEADER))?;
    let declared = header::declared(&header, "lanegravel_");
    let mut calls = reach::exported(project, "lanegravel");
    calls.sort_by_key(|call| {
        let name = &call.function(project).name;
        declared.iter().position(|d| d == name)
    });
    Ok(calls)
}

fn told(report: Report) -> Result<String, Vec<Problem>> {
    let notes = report.notes.iter().map(|n| format!("audit: {n}\n"));
    match report.problems.is_empty() {
        true => Ok(notes.collect()),
        false => Err(report.problems),
    }
}

/// The calls that are named, with or without their prefix; all where none is.
fn chosen(project: &Project, all: Vec<Call>, names: &[String]) -> Result<Vec<Call>, Vec<Problem>> {
    let called = |call: &Call, name: &str| {
        let whole = &call.function(project).name;
        whole == name || whole.strip_prefix("lanegravel_") == Some(name)
    };
    let unknown = names.iter().filter(|n| !all.iter().any(|c| called(c, n)));
    let problems: Vec<Problem> = unknown
        .map(|n| {
            Problem::new(
                "crates/lanegravel",
                0,
                format!("no exported function is called {n}"),
            )
        })
        .collect();
    if !problems.is_empty() {
        return Err(problems);
    }
    let wanted = |call: &Call| names.is_empty() || names.iter().any(|n| called(call, n));
    Ok(all.into_iter().filter(wanted).collect())
}
