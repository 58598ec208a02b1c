//! The command-line reader: texts in, answers on standard output.

use std::env;
use std::fs::File;
use std::io::{self, BufReader, IsTerminal, Write};
use std::path::{Path, PathBuf};
use std::process::ExitCode;

use lanegravel_reader::Failure;
use lanegravel_reader::files::Context;
use lanegravel_reader::options::{Answering, HELP, Task, task};
use lanegravel_reader::run::Run;
use lanegravel_reader::settings::SettingsFile;
use lanegravel_reader::{card, example};

/// As much as a pipe hands over at once, and more.
const BUFFER: usize = 1 << 18;

fn main() -> ExitCode {
    let outcome = match task(env::args_os().skip(1)) {
        Ok(Task::Help) => print(HELP),
        Ok(Task::Version) => print(&format!("lanegravel {}\n", env!("CARGO_PKG_VERSION"))),
        Ok(Task::Card) => print(&card::markdown()),
        Ok(Task::Example(seed)) => print(&example::text(seed)),
        Ok(Task::Answer(asked)) => answer(asked),
        Err(message) => {
            say(&message);
            return ExitCode::from(1);
        }
    };
    match outcome {
        Ok(()) => ExitCode::SUCCESS,
        Err(failure) => {
            if !failure.is_closed_pipe() {
                say(&failure.to_string());
            }
            ExitCode::from(failure.status())
        }
    }
}

/// On standard error, which may be closed or full: then nobody is told.
fn say(message: &str) {
    let _ = writeln!(io::stderr(), "{message}");
}

fn print(text: &str) -> Result<(), Failure> {
    let mut out = io::stdout().lock();
    let written = out.write_all(text.as_bytes());
    written.and_then(|()| out.flush()).map_err(Failure::Output)
}

fn answer(asked: Answering) -> Result<(), Failure> {
    let settings = asked.settings.as_deref().map(|path| {
        let name = path.to_string_lossy();
        SettingsFile::open(path, &name)
    });
    let mut context = Context {
        folder: PathBuf::new(),
        settings: settings.transpose()?,
    };
    let mut run = Run::new(io::stdout().lock(), asked.wanted);
    let outcome = if asked.files.is_empty() {
        if io::stdin().is_terminal() {
            say("reading texts from the terminal; --help says what else there is");
        }
        run.answer_all(standard_input(), &context)
    } else {
        let mut files = asked.files.iter();
        files.try_for_each(|file| answer_file(&mut run, file, &mut context))
    };
    run.end();
    outcome
}

fn answer_file<W: Write>(
    run: &mut Run<W>,
    file: &Path,
    context: &mut Context,
) -> Result<(), Failure> {
    if file == Path::new("-") {
        context.folder = PathBuf::new();
        return run.answer_all(standard_input(), context);
    }
    context.folder = file.parent().map(PathBuf::from).unwrap_or_default();
    let opened = File::open(file).map_err(Failure::from);
    let answered = opened.and_then(|opened| {
        let input = BufReader::with_capacity(BUFFER, opened);
        run.answer_all(input, context)
    });
    answered.map_err(|failure| failure.of_file(file.to_string_lossy()))
}

fn standard_input() -> BufReader<io::StdinLock<'static>> {
    BufReader::with_capacity(BUFFER, io::stdin().lock())
}
