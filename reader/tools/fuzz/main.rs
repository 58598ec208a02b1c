//! Reads mutated texts and pictures: whatever they are, there is an answer of the form or a message with
//! a line number, and nothing panics. `tests/fuzz/run` starts it with the seconds, the first seed and the
//! files to mutate; each text has a seed of its own, and `0 SEED` tries that one alone.

mod mutate;

use std::env;
use std::fs;
use std::panic::{AssertUnwindSafe, catch_unwind};
use std::path::{Path, PathBuf};
use std::process::ExitCode;
use std::time::{Duration, Instant};

use lanegravel_reader::Failure;
use lanegravel_reader::answer::Floats;
use lanegravel_reader::example::random::Random;
use lanegravel_reader::fields::Sides;
use lanegravel_reader::files::Context;
use lanegravel_reader::netpbm;
use lanegravel_reader::run::{Run, Wanted};
use lanegravel_reader::settings::SettingsFile;
use lanegravel_reader::values;
use mutate::mutated;

/// What is mutated, and what the texts are read with.
struct Corpus {
    texts: Vec<Vec<u8>>,
    pictures: Vec<Vec<u8>>,
    context: Context,
}

fn main() -> ExitCode {
    let arguments: Vec<String> = env::args().skip(1).collect();
    let [seconds, seed, files @ ..] = &arguments[..] else {
        println!("fuzz SECONDS SEED FILE..");
        return ExitCode::from(1);
    };
    let number = |word: &String| word.parse().unwrap_or_else(|_| panic!("{word}: no number"));
    let (seconds, first): (u64, u64) = (number(seconds), number(seed));
    let corpus = corpus(files);
    let start = Instant::now();
    let mut tried = 0;
    let mut tally = [0; 3];
    loop {
        let seed = first.wrapping_add(tried);
        match catch_unwind(AssertUnwindSafe(|| attempt(&corpus, seed))) {
            Ok(Ok(outcome)) => tally[outcome as usize] += 1,
            Ok(Err(message)) => return report(&corpus, seed, &message),
            Err(_) => return report(&corpus, seed, "a panic"),
        }
        tried += 1;
        if start.elapsed() >= Duration::from_secs(seconds) {
            break;
        }
    }
    let [answered, malformed, pictures] = tally;
    println!(
        "fuzz: {tried} tried from seed {first} on: {answered} answered to their end, {malformed} not of the form, {pictures} pictures"
    );
    ExitCode::SUCCESS
}

fn corpus(files: &[String]) -> Corpus {
    let read = |file: &String| fs::read(file).unwrap_or_else(|error| panic!("{file}: {error}"));
    let named = |ending: &'static str| files.iter().filter(move |file| file.ends_with(ending));
    let settings = named(".settings").next().map(Path::new);
    let settings = settings.expect("a settings file");
    let file = SettingsFile::open(settings, "settings");
    Corpus {
        texts: named(".txt").map(read).map(without_marks).collect(),
        pictures: named(".pgm").chain(named(".pbm")).map(read).collect(),
        context: Context {
            folder: settings.parent().map(PathBuf::from).unwrap_or_default(),
            settings: file.ok(),
        },
    }
}

/// Stored texts have a line `settings` where their settings go, which are given from outside here.
fn without_marks(text: Vec<u8>) -> Vec<u8> {
    let lines = text.split_inclusive(|byte| *byte == b'\n');
    lines
        .filter(|line| *line != b"settings\n")
        .flatten()
        .copied()
        .collect()
}

fn report(corpus: &Corpus, seed: u64, message: &str) -> ExitCode {
    let text = mutated(&mut Random(seed), &corpus.texts);
    println!("fuzz: seed {seed}: {message}; again with `tests/fuzz/run 0 {seed}`");
    println!("{}", text[..text.len().min(2000)].escape_ascii());
    ExitCode::from(1)
}

/// What became of a text.
enum Outcome {
    Answered,
    Malformed,
    Picture,
}

fn attempt(corpus: &Corpus, seed: u64) -> Result<Outcome, String> {
    if seed.is_multiple_of(16) {
        picture(&mut Random(seed), &corpus.pictures);
        return Ok(Outcome::Picture);
    }
    let text = mutated(&mut Random(seed), &corpus.texts);
    let (exact, failure) = read(&text, Wanted::default(), &corpus.context);
    let outcome = judged(&exact, failure)?;
    match seed % 8 {
        1 => same_floats(&exact, &text, &corpus.context)?,
        2 => {
            let wanted = Wanted {
                report: true,
                sets: true,
                picture: Some("/dev/null".into()),
                levelled: Some("/dev/null".into()),
                ..Wanted::default()
            };
            let (_, second) = read(&text, wanted, &corpus.context);
            if second.is_ok() != matches!(outcome, Outcome::Answered) {
                return Err("a report of what has no answer, or none of what has".into());
            }
        }
        _ => {}
    }
    Ok(outcome)
}

fn read(text: &[u8], wanted: Wanted, context: &Context) -> (String, Result<(), Failure>) {
    let mut output = Vec::new();
    let outcome = Run::new(&mut output, wanted).answer_all(text, context);
    (String::from_utf8_lossy(&output).into_owned(), outcome)
}

/// The answers are of the form, and so is the message.
fn judged(written: &str, outcome: Result<(), Failure>) -> Result<Outcome, String> {
    for answer in written.split_inclusive("end\n") {
        let rest = answer.strip_prefix("lanegravel-answer 1\n");
        let rest = rest.ok_or(format!("an answer begins {answer:.40}"))?;
        let refused = rest
            .strip_prefix("refused ")
            .and_then(|r| r.strip_suffix("\nend\n"));
        let number = refused.and_then(|number| number.parse::<u32>().ok());
        if !rest.starts_with("accepted\n") && !number.is_some_and(|n| (1..=15).contains(&n)) {
            return Err(format!("an answer says {rest:.40}"));
        }
    }
    match outcome {
        Ok(()) if written.is_empty() => Err("no answer".into()),
        Ok(()) => Ok(Outcome::Answered),
        Err(failure) if failure.status() == 2 && failure.to_string().starts_with("line ") => {
            Ok(Outcome::Malformed)
        }
        Err(failure) => Err(format!("stopped by {failure}")),
    }
}

/// Decimals are those of the same floats.
fn same_floats(exact: &str, text: &[u8], context: &Context) -> Result<(), String> {
    let wanted = Wanted {
        floats: Floats::Decimal,
        ..Wanted::default()
    };
    let (decimal, _) = read(text, wanted, context);
    let bits = |word: &str| values::float(word.as_bytes()).map(f64::to_bits).ok();
    let (mut a, mut b) = (exact.split_whitespace(), decimal.split_whitespace());
    loop {
        match (a.next(), b.next()) {
            (None, None) => return Ok(()),
            (Some(x), Some(y)) if x == y || bits(x).is_some() && bits(x) == bits(y) => {}
            (x, y) => return Err(format!("{x:?} is {y:?} as a decimal")),
        }
    }
}

fn picture(random: &mut Random, pictures: &[Vec<u8>]) {
    let bytes = mutated(random, pictures);
    let sides = Sides {
        width: random.below(60) as usize,
        height: random.below(60) as usize,
    };
    for sides in [
        sides,
        Sides {
            width: 41,
            height: 40,
        },
        Sides {
            width: 44,
            height: 42,
        },
    ] {
        let _ = netpbm::gray(&mut &bytes[..], sides);
        let _ = netpbm::ink(&mut &bytes[..], sides);
    }
}
