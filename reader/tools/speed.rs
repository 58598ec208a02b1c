//! Times the reader's own work on a page of A4 at 300 dpi: what is spent before and after the library is
//! called. Counts the time on the processor, so that a busy machine disturbs it less than a clock on the
//! wall; that count may move by several milliseconds at once, so only means are printed.
//! `tests/reader/speed` runs it.

use std::fs;
use std::time::Duration;

use lanegravel_reader::answer::{Floats, Text};
use lanegravel_reader::files::Context;
use lanegravel_reader::text::Lines;
use lanegravel_reader::{example, fields, kinds, page};

const TIMES: u32 = 101;

fn main() {
    let text = example::text_at(1, 2);
    let mut sums = [Duration::ZERO; 3];
    for _ in 0..TIMES {
        for (sum, time) in sums.iter_mut().zip(once(&text)) {
            *sum += time;
        }
    }
    let megabytes = text.len() as f64 / 1e6;
    let [parse, call, print] = sums.map(|sum| (sum / TIMES).as_secs_f64() * 1e3);
    let own = parse + print;
    println!("A4 at 300 dpi, {megabytes:.1} MB of text, means of {TIMES} runs:");
    println!("  parsing {parse:.1} ms, printing {print:.1} ms, both {own:.1} ms");
    println!("  the library's call, with what is lent to it, {call:.1} ms");
}

/// The text read, answered and written, each timed.
fn once(text: &str) -> [Duration; 3] {
    let start = on_processor();
    let mut lines = Lines::new(text.as_bytes());
    let kind = kinds::next(&mut lines).ok().flatten().expect("a text");
    let read = fields::read(&mut lines, kind, &Context::default());
    let fields = read.unwrap_or_else(|failure| panic!("{failure}"));
    let parsed = on_processor();
    let found = page::page(fields, false).expect("the page is accepted");
    let called = on_processor();
    let mut answer = Text::new(Floats::Bits);
    answer.found(&found);
    assert!(answer.whole(Ok(())).len() > 100);
    [parsed - start, called - parsed, on_processor() - called]
}

/// How long this thread has run so far, as Linux counts it.
fn on_processor() -> Duration {
    let counted = fs::read_to_string("/proc/thread-self/schedstat").expect("Linux");
    let nanoseconds = counted.split(' ').next().map(str::parse);
    Duration::from_nanos(nanoseconds.and_then(Result::ok).expect("a number"))
}
