//! rt's logs: a verdict of every library, with nothing assumed.

use lanegravel_audit::log::{Logs, assumes, read};

use crate::Repository;

const CRATES: &str = "low:\nhigh: low\ncalls staticlib: high\nprogram: low\n";
const CI: &str = "\
rt: low is kept: an earlier run on this machine proved the same files over the same libraries
== high: its tests
logic=proved functions=2 axioms=8 sum=1
rt: high: its tests are proved
== high
logic=not-proved
rt: the check was killed, most likely for memory: once more
logic=proved functions=3 sum=1 native=nat,char,string
rt: high proved
== calls
logic=proved functions=1 target=x sum=1
rt: calls proved
== program
logic=proved functions=1 axioms=8 sum=1
rt: program proved
rt: ok; handles allowed: none; must-fail edits: 9 refused, 2 of them only by a limit; done in this run: ..
4 passed, 0 failed
";
const BUILD: &str = "logic=proved functions=3 sum=1\naxioms libc: none reached of the 128 declared
logic=proved functions=1 target=x sum=1\n";

fn logs(ci: &str, build: &str) -> Logs {
    let repository = Repository::new(&[
        ("crates.txt", CRATES),
        ("crates/low/src/lib.rt", ""),
        ("crates/high/src/lib.rt", ""),
        ("crates/calls/src/lib.rt", ""),
        ("crates/program/src/main.rt", ""),
        ("build/rt/ci.out", ci),
        ("build/rt/calls.out", build),
    ]);
    read(&repository.project())
}

fn problems(ci: &str, build: &str) -> Vec<String> {
    let logs = logs(ci, build);
    let found = logs.problems.iter().chain(&logs.lacking);
    found.map(ToString::to_string).collect()
}

#[test]
fn every_library_has_a_verdict_or_is_kept() {
    let found = logs(CI, BUILD);
    assert!(found.problems.is_empty() && found.lacking.is_empty());
    assert_eq!((found.read, found.kept), (3, 1));
    assert_eq!(
        problems(&CI.replace("low is kept", "slow is kept"), BUILD),
        ["build/rt/ci.out: no verdict of `low` stands here"]
    );
    assert_eq!(
        problems(CI, "crate calls: modules\n"),
        ["build/rt/calls.out: no verdict of `calls` stands here"]
    );
    assert_eq!(problems("", BUILD), ["build/rt/ci.out: isn't there"]);
}

#[test]
fn what_is_assumed_is_told() {
    assert_eq!(
        problems(
            &CI.replace("functions=3 sum", "functions=3 foreign=f sum"),
            BUILD
        ),
        ["build/rt/ci.out:8: assumes something: foreign=f"]
    );
    assert_eq!(
        problems(CI, &BUILD.replace("functions=1", "functions=1 axioms=2")),
        ["build/rt/calls.out:3: assumes something: axioms=2"]
    );
    assert_eq!(
        problems(
            CI,
            &BUILD.replace("logic=proved functions=1", "logic=not-proved")
        ),
        ["build/rt/calls.out:3: isn't proved"]
    );
    let none = "no line `rt: ok; handles allowed: none; ..`";
    assert_eq!(
        problems(&CI.replace("none; must", "Net; must"), BUILD),
        [format!("build/rt/ci.out: {none}")]
    );
    assert_eq!(
        problems(&CI.replace("by a limit;", "by a limit, 1 bad;"), BUILD),
        ["build/rt/ci.out:16: an edit of must-fail/ is bad"]
    );
    assert_eq!(
        problems(&format!("rt: C is allowed for low: ..\n{CI}"), BUILD),
        ["build/rt/ci.out:1: C whose contracts nothing proves"]
    );
}

#[test]
fn a_verdict_that_counts_no_axiom_assumes_nothing() {
    assert_eq!(assumes("logic=proved functions=3 axioms=0 sum=1"), None);
    assert!(assumes("logic=proved holes=1").is_some());
    assert!(assumes("only=1 proved=1").is_some());
}
