//! What a document names, and whether it is there.

use lanegravel_audit::docs::{Thing, mentions, rows};
use lanegravel_audit::known::Known;

use crate::Repository;

const SPECS: &str = "pub record R : Type 0 where\n  pub x : R\n\nabbrev pub f : R\nf = f\n";

fn repository() -> Repository {
    Repository::new(&[
        ("crates.txt", "low:\n"),
        (
            "crates/low/src/lib.rt",
            "pub fn run(x: u32) -> u32 {\n    x\n}\n",
        ),
        (
            "crates/low/src/page.rt",
            "pub struct Page {\n    pub w: u32,\n}\n",
        ),
        ("crates/low/specs/Low.antt", SPECS),
        ("crates/low/proofs/Laws.antt", "pub f_is : R\nf_is = f\n"),
        ("crates/low/must-fail/one_too_many.edit", ""),
        (
            "tests/differential/driver/src/main.rs",
            "    name: \"gap_sets\",\n",
        ),
    ])
}

fn faults(text: &str) -> Vec<String> {
    let repository = repository();
    let project = repository.project();
    let known = Known::new(&project);
    let found = mentions(&project, 1, text);
    assert!(!found.is_empty(), "nothing is named in {text}");
    let faults = found.iter().filter_map(|m| known.fault(&project, &m.thing));
    faults.collect()
}

#[test]
fn what_is_there_has_no_fault() {
    for text in [
        "`low` Low: `R`, `f`; page.rt: `Page`",
        "`low` Low: `R .x`, fields `x`; law `f_is`",
        "`run` (`R .x`, `.x`), `low::run`, laws `f_is` and `f`",
        "edits one_too_many, one_too_many (`low`); runs",
        "`tests/differential/run --only gap --seed 2`, `--only gap_sets`",
        "`low` Laws: `f_is`. `crates/low`, `low/specs`, `lib.Ieee`, `rt must-fail low`",
        "`Rattle.std.specs.Prelude`",
    ] {
        assert_eq!(faults(text), [""; 0], "{text}");
    }
}

#[test]
fn what_is_not_there_is_told() {
    for (text, fault) in [
        ("`low` High: `R`", "crate `low` has no file High"),
        ("`low` Low: `R`, `g`", "`low` Low has no `g`"),
        ("`low` Low: `R .y`", "no record `R` has a field `.y`"),
        ("`run` (`R .x`, `.y`)", "no record `R` has a field `.y`"),
        (
            "`low` Low: `R`, fields `x`, `z`",
            "no record `R` has a field `.z`",
        ),
        ("law `g_is`", "there is no law or definition `g_is`"),
        ("law `f-is`", "there is no law or definition `f-is`"),
        ("law `run`", "there is no law or definition `run`"),
        ("`low::walk`", "nothing here is called `low::walk`"),
        (
            "`Rattle.other.specs.Low`",
            "nothing here is called `Rattle.other.specs.Low`",
        ),
        (
            "`--only other`",
            "no differential run has other in its name",
        ),
        ("edit one_too_few", "there is no must-fail edit one_too_few"),
        (
            "edit one_too_many (`high`)",
            "there is no must-fail edit one_too_many of `high`",
        ),
    ] {
        assert_eq!(
            faults(text).first().map(String::as_str),
            Some(fault),
            "{text}"
        );
    }
}

#[test]
fn a_bracket_ends_what_is_said_of_a_file() {
    let repository = repository();
    let found = mentions(&repository.project(), 1, "`run` (`low` Low: `R`), `f`");
    assert_eq!(
        found.last().expect("a name").thing,
        Thing::Known("f".to_string())
    );
}

#[test]
fn rows_stand_behind_a_tables_head() {
    let text = "## A\n\n| s | d |\n|---|---|\n| x | `y` |\n\n## B\n| s |\n|---|\n| z |\n";
    let found: Vec<_> = rows(text)
        .into_iter()
        .map(|r| (r.line, r.section, r.cells))
        .collect();
    assert_eq!(found, [(5, "A", vec!["x", "`y`"]), (10, "B", vec!["z"])]);
}
