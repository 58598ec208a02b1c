//! What a contract reaches in a small repository, and what can't be resolved.

use lanegravel_audit::check::{self, Part};
use lanegravel_audit::print;
use lanegravel_audit::reach::{Reached, exported, reach};

use crate::Repository;

const LOW: &str = "\
use Rattle.std.specs.Prelude.{ℕ, ◌+◌, zero, suc}
use Rattle.low.specs.declared.Pair.{Pair}

-- Twice.
abbrev pub twice : ℕ → ℕ
twice zero = zero
twice (suc n) = n + n

abbrev pub unused : ℕ
unused = 0

pub data Side : Type 0 where
  here : Side

pub record Good (p : Pair) (r : ℕ) : Type 0 where
  pub is : r ≡ twice p.x
  pub side : Side.here
";

const CALL: &str = "\
ghost use Rattle.low.specs.Low.{Good};

#[unsafe(no_mangle)]
pub extern \"C\" fn lanegravel_call(x: u32, out: &mut [u32]) -> u32
    ensures { Good (record { x = out.new }) result }
{
    1
}
";

fn repository(low: &str, call: &str) -> Repository {
    Repository::new(&[
        ("crates.txt", "# crates\nlow:\nlanegravel staticlib: low\n"),
        (
            "crates/low/src/lib.rt",
            "pub struct Pair {\n    pub x: u32,\n}\n",
        ),
        ("crates/low/specs/Lib.antt", "pub mod Low\n"),
        ("crates/low/specs/Low.antt", low),
        ("crates/low/must-fail/twice_is_once.edit", ""),
        ("crates/lanegravel/src/lib.rt", call),
        (
            "include/lanegravel.h",
            "/* It. */\nint lanegravel_call(int x);\n",
        ),
        ("docs/PROMISES.md", PROMISES),
        ("docs/AUDIT.md", "Start at `low` Low: `Good`.\n"),
    ])
}

const PROMISES: &str = "\
## Sums

| sentence | definition | promise | guard |
|---|---|---|---|
| Twice is twice | `low` Low: `twice` | `lanegravel_call` (`Good .is`) | edit twice_is_once |
";

fn low() -> String {
    LOW.replace("Prelude.{", "Prelude.{◌≡◌, ")
}

fn problems(low: &str, call: &str) -> Vec<String> {
    let repository = repository(low, call);
    let project = repository.project();
    let reached: Reached = reach(&project, &exported(&project, "lanegravel"));
    reached.problems.iter().map(ToString::to_string).collect()
}

#[test]
fn definitions_are_reached_once_and_from_the_bottom() {
    let repository = repository(&low(), CALL);
    let project = repository.project();
    let calls = exported(&project, "lanegravel");
    let reached = reach(&project, &calls);
    assert!(reached.problems.is_empty(), "{:?}", reached.problems);
    let order = print::reading_order(&project, &reached, false);
    let index = print::index(&project, &order, &reached);
    let names: Vec<&str> = index.lines().filter_map(|l| l.split(' ').nth(1)).collect();
    assert_eq!(names, ["Pair", "twice", "Side", "Good", "definitions"]);
    let count = print::count(&project, &reached);
    assert_eq!(
        (
            count.definitions,
            count.lines,
            count.comments,
            count.structs
        ),
        (3, 8, 1, 1)
    );
    let text = print::whole(&project, &calls, &order, &reached).expect("a text");
    for part in [
        "/* It. */",
        "   | Sums: Twice is twice",
        "Rattle.std.specs.Prelude: suc, zero, ℕ, ◌+◌, ◌≡◌",
        "rt of lanegravel: no verdict stands in build/rt/lanegravel.out",
    ] {
        assert!(text.contains(part), "{part} in {text}");
    }
}

#[test]
fn a_name_without_a_use_line_is_an_error() {
    let found = problems(LOW, CALL);
    assert_eq!(
        found,
        ["crates/low/specs/Low.antt:16: `≡` can't be resolved"]
    );
    let found = problems(&low().replace("n + n", "n + m"), CALL);
    assert_eq!(
        found,
        ["crates/low/specs/Low.antt:7: `m` can't be resolved"]
    );
}

#[test]
fn what_a_use_line_names_must_be_there() {
    let found = problems(&low(), &CALL.replace("{Good}", "{Better as Good}"));
    assert!(
        found[0].ends_with("there is no `Better` in `Rattle.low.specs.Low`"),
        "{found:?}"
    );
    let found = problems(&low(), &CALL.replace("specs.Low.{", "specs.High.{"));
    assert!(
        found[0].ends_with("there is no module `Rattle.low.specs.High`"),
        "{found:?}"
    );
    let found = problems(&low(), &CALL.replace("out: &mut [u32]", "out: Pair"));
    assert!(
        found[0].ends_with("the type `Pair` can't be resolved"),
        "{found:?}"
    );
}

#[test]
fn a_field_of_nothing_that_is_reached_is_an_error() {
    let found = problems(&low().replace("p.x", "p.y"), CALL);
    assert!(
        found[0].ends_with("`.y` is a field of nothing that is reached"),
        "{found:?}"
    );
}

#[test]
fn each_clause_counts_and_says_its_names() {
    let two = CALL.replace(
        "    ensures { Good",
        "    ensures below { twice x ≤ 1 }\n    ensures good { Good",
    );
    let found = problems(&low(), &two);
    assert_eq!(
        found,
        [
            "crates/lanegravel/src/lib.rt:5: `twice` can't be resolved",
            "crates/lanegravel/src/lib.rt:5: `≤` can't be resolved",
        ]
    );
    let starred = CALL.replace("ensures { Good", "ensures* { ⌜ Good");
    let starred = starred.replace("result }", "result ⌝ ∗ other }");
    let found = problems(&low(), &starred);
    assert_eq!(
        found,
        ["crates/lanegravel/src/lib.rt:5: `other` can't be resolved"]
    );
}

#[test]
fn modules_that_rattle_makes_of_a_type_are_read() {
    let call = CALL.replace(
        "specs.Low.{Good};",
        "specs.Low.{Good};\nghost use Rattle.low.specs.declared.Pair.TheVariants.{Pear};",
    );
    let found = problems(&low(), &call.replace("Good (", "Good Pear ("));
    assert!(
        found[0].contains("there is no `Pear` in `Rattle.low.specs.declared.Pair.TheVariants`"),
        "{found:?}"
    );
}

const ALL: [Part; 3] = [Part::Exported, Part::Documents, Part::Sources];

fn checked(low: &str, call: &str) -> Vec<String> {
    let repository = repository(low, call);
    let project = repository.project();
    let calls = exported(&project, "lanegravel");
    let report = check::check(&project, &calls, &ALL).expect("a report");
    report.problems.iter().map(|p| p.text.clone()).collect()
}

#[test]
fn the_check_finds_what_is_assumed() {
    assert_eq!(checked(&low(), CALL), [""; 0]);
    let found = checked(&(low() + "axiom pub all : ℕ\n"), CALL);
    assert_eq!(found, ["an axiom"]);
    let found = checked(
        &low().replace("use Rattle.low", "use Prim.Axiom.{lem}\nuse Rattle.low"),
        CALL,
    );
    assert_eq!(found, ["an axiom"]);
    assert_eq!(
        checked(&(low() + "some : ℕ\nsome = ?h\n"), CALL),
        ["a hole"]
    );
    for clause in [
        "requires { ⊥ }",
        "requires low { ⊥ }",
        "requires* { ⌜ ⊥ ⌝ }",
    ] {
        let call = CALL.replace("    ensures", &format!("    {clause}\n    ensures"));
        assert_eq!(
            checked(&low(), &call),
            ["`lanegravel_call` has a `requires`"],
            "{clause}"
        );
    }
    let call = CALL.replace("    ensures", "    ghost top: { ⊥ }\n    ensures");
    assert_eq!(
        checked(&low(), &call),
        [
            "`lanegravel_call` has a clause that isn't read",
            "`lanegravel_call` has no `ensures`",
        ]
    );
    let call = CALL.replace("-> u32\n    ensures", "-> u32 requires { ⊥ }\n    ensures");
    assert!(!checked(&low(), &call).is_empty(), "beside the signature");
    let call = CALL.replace("    1\n", "    unsafe{ 1 }\n");
    assert_eq!(checked(&low(), &call), ["a form that nothing proves"]);
    let call = CALL.replace("_call(", "_other(");
    let found = checked(&low(), &call);
    assert!(
        found.contains(&"`lanegravel_other` isn't declared in include/lanegravel.h".to_string())
    );
    let bare: Vec<&str> = CALL.lines().filter(|l| !l.contains("ensures")).collect();
    let bare = bare.join("\n").replace("-> u32\n{", "-> u32 {");
    assert_eq!(
        checked(&low(), &bare),
        ["`lanegravel_call` has no `ensures`"]
    );
}

#[test]
fn the_check_finds_c() {
    let mut files = vec![
        ("crates.txt", "low: libc\nlanegravel staticlib: low\n"),
        ("crates/low/src/lib.rt", "\n"),
        ("crates/lanegravel/src/lib.rt", "\n"),
    ];
    let found = |files: &[(&str, &str)]| -> Vec<String> {
        let repository = Repository::new(files);
        let project = repository.project();
        let report = check::check(&project, &[], &[Part::Sources]).expect("a report");
        report.problems.iter().map(ToString::to_string).collect()
    };
    assert_eq!(found(&files), ["crates.txt: `low` uses libc, which is C"]);
    files[0].1 = "low:\nlanegravel staticlib: low\n";
    files.push(("crates/low/c/own.c", "\n"));
    assert_eq!(found(&files), ["crates/low/c: C of its own"]);
}
