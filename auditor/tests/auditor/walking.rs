//! The names that a declaration says, and those that it binds.

use lanegravel_audit::antt::read;
use lanegravel_audit::walk::{Said, declaration};

const CONSTRUCTORS: [&str; 4] = ["zero", "suc", "∷", "[]"];

fn said(text: &str) -> Said {
    let file = read("F.antt", text).expect("a file");
    declaration(&file, file.declarations.len() - 1, &|name| {
        CONSTRUCTORS.contains(&name)
    })
}

fn names(text: &str) -> Vec<String> {
    let said = said(text);
    assert!(said.problems.is_empty(), "{:?}", said.problems);
    said.names.iter().map(|n| n.path.join(".")).collect()
}

#[test]
fn patterns_bind_and_say_constructors() {
    let text = "f : A → B\nf [] = g\nf (x ∷ xs) = h x xs y\n";
    assert_eq!(names(text), ["A", "B", "[]", "g", "∷", "h", "y"]);
}

#[test]
fn a_binder_reaches_to_the_end_of_its_expression() {
    assert_eq!(names("f : ((x : A) → P x) → Q x\n"), ["A", "P", "Q", "x"]);
    assert_eq!(names("f : A\nf = (λ x. g x) x\n"), ["A", "g", "x"]);
    assert_eq!(names("f : A\nf = let x = x in g x\n"), ["A", "x", "g"]);
    assert_eq!(names("f {ℓ} : Type ℓ → {A : B} → A\n"), ["B"]);
}

#[test]
fn a_field_is_bound_behind_its_own_type() {
    let text = "record R (n : N) : Type 0 where\n  pub x : x n\n  pub y : x ≡ z\n";
    assert_eq!(names(text), ["N", "x", "≡", "z"]);
}

#[test]
fn a_block_binds_its_parameters() {
    assert_eq!(
        names("module _ (g : G) where\n  f : A\n  f = g h\n"),
        ["G", "A", "h"]
    );
}

#[test]
fn labels_and_projections_are_fields() {
    let said = said("f : A → B\nf a = record { x = (a).y .0; z = M.w a }\n");
    let fields: Vec<&str> = said.fields.iter().map(|(f, _)| f.as_str()).collect();
    assert_eq!(fields, ["y", "0", "x", "z"]);
    assert_eq!(said.names.last().expect("a name").path, ["M", "w"]);
}

#[test]
fn a_tight_dot_behind_a_variable_projects() {
    let said = said("f : A → B\nf a = a.x\n");
    assert_eq!(said.fields, [("x".to_string(), 2)]);
    assert_eq!(said.names.len(), 2);
}

#[test]
fn a_record_with_the_fields_of_another_says_that_one() {
    assert_eq!(
        names("f : A → B\nf a = h record a { x = g } (record (k a) { y = a })\n"),
        ["A", "B", "h", "g", "k"]
    );
    assert_eq!(names("f : A\nf = record b { x = g }\n"), ["A", "b", "g"]);
}

#[test]
fn only_a_circle_parts_an_operator() {
    assert_eq!(
        names("f : (◌+◌ : A) → B\nf every_below = every + below\n"),
        ["A", "B", "every", "+", "below"]
    );
    assert_eq!(
        names("f : (◌+◌ : A) (every_below : A) → x + y\n"),
        ["A", "A", "x", "y"]
    );
    assert_eq!(names("f : (every_below : A) → every\n"), ["A", "every"]);
}

#[test]
fn forms_that_are_not_read_are_told() {
    for body in [
        "do x",
        "?",
        "elim x [ zero ↦ a ]",
        "?h",
        "(a : b",
        "g .",
        "let x in y",
    ] {
        let said = said(&format!("f : A\nf = {body}\n"));
        assert!(!said.problems.is_empty(), "{body}");
    }
    let said = said("f : A → A\nf (foo a) = a\n");
    assert!(!said.problems.is_empty(), "an unknown constructor");
}
