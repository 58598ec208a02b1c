//! Tokens, and the declarations of a file of antt.

use lanegravel_audit::antt::{Form, read};
use lanegravel_audit::lex::{Kind, lex};

fn texts(text: &str) -> Vec<String> {
    let tokens = lex(text, 1).expect("tokens");
    tokens.into_iter().map(|t| t.text).collect()
}

#[test]
fn a_name_ends_at_a_space_or_a_mark() {
    assert_eq!(
        texts("f n+n (x∷xs).a ◌+ℤ◌ x' the_row"),
        [
            "f",
            "n+n",
            "(",
            "x∷xs",
            ")",
            ".",
            "a",
            "◌+ℤ◌",
            "x'",
            "the_row"
        ]
    );
    assert_eq!(texts("a -- b\nc --d"), ["a", "c"]);
    assert_eq!(texts("a {- b {- c -} d -} e"), ["a", "e"]);
}

#[test]
fn an_escaped_name_is_one_name() {
    let tokens = lex("p .«merge_gap_xh»", 7).expect("tokens");
    assert_eq!(tokens[2].text, "merge_gap_xh");
    assert_eq!(tokens[2].kind, Kind::Escaped);
    assert!(tokens[2].tight && !tokens[1].tight);
    assert_eq!((tokens[2].line, tokens[2].column), (7, 3));
}

#[test]
fn what_is_not_closed_is_told() {
    assert_eq!(lex("a\n«b", 1).unwrap_err().0, 2);
    assert!(lex("{- a", 1).is_err());
}

const FILE: &str = "\
-- A file.
use lib.A.{a, b as c, D.e}
use Rattle.x.specs.Y as Z
pub use lib.B.{f}

-- The first
-- of two.
abbrev pub one : ℕ → ℕ
one zero = 1
one (suc n) =
    one n

pub record R (x : ℕ) : Type 0 where
  pub left : x ≡ x
  -- inside
  pub right :
      left ≡ left

module _ (g : R) where
  -- in a block
  unfoldable pub two : ℕ
  unfolding one
  two = one 2

pub data D : Type 0 where
  here there : D
axiom pub bad : ℕ
pattern abbrev pub three : ℕ
three = suc two
";

#[test]
fn declarations_have_their_lines_and_members() {
    let file = read("F.antt", FILE).expect("a file");
    assert!(file.unread.is_empty());
    let found: Vec<_> = file
        .declarations
        .iter()
        .map(|d| (d.name.as_str(), d.form, d.comment, d.first, d.last))
        .collect();
    assert_eq!(
        found,
        [
            ("one", Form::Definition, 6, 8, 11),
            ("R", Form::Record, 13, 13, 17),
            ("two", Form::Definition, 20, 21, 23),
            ("D", Form::Data, 25, 25, 26),
            ("bad", Form::Axiom, 27, 27, 27),
            ("three", Form::Definition, 28, 28, 29),
        ]
    );
    let members = |i: usize| -> Vec<&str> {
        let members = file.declarations[i].members.iter();
        members.map(|(name, _)| name.as_str()).collect()
    };
    assert_eq!(members(1), ["left", "right"]);
    assert_eq!(members(3), ["here", "there"]);
    assert_eq!(file.declarations[2].block, Some(0));
    assert_eq!(file.declarations[3].block, None);
}

#[test]
fn use_lines_bring_names_and_modules() {
    let file = read("F.antt", FILE).expect("a file");
    let found: Vec<_> = file
        .uses
        .iter()
        .map(|u| {
            (
                u.module.as_str(),
                u.name.as_deref(),
                u.local.as_str(),
                u.public,
            )
        })
        .collect();
    assert_eq!(
        found,
        [
            ("lib.A", Some("a"), "a", false),
            ("lib.A", Some("b"), "c", false),
            ("lib.A.D", Some("e"), "e", false),
            ("Rattle.x.specs.Y", None, "Z", false),
            ("lib.B", Some("f"), "f", true),
        ]
    );
}

#[test]
fn a_form_that_is_not_read_is_told() {
    let file = read("F.antt", "mutual\n  a : ℕ\n").expect("a file");
    assert_eq!(file.unread[0].line, 1);
}
