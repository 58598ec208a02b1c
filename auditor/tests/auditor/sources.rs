//! Files of Rattle, and the header.

use lanegravel_audit::header::{declaration, declared};
use lanegravel_audit::rt::read;

const SOURCE: &str = "\
// A file.
ghost use lib.A.{a};
use low::kinds::Kind;

// Two fields.
#[repr(C)]
pub struct Pair {
    pub x: u32, // first
    pub k: Kind,
}

pub struct Place(pub u32, pub u32);

enum Shape {
    Round { size: f64 },
    Other(low::Side),
    Nothing,
}

// The call.
#[unsafe(no_mangle)]
pub extern \"C\" fn call(
    p: Pair,
    out: &mut [low::Side],
) -> u32
    requires { p.x ≡ 1 }
    ensures same { a (record {
        x = result }) }
    ensures* kept { ⌜ b ⌝ }
{
    call2(p)
}

fn plain(a: u32) -> u32 {
    a
}

#[unsafe(no_mangle)]
fn shared(n: usize)
    ghost top: { ℕ }
    ensures { n ≤ top }
{
}
";

#[test]
fn structs_have_fields_variants_and_types() {
    let file = read("s.rt", SOURCE).expect("a file");
    let [pair, place, shape] = file.structs.as_slice() else {
        panic!("{:?}", file.structs)
    };
    assert_eq!(
        (pair.name.as_str(), pair.comment, pair.first, pair.last),
        ("Pair", 5, 6, 10)
    );
    assert_eq!(pair.fields, ["x", "k"]);
    assert_eq!(pair.types, [(vec!["Kind".to_string()], 9)]);
    assert_eq!(place.fields, ["0", "1"]);
    assert_eq!(shape.variants, ["Round", "Other", "Nothing"]);
    assert_eq!(shape.fields, ["size"]);
    assert_eq!(shape.types[0].0, ["low", "Side"]);
    assert_eq!(file.uses["Kind"], ["low", "kinds", "Kind"]);
}

#[test]
fn functions_have_their_clauses() {
    let file = read("s.rt", SOURCE).expect("a file");
    let [call, plain, shared] = file.functions.as_slice() else {
        panic!("{:?}", file.functions)
    };
    assert!(call.exported && !plain.exported && shared.exported);
    assert_eq!((call.comment, call.first, call.last), (20, 21, 29));
    assert_eq!(call.parameters, ["p", "out"]);
    assert_eq!(call.requires.len(), 1);
    assert_eq!(call.requires[0].name, None);
    let [same, kept] = call.ensures.as_slice() else {
        panic!("{:?}", call.ensures)
    };
    assert_eq!(same.name.as_deref(), Some("same"));
    assert!(!same.starred && kept.starred);
    let texts: Vec<&str> = same.tokens.iter().map(|t| t.text.as_str()).collect();
    assert_eq!(
        texts,
        ["a", "(", "record", "{", "x", "=", "result", "}", ")"]
    );
    assert_eq!(same.tokens[0].line, 27);
    assert_eq!(kept.tokens.len(), 3);
    assert!(plain.requires.is_empty() && plain.ensures.is_empty());
    assert_eq!((call.unread, shared.unread), (None, Some(40)));
}

const HEADER: &str = "\
/* One. */
double a_one(double x);

/* Two,
 * and more of a_one(x). */
struct a_answer
a_two(int x,
      int y);
static inline int a_three(int x) { return x; }
";

#[test]
fn a_declaration_stands_with_its_comment() {
    let one = declaration(HEADER, "a_one").expect("declared");
    assert_eq!((one.line, one.text.len()), (1, 2));
    let two = declaration(HEADER, "a_two").expect("declared");
    assert_eq!((two.line, two.text.len()), (4, 5));
    assert!(declaration(HEADER, "a_three").is_none());
    assert_eq!(declared(HEADER, "a_"), ["a_one", "a_two"]);
}

#[test]
fn a_use_of_several_lines_and_lifetimes_are_read() {
    let source = "\
use crate::lent::{
    Bytes, Words,
};

pub struct Two<'l> {
    pub first: &'l mut [Words],
}
";
    let file = read("s.rt", source).expect("a file");
    assert_eq!(file.uses["Words"], ["crate", "lent", "Words"]);
    let types = &file.structs[0].types;
    assert_eq!(types, &[(vec!["Words".to_string()], 6)]);
}
