//! What a file may name without a `use` line, and what has to be known of the kit's own names. The kit's
//! definitions are listed by name alone; that a `use` line names what the kit has, `rt` checks.

/// Libraries of the kit, by the first word of a module's path.
pub const LIBRARIES: [&str; 16] = [
    "Prim", "mathlib", "native", "lib", "base", "borrow", "contract", "denote", "ghost", "mir",
    "prog", "seplogic", "sound", "store", "tools", "types",
];

/// The standard library's crates, by the second word of a path that begins with `Rattle`.
const STANDARD: [&str; 6] = [
    "core",
    "std",
    "std_alloc",
    "std_collections",
    "std_heap",
    "std_io",
];

/// Open in every file.
pub const PRELUDE: [&str; 16] = [
    "IsProp",
    "IsSet",
    "⊥",
    "absurd",
    "¬◌",
    "Dec",
    "yes",
    "no",
    "Discrete",
    "Unit",
    "tt",
    "Id",
    "J",
    "Path",
    "∥◌∥₁",
    "∣◌∣₁",
];

/// Where the names stand that every clause of a contract is lent.
pub const CLAUSE: &str = "every clause";

/// Lent to every clause of a contract: a fact inside a starred clause, and what joins two parts of one.
pub const LENT: [&str; 2] = ["⌜◌⌝", "◌∗◌"];

/// What an `ensures` calls the value that the function returns.
pub const RESULT: &str = "result";

/// Fields of the kit's own records: what a reference points to, as the call begins and at the return, a
/// parameter that holds references at both times, where a reference points, and the name of a `&mut`.
pub const FIELDS: [&str; 7] = [
    "now",
    "old",
    "new",
    "entry",
    "exit",
    "ref_ptr",
    "ghost_name",
];

/// Constructors among the kit's names: in a pattern these are said, and any other name is bound.
pub const CONSTRUCTORS: [&str; 20] = [
    "zero",
    "suc",
    "true",
    "false",
    "[]",
    "◌∷◌",
    "pos",
    "negsuc",
    "nan",
    "inf",
    "fin",
    "tt",
    "yes",
    "no",
    "inl",
    "inr",
    "None",
    "Some",
    "Ok",
    "Err",
];

pub fn is_kit(module: &str) -> bool {
    let mut parts = module.split('.');
    match parts.next().unwrap_or("") {
        "Rattle" => parts.next().is_some_and(|c| STANDARD.contains(&c)),
        library => LIBRARIES.contains(&library),
    }
}

/// A name, or the operator among these of which it is a part.
pub fn named<'a>(names: &[&'a str], name: &str) -> Option<&'a str> {
    names.iter().copied().find(|n| is_part(n, name))
}

/// Where an operator's arguments go.
pub const HOLE: char = '◌';

/// The whole name, or a part of it where it is an operator: `∷` of `◌∷◌`, `◌∷` of it too.
pub fn is_part(whole: &str, name: &str) -> bool {
    if whole == name {
        return true;
    }
    let part = name.trim_matches(HOLE);
    whole.contains(HOLE) && !part.is_empty() && whole.split(HOLE).any(|p| p == part)
}
