//! Stands for libm, by the functions of std. Their last bits may differ from libm's, so nothing
//! that comes out of them is compared.

use std::cell::RefCell;

thread_local! {
    static GIVEN: RefCell<Option<Vec<f64>>> = const { RefCell::new(None) };
}

/// What `exp` was given at each call of a run, and what the run came to. Its k-th answer there, from
/// 1, is such that 1 / (1 + exp) is k millionths, whatever it is given, so that what became of an
/// answer tells which one it was.
pub fn watch_exp<T>(run: impl FnOnce() -> T) -> (Vec<f64>, T) {
    GIVEN.set(Some(Vec::new()));
    let result = run();
    (GIVEN.take().unwrap_or_default(), result)
}

pub fn exp(x: f64) -> f64 {
    GIVEN.with_borrow_mut(|watched| match watched {
        Some(given) => {
            given.push(x);
            1e6 / given.len() as f64 - 1.0
        }
        None => x.exp(),
    })
}

pub fn log(x: f64) -> f64 {
    x.ln()
}

pub fn pow(base: f64, exponent: f64) -> f64 {
    base.powf(exponent)
}

pub fn sin(x: f64) -> f64 {
    x.sin()
}

pub fn cos(x: f64) -> f64 {
    x.cos()
}

pub fn atan2(y: f64, x: f64) -> f64 {
    y.atan2(x)
}
