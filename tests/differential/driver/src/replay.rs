//! A fixed sample of the Rust's answers, for a program of the repository to replay: `stdin` holds
//! a call a line, `stdout` the answer to each, all in hex.

use std::path::Path;
use std::{fs, io};

use pagetriage::math;

use crate::floats;
use crate::random::Random;
use crate::replay_levelling as levelling;
use crate::replay_pages as pages;
use crate::replay_settings as settings;
use crate::tally::{bits, hex, hex_floats};
use crate::values::LANDMARKS;

#[derive(Default)]
pub struct Sample {
    calls: String,
    answers: String,
    lines: usize,
}

impl Sample {
    fn add(&mut self, call: &str, answer: u64) {
        self.add_line(call, &hex(&[answer]));
    }

    pub fn add_line(&mut self, call: &str, answer: &str) {
        self.calls += call;
        self.calls += "\n";
        self.answers += answer;
        self.answers += "\n";
        self.lines += 1;
    }

    /// Writes the calls and the answers below `dir` and returns how many there are.
    pub fn write(&self, dir: &Path) -> io::Result<usize> {
        fs::create_dir_all(dir)?;
        fs::write(dir.join("stdin"), &self.calls)?;
        fs::write(dir.join("stdout"), &self.answers)?;
        Ok(self.lines)
    }

    fn pairwise_sum(&mut self, values: &[f64]) {
        let mut call = format!("1 {:x}", values.len());
        if !values.is_empty() {
            call += " ";
            call += &hex_floats(values);
        }
        self.add(&call, bits(math::pairwise_sum(values)));
    }

    fn round_output(&mut self, x: f64) {
        self.add(
            &format!("2 {}", hex_floats(&[x])),
            bits(math::round_output(x)),
        );
    }

    fn rounded_product(&mut self, a: f64, b: f64) {
        let answer = (a * b).round() as i64;
        self.add(&format!("3 {}", hex_floats(&[a, b])), answer as u64);
    }

    fn round(&mut self, x: f64) {
        self.add(&format!("4 {}", hex_floats(&[x])), bits(x.round()));
    }
}

/// Writes the sample below `dir` and returns its number of calls.
pub fn write(dir: &Path) -> io::Result<usize> {
    let mut sample = Sample::default();
    let random = &mut Random::new(1);
    add_sums(&mut sample, random);
    add_landmarks(&mut sample);
    add_random(&mut sample, random);
    pages::add_segments(&mut sample, random);
    pages::add_tables(&mut sample, random);
    pages::add_boxes(&mut sample, random);
    pages::add_grids(&mut sample, random);
    settings::add_validate(&mut sample, random);
    levelling::add_level_gray(&mut sample, random);
    levelling::add_to_page(&mut sample, random);
    levelling::add_rect_to_page(&mut sample, random);
    levelling::add_unlevel(&mut sample, random);
    sample.write(dir)
}

fn add_sums(sample: &mut Sample, random: &mut Random) {
    // A sum that began from its first value would keep the sign of minus zeros.
    let zeros = [1, 8, 9].map(|length| vec![-0.0; length]);
    let lengths = (0..=40).chain(0..=40).chain([64, 65, 100]);
    for values in lengths.map(|n| floats::list(random, n)).chain(zeros) {
        sample.pairwise_sum(&values);
    }
}

fn add_landmarks(sample: &mut Sample) {
    // Just below 1.5, but the product in binary64 is 1.5.
    sample.rounded_product(0.15, 10.0);
    for x in LANDMARKS.into_iter().flat_map(|x| [x, -x]) {
        sample.round_output(x);
        sample.rounded_product(x, 1.0);
        sample.round(x);
    }
}

fn add_random(sample: &mut Sample, random: &mut Random) {
    for _ in 0..16 {
        let (a, b) = floats::factors(random);
        sample.round_output(floats::output(random));
        sample.rounded_product(a, b);
        sample.rounded_product(random.pick(&LANDMARKS), random.pick(&LANDMARKS));
        sample.round(floats::rounded(random));
    }
}
