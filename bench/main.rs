//! The proved filter, through the library for C, beside the plain one of plain.rs: the same bytes, on the same machine.
//! Both are compared on every form first, and on random small ones; a difference ends the program before anything is timed.
mod plain;
#[path = "../rust/wiring.rs"]
mod wiring;

use std::hint::black_box;
use std::time::{Duration, Instant};
use wiring::{Answer, FORM_MAX as LONGEST, PLACES_MAX as MOST_PLACES, RUNS_MAX as MOST_RUNS};

const RANDOM_FORMS: usize = 20_000;

/// The three lent buffers.
#[derive(Clone, Debug, PartialEq)]
struct Lent {
    form: Vec<u8>,
    wiring: Vec<u8>,
    segments: Vec<u16>,
}

impl Lent {
    fn of(form: usize, wiring: usize, segments: usize) -> Lent {
        Lent { form: vec![0xa5; form], wiring: vec![0x5a; wiring], segments: vec![0xa55a; segments] }
    }

    fn longest() -> Lent {
        Lent::of(LONGEST, MOST_RUNS, MOST_PLACES)
    }
}

type Filter = fn(&[u8], &mut Lent) -> Answer;

fn library(image: &[u8], lent: &mut Lent) -> Answer {
    wiring::confirm(image, &mut lent.form, &mut lent.wiring, &mut lent.segments)
}

fn plain(image: &[u8], lent: &mut Lent) -> Answer {
    match plain::filter(image, &mut lent.form, &mut lent.wiring, &mut lent.segments) {
        Ok(counts) => Answer::Accepted { struck: counts.struck, pinned: counts.pinned },
        Err(refusal) => Answer::Refused { number: refusal.number, place: refusal.place },
    }
}

/// Numbers that look random and are the same in every run (xorshift).
struct Dice(u64);

impl Dice {
    fn below(&mut self, end: usize) -> usize {
        self.0 ^= self.0 << 13;
        self.0 ^= self.0 >> 7;
        self.0 ^= self.0 << 17;
        ((self.0 >> 32) as usize * end) >> 32
    }

    fn one_in(&mut self, count: usize) -> bool {
        self.below(count) == 0
    }

    fn shuffle<T>(&mut self, items: &mut [T]) {
        for last in (1..items.len()).rev() {
            items.swap(last, self.below(last + 1));
        }
    }
}

#[derive(Clone)]
struct Form {
    supplies: Vec<u8>,
    runs: Vec<(usize, usize, u8)>,
    low: usize,
    high: usize,
}

impl Form {
    fn image(&self) -> Vec<u8> {
        let (n, m) = (self.supplies.len(), self.runs.len());
        let mut bytes = vec![];
        let mut put = |number: usize| bytes.extend((number as u16).to_le_bytes());
        [3, 1, 20, n, 2, 20 + n, m, 3, 20 + n + 5 * m, 1].into_iter().for_each(&mut put);
        bytes.extend(&self.supplies);
        for &(u, v, state) in &self.runs {
            bytes.extend((u as u16).to_le_bytes());
            bytes.extend((v as u16).to_le_bytes());
            bytes.push(state);
        }
        bytes.extend((self.low as u16).to_le_bytes());
        bytes.extend((self.high as u16).to_le_bytes());
        bytes
    }

    fn with_line(&self, low: usize, high: usize) -> Form {
        Form { low, high, ..self.clone() }
    }

    /// The first `count` runs of those that join all places become fixed.
    fn fixed(&self, count: usize) -> Form {
        let mut form = self.clone();
        form.runs[..count].iter_mut().for_each(|run| run.2 = 2);
        form
    }
}

/// n places with a supply at every fourth, joined by a tree; then other pairs, up to m runs, all possible, with any number of segments.
fn joined(dice: &mut Dice, n: usize, m: usize) -> Form {
    let supplies = (0..n).map(|place| (place % 4 == 0) as u8).collect();
    let mut names: Vec<usize> = (0..n).collect();
    dice.shuffle(&mut names);
    let pair = |a: usize, b: usize| (names[a].min(names[b]), names[a].max(names[b]));
    let mut runs: Vec<_> = (1..n).map(|k| pair(k, dice.below(k))).collect();
    let mut listed: std::collections::HashSet<_> = runs.iter().copied().collect();
    while runs.len() < m {
        let (a, b) = (dice.below(n), dice.below(n));
        if a != b && listed.insert(pair(a, b)) {
            runs.push(pair(a, b));
        }
    }
    Form { supplies, runs: runs.into_iter().map(|(u, v)| (u, v, 1)).collect(), low: 0, high: 65535 }
}

/// 256 places one after the other.
fn line() -> Form {
    let supplies = (0..MOST_PLACES).map(|place| (place % 4 == 0) as u8).collect();
    Form { supplies, runs: (1..MOST_PLACES).map(|v| (v - 1, v, 1)).collect(), low: 0, high: 65535 }
}

/// A small form, good or bad.
fn random_small(dice: &mut Dice) -> Vec<u8> {
    let n = 1 + dice.below(7);
    let mut pairs: Vec<_> = (0..n).flat_map(|u| (u + 1..n).map(move |v| (u, v))).collect();
    dice.shuffle(&mut pairs);
    pairs.truncate(dice.below(pairs.len() + 1));
    let (few, states) = (1 + dice.below(3), [[1, 1, 1, 1], [0, 1, 1, 2], [0, 1, 2, 2]][dice.below(3)]);
    let form = Form {
        supplies: (0..n).map(|_| dice.one_in(few) as u8).collect(),
        runs: pairs.into_iter().map(|(u, v)| (u, v, states[dice.below(4)])).collect(),
        low: dice.below(n + 1),
        high: 0,
    };
    let high = if dice.one_in(10) { 0 } else { form.low + dice.below(n + 1) };
    let mut image = form.with_line(form.low, high).image();
    if dice.one_in(5) {
        let at = dice.below(image.len());
        image[at] = if dice.one_in(4) { dice.below(256) as u8 } else { dice.below(8) as u8 };
    }
    if dice.one_in(20) {
        image.truncate(dice.below(image.len() + 1));
    }
    image
}

/// Ends the program where the two differ; else their answer.
fn compare(name: &str, image: &[u8], lent: Lent) -> Answer {
    let (mut ours, mut theirs) = (lent.clone(), lent);
    let answers = (library(image, &mut ours), plain(image, &mut theirs));
    if answers.0 != answers.1 || ours != theirs {
        eprintln!("bench: the two differ on {name}: {image:02x?}");
        eprintln!("library: {:?} {ours:02x?}\nplain: {:?} {theirs:02x?}", answers.0, answers.1);
        std::process::exit(1);
    }
    answers.0
}

/// Nanoseconds of one call: the fastest of many batches, which other work on the machine disturbs least.
fn nanoseconds(filter: Filter, image: &[u8]) -> f64 {
    let mut lent = Lent::longest();
    let mut batch = |calls: u32| {
        let begun = Instant::now();
        for _ in 0..calls {
            black_box(filter(black_box(image), black_box(&mut lent)));
        }
        begun.elapsed()
    };
    let mut calls = 1;
    while batch(calls) < Duration::from_millis(4) {
        calls *= 2;
    }
    let fastest = (0..25).map(|_| batch(calls)).min().unwrap();
    fastest.as_nanos() as f64 / calls as f64
}

fn grouped(number: f64) -> String {
    let digits = format!("{number:.0}");
    let mut text = String::new();
    for (at, digit) in digits.chars().enumerate() {
        if at > 0 && (digits.len() - at) % 3 == 0 {
            text.push(',');
        }
        text.push(digit);
    }
    text
}

fn main() {
    let example = std::env::args().nth(1).expect("usage: bench FORM-E");
    let mut dice = Dice(0x9e37_79b9_7f4a_7c15);
    let dense = joined(&mut dice, MOST_PLACES, MOST_RUNS);
    let half = dense.fixed(127);
    let tree = joined(&mut dice, MOST_PLACES, MOST_PLACES - 1);
    // MAX is the 64 supplies and MIN is 1 where no run is fixed
    let mut forms = vec![
        ("dense".to_string(), dense.image()),
        ("half the tree fixed".to_string(), half.image()),
        ("line four 30..30".to_string(), dense.with_line(30, 30).image()),
        ("low = MAX".to_string(), dense.with_line(64, 64).image()),
        ("high = MIN".to_string(), dense.with_line(1, 1).image()),
        ("a line of places".to_string(), line().image()),
        ("a tree".to_string(), tree.image()),
        ("form E".to_string(), std::fs::read(&example).expect("form E")),
        ("reading: refused by 7".to_string(), dense.with_line(2, 1).image()),
    ];
    let shapes = forms.len();
    for places in [16, 32, 64, 128, 256] {
        forms.push((format!("dense, {places} places"), joined(&mut dice, places, 4 * places).image()));
    }

    let mut seen = [0; 12];
    for (name, image) in &forms {
        compare(name, image, Lent::longest());
    }
    for _ in 0..RANDOM_FORMS {
        let image = random_small(&mut dice);
        let (n, m) = (8, 22);
        let lent = if dice.one_in(8) { Lent::of(dice.below(image.len() + 1), dice.below(m), dice.below(n)) } else { Lent::of(image.len() + 3, m, n) };
        match compare("a random form", &image, lent) {
            Answer::Accepted { .. } => seen[0] += 1,
            Answer::Refused { number, .. } => seen[number as usize] += 1,
        }
    }
    println!("The two agree, byte for byte, on {} forms here and {RANDOM_FORMS} random small ones", forms.len());
    println!("({} accepted, and {} to {} refused by each of the numbers 1 to 11).\n", seen[0], seen[1..].iter().min().unwrap(), seen[1..].iter().max().unwrap());

    println!("{:<24}{:>6}{:>8}{:>15}{:>12}{:>8}", "one filtering", "runs", "places", "library ns", "plain ns", "ratio");
    let mut times = vec![];
    for (at, (name, image)) in forms.iter().enumerate() {
        if at == shapes {
            println!("\nas the form grows");
        }
        let (ours, theirs) = (nanoseconds(library, image), nanoseconds(plain, image));
        let count = |at: usize| u16::from_le_bytes([image[at], image[at + 1]]);
        println!("{:<24}{:>6}{:>8}{:>15}{:>12}{:>8.1}", name, count(12), count(6), grouped(ours), grouped(theirs), ours / theirs);
        times.push((ours, theirs));
    }
    let (small, large) = (times[shapes], times[times.len() - 1]);
    println!("from 64 to 1,024 runs the library takes {:.0} times as long, the plain filter {:.0} times", large.0 / small.0, large.1 / small.1);
    let (dense, reading) = (times[0], times[shapes - 1]);
    let rest = (dense.0 - reading.0, dense.1 - reading.1);
    println!("without reading, the dense form takes {} ns beside {}, a ratio of {:.1}", grouped(rest.0), grouped(rest.1), rest.0 / rest.1);
}
