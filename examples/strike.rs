//! Strikes a run of the form on standard input, and writes the amended form to standard output: strike RUN < FORM > FORM.
#[path = "../rust/wiring.rs"]
mod wiring;

use std::io::{Read, Write};
use wiring::{Amendment, Answer};

fn main() {
    let run = std::env::args().nth(1).and_then(|word| word.parse().ok()).expect("usage: strike RUN < FORM");
    let (mut form, mut wiring, mut segments) = ([0; wiring::FORM_MAX], [0; wiring::RUNS_MAX], [0; wiring::PLACES_MAX]);
    let mut image = Vec::new();
    std::io::stdin().read_to_end(&mut image).expect("standard input");
    match wiring::amend(&image, Amendment::Strike(run), &mut form, &mut wiring, &mut segments) {
        Answer::Refused { number, place } => eprintln!("refused {number} {place}"),
        Answer::Accepted { .. } => std::io::stdout().write_all(&form[..image.len()]).expect("standard output"), // as long as it was
    }
}
