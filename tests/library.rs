//! Calls the library through rust/wiring.rs, as a program of its user does. The last line is 'N passed, M failed'.
#![deny(unsafe_code)]

#[allow(unsafe_code)]
#[path = "../rust/wiring.rs"]
mod wiring;

use wiring::Amendment::{self, Narrow, Pin, Strike};
use wiring::Answer::{self, Accepted, Refused};

/// Form E, as the paper prints it.
const E: [u8; 54] = [
    3, 0, 1, 0, 20, 0, 5, 0, 2, 0, 25, 0, 5, 0, 3, 0, 50, 0, 1, 0, 1, 0, 0, 0, 1, 0, 0, 1, 0, 2, 1, 0, 2, 0, 1, 0, 0, 2, 0, 1, 2, 0, 3, 0, 1, 3,
    0, 4, 0, 1, 1, 0, 9, 0,
];
const PLACES: usize = 5;
const RUNS: usize = 5;
const SPARE: usize = 7;

/// Form E with other states and another line four.
fn e_with(states: [u8; RUNS], low: u8, high: u8) -> Vec<u8> {
    let mut form = E.to_vec();
    for (run, state) in states.into_iter().enumerate() {
        form[29 + 5 * run] = state;
    }
    form[50] = low;
    form[52] = high;
    form
}

/// The three lent buffers, filled with what no call may change unasked.
#[derive(Clone, Debug, PartialEq)]
struct Lent {
    form: Vec<u8>,
    wiring: Vec<u8>,
    segments: Vec<u16>,
}

impl Lent {
    fn of(form: usize, wiring: usize, segments: usize) -> Lent {
        Lent { form: vec![0xa5; form], wiring: vec![0x5a; wiring], segments: vec![0xa55a; segments] }
    }

    fn longest() -> Lent {
        Lent::of(wiring::FORM_MAX, wiring::RUNS_MAX, wiring::PLACES_MAX)
    }

    /// The same, but for what is written at their starts.
    fn with(mut self, form: &[u8], wiring: &[u8], segments: &[u16]) -> Lent {
        self.form[..form.len()].copy_from_slice(form);
        self.wiring[..wiring.len()].copy_from_slice(wiring);
        self.segments[..segments.len()].copy_from_slice(segments);
        self
    }
}

struct Counts {
    passed: usize,
    failed: usize,
}

impl Counts {
    fn same<T: PartialEq + std::fmt::Debug>(&mut self, name: &str, got: T, wanted: T) {
        if got == wanted {
            self.passed += 1;
        } else {
            self.failed += 1;
            println!("FAILED {name}\n  got    {got:?}\n  wanted {wanted:?}");
        }
    }

    /// A call's answer, and every byte of the buffers after it.
    fn confirmed(&mut self, name: &str, image: &[u8], lent: Lent, answer: Answer, left: Lent) {
        let Lent { mut form, mut wiring, mut segments } = lent;
        let got = wiring::confirm(image, &mut form, &mut wiring, &mut segments);
        self.same(name, (got, Lent { form, wiring, segments }), (answer, left));
    }

    fn amended(&mut self, name: &str, image: &[u8], amendment: Amendment, lent: Lent, answer: Answer, left: Lent) -> Vec<u8> {
        let Lent { mut form, mut wiring, mut segments } = lent;
        let got = wiring::amend(image, amendment, &mut form, &mut wiring, &mut segments);
        self.same(name, (got, Lent { form: form.clone(), wiring, segments }), (answer, left));
        form
    }
}

/// Form E's confirmation is the paper's, whatever room there is, and what follows in each buffer is kept.
fn form_e(counts: &mut Counts) {
    for spare in [0, 1, SPARE] {
        let lent = Lent::of(E.len() + spare, RUNS + spare, PLACES + spare);
        let left = lent.clone().with(&e_with([2, 1, 1, 1, 1], 1, 2), &[1, 1, 0, 1, 0], &[0, 0, 0, 0, 4]);
        counts.confirmed("form E", &E, lent, Accepted { struck: 0, pinned: 0 }, left);
    }
}

fn refusals(counts: &mut Counts) {
    let short = Refused { number: 8, place: 0 };
    for (form, wiring, segments) in [(E.len() - 1, RUNS, PLACES), (E.len(), RUNS - 1, PLACES), (E.len(), RUNS, PLACES - 1), (0, 0, 0)] {
        let lent = Lent::of(form, wiring, segments);
        counts.confirmed("a short buffer", &E, lent.clone(), short, lent.clone());
        counts.amended("a short buffer, amended", &E, Pin(0), lent.clone(), short, lent);
    }
    for lent in [Lent::longest(), Lent::of(0, 0, 0)] {
        let empty = Refused { number: 1, place: 0 };
        counts.confirmed("an empty image", &[], lent.clone(), empty, lent.clone());
        counts.amended("an empty image, amended", &[], Pin(0), lent.clone(), empty, lent);
    }
    let lent = Lent::longest();
    counts.confirmed("run 3 in state 3", &e_with([2, 1, 1, 3, 1], 1, 9), lent.clone(), Refused { number: 5, place: 3 }, lent.clone());
    for (amendment, number) in [(Pin(5), 12), (Strike(65535), 12), (Narrow(2, 1), 13), (Narrow(3, 9), 14), (Strike(0), 14)] {
        counts.amended(&format!("{amendment:?}"), &E, amendment, lent.clone(), Refused { number, place: 0 }, lent.clone());
    }
}

/// Each end is worked out by hand; a second amendment is keyed to the form that the first left.
fn amendments(counts: &mut Counts) {
    let room = || Lent::of(E.len() + SPARE, RUNS + SPARE, PLACES + SPARE);
    let struck_3 = (e_with([2, 1, 1, 0, 2], 2, 2), [1, 1, 0, 0, 1], [0, 0, 0, 3, 3], Accepted { struck: 0, pinned: 1 });
    let struck_4 = (e_with([2, 1, 1, 2, 0], 2, 2), [1, 1, 0, 1, 0], [0, 0, 0, 0, 4], Accepted { struck: 0, pinned: 1 });
    let pinned_1 = (e_with([2, 2, 0, 1, 1], 1, 2), [1, 1, 0, 1, 0], [0, 0, 0, 0, 4], Accepted { struck: 1, pinned: 0 });
    let one_segment = (e_with([2, 1, 1, 2, 2], 1, 1), [1, 1, 0, 1, 1], [0, 0, 0, 0, 0], Accepted { struck: 0, pinned: 2 });
    let mut first = |amendment, (form, wiring, segments, answer): (Vec<u8>, [u8; RUNS], [u16; PLACES], Answer)| {
        let left = room().with(&form, &wiring, &segments);
        counts.amended(&format!("{amendment:?}"), &E, amendment, room(), answer, left)[..E.len()].to_vec()
    };
    let [after_3, after_4, after_1] = [first(Strike(3), struck_3), first(Strike(4), struck_4), first(Pin(1), pinned_1)];
    first(Narrow(0, 1), one_segment);

    let p12 = room().with(&e_with([2, 2, 0, 0, 2], 2, 2), &[1, 1, 0, 0, 1], &[0, 0, 0, 3, 3]);
    counts.amended("P12: strike 3, pin 1", &after_3, Pin(1), room(), Accepted { struck: 1, pinned: 0 }, p12.clone());
    counts.amended("P12: pin 1, strike 3", &after_1, Strike(3), room(), Accepted { struck: 0, pinned: 1 }, p12);
    counts.amended("strike 3, strike 4", &after_3, Strike(4), room(), Refused { number: 14, place: 0 }, room());
    counts.amended("strike 4, strike 3", &after_4, Strike(3), room(), Refused { number: 14, place: 0 }, room());
}

fn main() {
    let mut counts = Counts { passed: 0, failed: 0 };
    form_e(&mut counts);
    refusals(&mut counts);
    amendments(&mut counts);
    println!("{} passed, {} failed", counts.passed, counts.failed);
    std::process::exit((counts.failed > 0) as i32);
}
