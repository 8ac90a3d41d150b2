//! Wiring Orders for Rust, over the library for C: confirms an order form, or applies one amendment to it.
//!
//! include/wiring.h says what goes in and what comes back. What it asks of a caller a slice has by its type, so these functions are safe
//! and ask nothing. A program takes this file in by `#[path = "rust/wiring.rs"] mod wiring;` and is built with `-L native=target/native`,
//! where ./archive puts the library.
#![allow(dead_code)] // a program may want only a part of it

/// The longest form, the most runs and the most places: buffers of these lengths are never too short.
pub const FORM_MAX: usize = 5400;
pub const RUNS_MAX: usize = 1024;
pub const PLACES_MAX: usize = 256;

/// Accepted, with the possible runs that the last filtering struck and those it pinned; or refused, with number and place.
#[derive(Clone, Copy, Debug, PartialEq, Eq)]
pub enum Answer {
    Accepted { struck: u16, pinned: u16 },
    Refused { number: u16, place: u16 },
}

/// Pins a run, strikes it, or narrows the number of segments to a range, both ends included.
#[derive(Clone, Copy, Debug, PartialEq, Eq)]
pub enum Amendment {
    Pin(u16),
    Strike(u16),
    Narrow(u16, u16),
}

/// wiring_reply of include/wiring.h.
#[repr(C)]
struct Reply {
    number: u16,
    place: u16,
    struck: u16,
    pinned: u16,
}

#[link(name = "wiring", kind = "static")]
extern "C" {
    #[rustfmt::skip]
    fn wiring_filter(
        image: *const u8, image_len: usize,
        form: *mut u8, form_len: usize,
        wiring: *mut u8, wiring_len: usize,
        segments: *mut u16, segments_len: usize,
    ) -> Reply;

    #[rustfmt::skip]
    fn wiring_amend(
        image: *const u8, image_len: usize,
        kind: u16, a: u16, b: u16,
        form: *mut u8, form_len: usize,
        wiring: *mut u8, wiring_len: usize,
        segments: *mut u16, segments_len: usize,
    ) -> Reply;
}

fn answer(reply: Reply) -> Answer {
    match reply.number {
        0 => Answer::Accepted { struck: reply.struck, pinned: reply.pinned },
        number => Answer::Refused { number, place: reply.place },
    }
}

/// Confirms the form: accepted, the confirmed form, its first wiring and its segment numbers stand at the start of the three buffers, and
/// the rest of each is kept; refused, all of it is.
#[rustfmt::skip]
pub fn confirm(image: &[u8], form: &mut [u8], wiring: &mut [u8], segments: &mut [u16]) -> Answer {
    // SAFETY: the pointers of slices are not null, aligned, and as long as is said; those of `&mut` slices overlap no other.
    answer(unsafe {
        wiring_filter(
            image.as_ptr(), image.len(),
            form.as_mut_ptr(), form.len(),
            wiring.as_mut_ptr(), wiring.len(),
            segments.as_mut_ptr(), segments.len(),
        )
    })
}

/// Confirms the form, writes the amendment into the confirmed form, and confirms the result, into the buffers as `confirm` does.
#[rustfmt::skip]
pub fn amend(image: &[u8], amendment: Amendment, form: &mut [u8], wiring: &mut [u8], segments: &mut [u16]) -> Answer {
    let (kind, a, b) = match amendment {
        Amendment::Pin(run) => (1, run, 0),
        Amendment::Strike(run) => (2, run, 0),
        Amendment::Narrow(low, high) => (3, low, high),
    };
    // SAFETY: as in `confirm`.
    answer(unsafe {
        wiring_amend(
            image.as_ptr(), image.len(),
            kind, a, b,
            form.as_mut_ptr(), form.len(),
            wiring.as_mut_ptr(), wiring.len(),
            segments.as_mut_ptr(), segments.len(),
        )
    })
}
