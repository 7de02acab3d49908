//! Products, texts and names.

use crate::{name, timed, unit};
use compare::exports::{riddlepoppy_add_name, riddlepoppy_product, riddlepoppy_unit_text};
use compare::limits::{TEXT_BYTES, UNIT_BYTES};
use std::hint::black_box;

const ROUNDS: u32 = 100_000;

pub fn measure(names: &mut [u8]) {
    let last = name(255);
    let (a, rust_a) =
        unit(&[(0, 1), (3, -2), (9, 5), (200, 7), (201, 1), (202, 1), (203, 1), (255, -1)]);
    let (b, rust_b) = unit(&[(3, 2), (9, 1), (200, -7), (255, 4)]);
    let (p, n) = (names.as_mut_ptr(), names.len());
    let mut out = [0; UNIT_BYTES];
    let mut text = [0; TEXT_BYTES];
    // SAFETY: each pointer goes with its length, and the arrays have the lengths that the calls write.
    let product = timed(ROUNDS, || unsafe {
        let (a, l, b, m) = (a.as_ptr(), a.len(), b.as_ptr(), b.len());
        black_box(riddlepoppy_product(a, l, b, m, false, out.as_mut_ptr()));
    });
    let rust_product = timed(ROUNDS, || {
        black_box(rust_a.multiply(&rust_b));
    });
    let written = timed(ROUNDS, || unsafe {
        black_box(riddlepoppy_unit_text(p, n, a.as_ptr(), a.len(), text.as_mut_ptr()));
    });
    let rust_text = timed(ROUNDS, || {
        black_box(rust_a.to_string());
    });
    let found = timed(ROUNDS, || unsafe {
        black_box(riddlepoppy_add_name(p, n, last.as_ptr(), last.len()));
    });
    println!("product, 8 symbols by 4: {product:.0} ns, the Rust {rust_product:.0} ns");
    println!(
        "text, 8 symbols, 256 names in 65,536 bytes: {written:.0} ns, the Rust {rust_text:.0} ns"
    );
    println!("an existing name, 256 names in 65,536 bytes: {found:.0} ns");
}
