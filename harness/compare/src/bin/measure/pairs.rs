//! Insertion of pairs, and convertibility with a full table.

use crate::{name, timed, unit, PAGE_BYTES};
use compare::exports::{
    riddlepoppy_canonical, riddlepoppy_empty_pairs, riddlepoppy_insert_pair,
    riddlepoppy_is_convertible_to,
};
use compare::inputs::pairs::pair;
use compare::inputs::units::some_symbols;
use compare::limits::{MAX_NAMES, MAX_PAIRS, MAX_SYMBOLS};
use compare::pairs::Pair;
use compare::random::Random;
use compare::units::Term;
use oracle::units::{ConversionTable, Unit};
use std::hint::black_box;

/// How often a whole list is inserted.
const LISTS: u32 = 20;

const CALLS: u32 = 10_000;

pub fn measure(names: &[u8]) {
    let random = &mut Random::new(1);
    for (shape, list) in lists(random) {
        insertions(shape, &list, names);
        convertibility(shape, &list, random);
    }
}

/// Three lists of 512 pairs: any; all symbols below one; a walk of 255 steps, and
/// after it the two symbols at its far end again and again.
fn lists(random: &mut Random) -> [(&'static str, Vec<Pair>); 3] {
    let any = (0..MAX_PAIRS).map(|_| pair(random.byte(), random.byte())).collect();
    let star = (0..MAX_PAIRS).map(|place| pair(0, (place % 255) as u8 + 1)).collect();
    let chain = (0..255).map(|symbol| pair(symbol + 1, symbol));
    let chain = chain.chain([pair(0, 1)].into_iter().cycle()).take(MAX_PAIRS).collect();
    [("random", any), ("star", star), ("chain", chain)]
}

/// The table after the list.
fn inserted(list: &[Pair], page: &mut [u8], names: &[u8], lent: bool) {
    let (p, n, t, k) = (page.as_mut_ptr(), page.len(), names.as_ptr(), names.len());
    // SAFETY: each pointer goes with its length.
    unsafe {
        assert_eq!(riddlepoppy_empty_pairs(p, n), 0);
        for &Pair { symbol, factor, base } in list {
            let [symbol, base] = [symbol, base].map(u16::from);
            let code = riddlepoppy_insert_pair(p, n, t, k, lent, symbol, factor, base);
            assert_eq!(code, 0, "a pair is refused");
        }
    }
}

fn rust_inserted(list: &[(String, f64, String)]) -> ConversionTable {
    let mut table = ConversionTable::default();
    for (symbol, factor, base) in list {
        table.insert(symbol, *factor, base);
    }
    table
}

/// The list as the Rust takes it.
fn rust_list(list: &[Pair]) -> Vec<(String, f64, String)> {
    let named = |pair: &Pair| (name(pair.symbol), f64::from_bits(pair.factor), name(pair.base));
    list.iter().map(named).collect()
}

/// The whole list, from an empty table on.
fn insertions(shape: &str, list: &[Pair], names: &[u8]) {
    let mut page = vec![0; PAGE_BYTES];
    let plain = timed(LISTS, || inserted(list, &mut page, names, false)) / 1e6;
    let named = timed(LISTS, || inserted(list, &mut page, names, true)) / 1e6;
    let rust_list = rust_list(list);
    let rust = timed(LISTS, || {
        black_box(rust_inserted(&rust_list));
    }) / 1e6;
    println!("512 insertions, {shape}, 65,536 bytes: {plain:.1} ms, the Rust {rust:.1} ms");
    println!("the same, 256 names lent: {named:.1} ms, the Rust {rust:.1} ms");
}

/// Two units of eight symbols each, for both.
struct Question {
    left: (Vec<u8>, Unit),
    right: (Vec<u8>, Unit),
}

fn some_unit(random: &mut Random) -> (Vec<u8>, Unit) {
    let symbols = some_symbols(random, MAX_SYMBOLS, MAX_NAMES);
    let terms: Vec<Term> = symbols.iter().map(|&symbol| (symbol, 1)).collect();
    unit(&terms)
}

/// Convertibility with the full table, and `canonical` beside it, which is the test
/// of the page's form and one walk.
fn convertibility(shape: &str, list: &[Pair], random: &mut Random) {
    let mut page = vec![0; PAGE_BYTES];
    inserted(list, &mut page, &[], false);
    let rust_table = rust_inserted(&rust_list(list));
    let (p, n, t) = (page.as_ptr(), page.len(), [].as_ptr());

    let questions: Vec<Question> =
        (0..100).map(|_| Question { left: some_unit(random), right: some_unit(random) }).collect();
    let mut next = questions.iter().cycle();
    // SAFETY: each pointer goes with its length.
    let ours = timed(CALLS, || unsafe {
        let Question { left: (left, _), right: (right, _) } = next.next().expect("a cycle");
        let (l, m, r, k) = (left.as_ptr(), left.len(), right.as_ptr(), right.len());
        black_box(riddlepoppy_is_convertible_to(p, n, t, 0, false, l, m, r, k));
    });
    let mut next = questions.iter().cycle();
    let rust = timed(CALLS, || {
        let Question { left: (_, left), right: (_, right) } = next.next().expect("a cycle");
        black_box(left.is_convertible_to(right, &rust_table));
    });
    let form = timed(CALLS, || unsafe {
        black_box(riddlepoppy_canonical(p, n, t, 0, false, 0));
    });
    let rust_name = name(0);
    let rust_walk = timed(CALLS, || {
        black_box(rust_table.canonical(&rust_name));
    });
    println!("convertibility, {shape}, units of 8 symbols: {ours:.0} ns, the Rust {rust:.0} ns");
    println!("canonical there (form and one walk): {form:.0} ns, the Rust {rust_walk:.0} ns");
}
