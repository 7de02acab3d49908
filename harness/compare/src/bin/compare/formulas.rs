//! The calls about whole formulas: held to what single calls answer, and demand 3 to every route.

use crate::library::{self, Lent, RUBBISH};
use compare::call::Pages;
use compare::expected::expected;
use compare::formulas::composed::{compared as answered, Composed};
use compare::formulas::statement::Statement;
use compare::formulas::trial::{Tally, Trial};
use compare::formulas::{Case, Checked, Compared, Formula, FormulaCalls};
use compare::inputs::formulas::{case, other_roots};
use compare::random::Random;

/// How many rounds make a pair of formulas, which is many questions.
const ROUNDS_OF_A_PAIR: usize = 2;

/// Of so many pairs one is put to the unchanged Rust as well, node by node.
const PAIRS_OF_THE_RUST: usize = 10;

/// Draws the formulas, prints the report, and counts the differences.
pub fn compared(seed: u64, rounds: usize) -> u64 {
    let single = Composed(library::ask);
    let rust = Composed(|question: &_| Ok(expected(question)));
    let trial = Trial { calls: &Exports, single: &single, statement: Statement::default() };

    let (mut random, mut tally) = (Random::new(seed), Tally::default());
    let (mut asked, mut others) = (0, 0);
    for pair in 0..rounds / ROUNDS_OF_A_PAIR {
        let case = case(&mut random);
        let roots = other_roots(&mut random, &case);
        trial.put(&case, &roots, &mut tally);
        if pair % PAIRS_OF_THE_RUST == 0 {
            asked += 1;
            let expected = answered(&case, &rust.run(&case));
            let found = answered(&case, &single.run(&case));
            let formulas = [&case.left, &case.right];
            let checked = |calls: &dyn FormulaCalls| {
                formulas.map(|formula| calls.check_formula(case.pages(), formula))
            };
            if expected != found || checked(&rust) != checked(&single) {
                others += 1;
                println!("  not as the Rust: {}", case.text());
            }
        }
    }
    print!("whole formulas, and every route down them:\n{}", tally.report());
    println!("single calls beside the Rust's: {asked} pairs of formulas, {others} differences");
    tally.differences + others
}

/// The exports of the library.
struct Exports;

impl FormulaCalls for Exports {
    fn check_formula(&self, pages: Pages, formula: &Formula) -> Result<Checked, String> {
        use compare::exports::riddlepoppy_check_formula;
        use compare::formulas::FORMULA_BYTES;

        let mut store = Lent::new(pages.store);
        let mut names = Lent::new(pages.names);
        let mut pairs = Lent::new(pages.pairs);
        let mut nodes = Lent::new(&formula.nodes);
        let before = [RUBBISH; FORMULA_BYTES];
        let mut out = Lent::new(&before);
        let (p, n) = (store.start(), store.length);
        let (t, m) = (names.start(), names.length);
        let (c, k) = (pairs.start(), pairs.length);
        let (f, l) = (nodes.start(), nodes.length);
        // SAFETY: each pointer goes with its length and points to bytes of its own; `out` has
        // the length that the call writes.
        let returned = unsafe {
            let out = out.start();
            riddlepoppy_check_formula(p, n, t, m, pages.lent, c, k, f, l, formula.root, out)
        };
        names.unchanged("names", pages.names)?;
        pairs.unchanged("pairs", pages.pairs)?;
        nodes.unchanged("nodes", &formula.nodes)?;
        let (refusal, value) = (returned >> 16, returned & 0xFFFF);
        let out = match refusal {
            0 => out.elements("out")?,
            _ => {
                out.unchanged("out", &before)?;
                Vec::new()
            }
        };
        Ok(Checked { refusal, value, out, store: store.elements("store")? })
    }

    fn compare_formulas(&self, case: &Case) -> Result<Compared, String> {
        use compare::exports::riddlepoppy_compare_formulas;

        let mut store = Lent::new(&case.store);
        let mut names = Lent::new(&case.names);
        let mut pairs = Lent::new(&case.pairs);
        let mut requests = Lent::new(&case.requests);
        let mut left = Lent::new(&case.left.nodes);
        let mut right = Lent::new(&case.right.nodes);
        let (p, n) = (store.start(), store.length);
        let (t, m) = (names.start(), names.length);
        let (c, k) = (pairs.start(), pairs.length);
        let (q, j) = (requests.start(), requests.length);
        let (f, l) = (left.start(), left.length);
        let (g, r) = (right.start(), right.length);
        let (lent, [one, other]) = (case.lent, [case.left.root, case.right.root]);
        // SAFETY: as above.
        let returned = unsafe {
            riddlepoppy_compare_formulas(p, n, t, m, lent, c, k, q, j, f, l, one, g, r, other)
        };
        names.unchanged("names", &case.names)?;
        requests.unchanged("requests", &case.requests)?;
        left.unchanged("left nodes", &case.left.nodes)?;
        right.unchanged("right nodes", &case.right.nodes)?;
        let (refusal, value) = (returned >> 16, returned & 0xFFFF);
        let (store, pairs) = (store.elements("store")?, pairs.elements("pairs")?);
        Ok(Compared { refusal, value, store, pairs })
    }
}
