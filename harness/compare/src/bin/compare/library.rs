//! The static library `calls`, asked the same questions as the oracle.

use compare::call::{Answer, Call, Question};
use compare::exports::*;
use compare::limits::ABSENT;
use compare::types::store::Entry;

/// What fills `out` before a call, so that a byte left unwritten shows, and one that a refused call wrote.
pub const RUBBISH: u8 = 0xA5;

/// The library's answer, or what it did that no call may do.
pub fn ask(question: &Question) -> Result<Answer, String> {
    let mut page = Lent::new(&question.page);
    let mut first = Lent::new(&question.first);
    let mut second = Lent::new(&question.second);
    let mut names = Lent::new(&question.names);
    let mut pairs = Lent::new(&question.pairs);
    let before = out_before(question);
    let mut out = Lent::new(&before);

    let returned = if question.call.is_about_answers() {
        call_answers(question, &mut page, &mut second, &mut names, &mut pairs, &mut out)?
    } else if question.call.is_about_types() {
        call_types(question, &mut page, &mut second, &mut names, &mut out)?
    } else {
        call(question, &mut page, &mut first, &mut second, &mut names, &mut out)
    };

    first.unchanged("first", &question.first)?;
    second.unchanged("second", &question.second)?;
    names.unchanged("names", &question.names)?;
    pairs.unchanged("pairs", &question.pairs)?;
    let page_afterwards = if question.call.writes_page() {
        page.elements("page")?
    } else {
        page.unchanged("page", &question.page)?;
        Vec::new()
    };
    let (refusal, value) = (returned >> 16, returned & 0xFFFF);
    let absent = question.call == Call::Factor && value == ABSENT;
    let written = if refusal == 0 && !absent {
        out.elements("out")?
    } else {
        out.unchanged("out", &before)?;
        unwritten(question)
    };
    Ok(Answer { refusal, value, out: written, page: page_afterwards })
}

/// What `out` holds before the call: the bindings, or rubbish.
fn out_before(question: &Question) -> Vec<u8> {
    match question.call.writes_bindings() {
        true => question.second.clone(),
        false => vec![RUBBISH; question.call.out_length()],
    }
}

/// What an answer says of an `out` that was left as it was: the bindings, or zeros.
fn unwritten(question: &Question) -> Vec<u8> {
    match question.call.writes_bindings() {
        true => question.second.clone(),
        false => vec![0; question.call.out_length()],
    }
}

fn call(
    question: &Question,
    page: &mut Lent<u8>,
    first: &mut Lent<u8>,
    second: &mut Lent<u8>,
    names: &mut Lent<u8>,
    out: &mut Lent<u8>,
) -> u32 {
    let (argument, symbol, lent) = (question.argument, question.symbol(), question.lent());
    let (p, n) = (page.start(), page.length);
    let (a, m) = (first.start(), first.length);
    let (b, l) = (second.start(), second.length);
    let (t, k) = (names.start(), names.length);
    let out = out.start();
    // SAFETY: each pointer goes with its length and points to bytes of its own;
    // `out` has the length that the call writes.
    unsafe {
        match question.call {
            Call::EmptyNames => riddlepoppy_empty_names(p, n),
            Call::AddName => riddlepoppy_add_name(p, n, a, m),
            Call::FindName => riddlepoppy_find_name(p, n, a, m),
            Call::ReadName => riddlepoppy_read_name(p, n, argument, out),
            Call::UnitForm => riddlepoppy_unit_form(a, m),
            Call::Product => riddlepoppy_product(a, m, b, l, argument == 1, out),
            Call::Exponent => riddlepoppy_exponent(a, m, symbol),
            Call::IsDimensionless => riddlepoppy_is_dimensionless(a, m),
            Call::UnitText => riddlepoppy_unit_text(p, n, a, m, out),
            Call::EmptyPairs => riddlepoppy_empty_pairs(p, n),
            Call::InsertPair => {
                let ([symbol, base], factor) = question.insertion();
                riddlepoppy_insert_pair(p, n, t, k, lent, symbol, factor, base)
            }
            Call::Canonical => riddlepoppy_canonical(p, n, t, k, lent, symbol),
            Call::Factor => riddlepoppy_first_factor(p, n, t, k, lent, symbol, out),
            Call::Canonicalize => riddlepoppy_canonicalize(p, n, t, k, lent, a, m, out),
            Call::IsConvertibleTo => riddlepoppy_is_convertible_to(p, n, t, k, lent, a, m, b, l),
            _ => unreachable!("a call about types or answers"),
        }
    }
}

/// The same of a call about types, which is given numbers, or a kind, a name and children.
fn call_types(
    question: &Question,
    page: &mut Lent<u8>,
    bindings: &mut Lent<u8>,
    names: &mut Lent<u8>,
    out: &mut Lent<u8>,
) -> Result<u32, String> {
    if question.call == Call::MakeType {
        return make_type(question, page, names);
    }
    let lent = question.lent();
    let (p, n) = (page.start(), page.length);
    let (t, k) = (names.start(), names.length);
    let (bindings, out) = (bindings.start(), out.start());
    let mut numbers = question.numbers();
    let mut number = || numbers.next().expect("a number");
    // SAFETY: as above; the bindings have their length, and so has `out`.
    let returned = unsafe {
        match question.call {
            Call::EmptyTypes => riddlepoppy_empty_types(p, n),
            Call::ReadType => riddlepoppy_read_type(p, n, t, k, lent, number(), out),
            Call::Matches => riddlepoppy_matches(p, n, t, k, lent, number(), number()),
            Call::HasGeneric => riddlepoppy_has_generic(p, n, t, k, lent, number()),
            Call::IntoConst => riddlepoppy_into_const(p, n, t, k, lent, number()),
            Call::Unify => riddlepoppy_unify(p, n, t, k, lent, number(), number(), out),
            Call::UnifyArg => riddlepoppy_unify_arg(p, n, t, k, lent, number(), number(), out),
            Call::Substitute => riddlepoppy_substitute(p, n, t, k, lent, number(), bindings),
            _ => unreachable!("no call about types"),
        }
    };
    Ok(returned)
}

fn make_type(
    question: &Question,
    page: &mut Lent<u8>,
    names: &mut Lent<u8>,
) -> Result<u32, String> {
    let (Entry { kind, children, .. }, name) = question.entry();
    let mut lent_children = Lent::new(&children);
    let (p, n) = (page.start(), page.length);
    let (t, k) = (names.start(), names.length);
    let (c, l) = (lent_children.start(), lent_children.length);
    // SAFETY: each pointer goes with its length and points to elements of its own.
    let returned = unsafe { riddlepoppy_make_type(p, n, t, k, question.lent(), kind, c, l, name) };
    lent_children.unchanged("children", &children)?;
    Ok(returned)
}

/// The same of a call that answers an operator or an index.
fn call_answers(
    question: &Question,
    page: &mut Lent<u8>,
    right_unit: &mut Lent<u8>,
    names: &mut Lent<u8>,
    pairs: &mut Lent<u8>,
    out: &mut Lent<u8>,
) -> Result<u32, String> {
    let lent = question.lent();
    let mut unit = Lent::new(question.unit());
    let (p, n) = (page.start(), page.length);
    let (t, k) = (names.start(), names.length);
    let (c, j) = (pairs.start(), pairs.length);
    let (u, l) = (unit.start(), unit.length);
    let (v, r) = (right_unit.start(), right_unit.length);
    let out = out.start();
    let mut numbers = question.numbers();
    let mut number = || numbers.next().expect("a number");
    let (first, second) = (number(), number());
    // SAFETY: as above.
    let returned = unsafe {
        match question.call {
            Call::CheckBinaryOperator => {
                let right = number();
                riddlepoppy_check_binary_operator(
                    p, n, t, k, lent, c, j, first, second, u, l, right, v, r, out,
                )
            }
            Call::CheckUnaryOperator => {
                riddlepoppy_check_unary_operator(p, n, t, k, lent, first, second, u, l, out)
            }
            _ => riddlepoppy_check_index(p, n, t, k, lent, first, u, l, second, out),
        }
    };
    unit.unchanged("unit", question.unit())?;
    Ok(returned)
}

/// Elements lent to the library between two guards, so that a write beside them shows.
pub struct Lent<T> {
    guarded: Vec<T>,
    pub length: usize,
}

/// How many elements a guard has, and what each is.
const GUARDS: usize = 16;
const GUARD: u8 = 0xC7;

impl<T: Copy + PartialEq + From<u8>> Lent<T> {
    pub fn new(elements: &[T]) -> Self {
        let guard = [T::from(GUARD); GUARDS];
        Self { guarded: [&guard, elements, &guard].concat(), length: elements.len() }
    }

    pub fn start(&mut self) -> *mut T {
        self.guarded[GUARDS..].as_mut_ptr()
    }

    /// The elements as the call left them.
    pub fn elements(&self, name: &str) -> Result<Vec<T>, String> {
        let (before, rest) = self.guarded.split_at(GUARDS);
        let (elements, after) = rest.split_at(self.length);
        if before.iter().chain(after).all(|&guard| guard == T::from(GUARD)) {
            Ok(elements.to_vec())
        } else {
            Err(format!("a write beside {name}"))
        }
    }

    /// Holds the call to what it was lent for reading only.
    pub fn unchanged(&self, name: &str, elements: &[T]) -> Result<(), String> {
        if self.elements(name)? == elements {
            Ok(())
        } else {
            Err(format!("a write into {name}, which the call must leave as it was"))
        }
    }
}
