//! The two calls about whole formulas as compositions of the calls that answer a single
//! operator or index, insert a pair, and convert two units.
//!
//! Whether a page, a type, a symbol or a unit is refused is asked of these as well; what is
//! added here is what nodes add: their forms, their numbers, depth and count.

use super::{
    parts, Case, Checked, Compared, Formula, FormulaCalls, Written, BANG, FORMULA_BYTES, MAX_NODES,
    NODE_BYTES, PLUS,
};
use crate::call::{Answer, Operand, Pages, Question};
use crate::limits::{
    Refusal, ABSENT, ANSWERED_FUNCTION, ANSWER_BYTES, BROKEN_TABLE, BROKEN_UNIT, FUNCTION,
    MAX_DEPTH, NOT_IN_USE, NO_ROOM, NO_UNIT, PAIR_BYTES, TOO_DEEP, UNDEFINED_CODE, UNKNOWN,
};
use crate::pairs::Pair;
use std::ops::RangeInclusive;

const OPERATORS: RangeInclusive<u8> = PLUS..=BANG;

/// Where an answer's unit begins.
const UNIT: usize = 11;

/// Why there is no answer.
#[derive(Debug, Clone, PartialEq, Eq)]
pub enum Stop {
    Refused(Refusal),
    /// What a call did that none may do.
    Misdeed(String),
}

impl From<Refusal> for Stop {
    fn from(refusal: Refusal) -> Self {
        Self::Refused(refusal)
    }
}

impl From<String> for Stop {
    fn from(misdeed: String) -> Self {
        Self::Misdeed(misdeed)
    }
}

/// What a node answers.
#[derive(Debug, Clone, PartialEq, Eq)]
pub struct Node {
    /// The checked type in sixteen bits, as it is answered.
    pub value: u32,
    /// The 36 bytes beside it.
    pub out: Vec<u8>,
    pub depth: usize,
}

impl Node {
    /// The checked type as a call is given it.
    pub fn checked(&self) -> u32 {
        match self.value {
            ABSENT => UNKNOWN,
            known if known < ANSWERED_FUNCTION => known,
            function => FUNCTION + (function - ANSWERED_FUNCTION),
        }
    }

    pub fn unit(&self) -> &[u8] {
        let unit = &self.out[UNIT..];
        match unit[0] {
            255 => &unit[..1],
            count => &unit[..1 + 3 * usize::from(count)],
        }
    }

    /// "Unitless by its answer's unit": without one, or the empty one.
    pub fn is_unitless(&self) -> bool {
        matches!(self.unit(), [0] | [255])
    }

    pub fn errors(&self) -> u32 {
        self.out[0].into()
    }

    fn operand(&self) -> Operand<'_> {
        Operand { checked: self.checked(), unit: self.unit() }
    }
}

/// All nodes of a list answered, and the store that they leave.
#[derive(Debug, Clone, PartialEq, Eq)]
pub struct Answers {
    pub nodes: Vec<Node>,
    pub store: Vec<u8>,
}

/// Two formulas answered, and what the convertibility call says of their units.
#[derive(Debug, Clone, PartialEq, Eq)]
pub struct Run {
    pub left: Answers,
    pub right: Answers,
    pub convertible: bool,
    /// The pair table's page after the insertions.
    pub pairs: Vec<u8>,
}

/// The compositions over whatever answers the single calls.
pub struct Composed<Ask>(pub Ask);

impl<Ask: Fn(&Question) -> Result<Answer, String>> Composed<Ask> {
    /// The answer, or its refusal.
    fn ask(&self, question: &Question) -> Result<Answer, Stop> {
        let answer = (self.0)(question)?;
        match answer.refusal {
            0 => Ok(answer),
            refusal => Err(refusal.into()),
        }
    }

    /// Refusal 2: the names, the store or the pair table break their form.
    fn judge(&self, pages: Pages) -> Result<(), Stop> {
        let Pages { store, names, lent, pairs } = pages;
        self.ask(&Question::has_generic(store, names, lent, 0))?;
        self.ask(&Question::is_convertible_to(pairs, names, lent, &[0], &[0]))?;
        Ok(())
    }

    /// All nodes of a list, over pages in form.
    pub fn answers(&self, pages: Pages, nodes: &[u8]) -> Result<Answers, Stop> {
        let mut answers = Answers { nodes: Vec::new(), store: pages.store.to_vec() };
        for bytes in nodes.chunks_exact(NODE_BYTES) {
            let pages = Pages { store: &answers.store, ..pages };
            let (node, store) = self.step(pages, &answers.nodes, Written::read(bytes))?;
            answers.nodes.push(node);
            answers.store = store;
        }
        Ok(answers)
    }

    /// A formula over pages in form: of its list's refusal and 3, where its root is no node of
    /// the list, the lower one.
    fn formula(&self, pages: Pages, formula: &Formula) -> Result<Answers, Stop> {
        let count = formula.nodes.len() / NODE_BYTES;
        let rooted = if (formula.root as usize) < count { Ok(()) } else { Err(NOT_IN_USE) };
        match (self.answers(pages, &formula.nodes), rooted) {
            (Err(Stop::Refused(refusal)), Err(unused)) => Err(refusal.min(unused).into()),
            (answers, Ok(())) => answers,
            (Err(stop), _) => Err(stop),
            (Ok(_), Err(unused)) => Err(unused.into()),
        }
    }

    /// One more node, and the store that it leaves.
    fn step(
        &self,
        pages: Pages,
        nodes: &[Node],
        written: Written,
    ) -> Result<(Node, Vec<u8>), Stop> {
        let node = |number: u8| nodes.get(usize::from(number)).ok_or(NOT_IN_USE);
        let is_operator =
            |op: u8| if OPERATORS.contains(&op) { Ok(()) } else { Err(UNDEFINED_CODE) };
        let (question, below) = match written {
            Written::Undefined => return Err(UNDEFINED_CODE.into()),
            Written::Value { ty, unit } => return self.value(pages, nodes.len(), ty, unit),
            Written::Unary { op, operand } => {
                is_operator(op)?;
                let operand = node(operand)?;
                let asked = Question::check_unary_operator(pages, op.into(), operand.operand());
                (asked, operand.depth)
            }
            Written::Binary { op, left, right } => {
                is_operator(op)?;
                let (left, right) = (node(left)?, node(right)?);
                let (l, r) = (left.operand(), right.operand());
                let asked = Question::check_binary_operator(pages, op.into(), l, r);
                (asked, left.depth.max(right.depth))
            }
            Written::Index { target, key } => {
                let (target, key) = (node(target)?, node(key)?);
                let asked = Question::check_index(pages, target.operand(), key.checked());
                (asked, target.depth.max(key.depth))
            }
        };
        let depth = below + 1;
        let limit = limits(depth, nodes.len());
        let answer = match (self.ask(&question), limit) {
            (Ok(answer), Ok(())) => answer,
            (Ok(_), Err(limit)) => return Err(limit.into()),
            (Err(Stop::Refused(refusal)), _) if refusal <= BROKEN_UNIT => {
                return Err(format!("an answered operand is refused with {refusal}").into());
            }
            (Err(Stop::Refused(refusal)), Err(limit)) => return Err(refusal.min(limit).into()),
            (Err(stop), _) => return Err(stop),
        };
        let store = if question.call.writes_page() { answer.page } else { pages.store.to_vec() };
        Ok((Node { value: answer.value, out: answer.out, depth }, store))
    }

    /// A value answers its own type and unit. Whether they are in use and in form is what `!`
    /// says of them as an operand: it never enters a union in the store.
    fn value(
        &self,
        pages: Pages,
        count: usize,
        ty: u16,
        unit: &[u8],
    ) -> Result<(Node, Vec<u8>), Stop> {
        let operand = Operand { checked: ty.into(), unit };
        let judged = self.ask(&Question::check_unary_operator(pages, BANG.into(), operand))?;
        if judged.page != pages.store {
            return Err("a write into the store by !".to_owned().into());
        }
        limits(1, count)?;
        let mut out = vec![0; UNIT];
        out.extend(if unit == NO_UNIT { &NO_UNIT } else { unit });
        out.resize(ANSWER_BYTES, 0);
        Ok((Node { value: ty.into(), out, depth: 1 }, pages.store.to_vec()))
    }

    fn checked(&self, pages: Pages, formula: &Formula) -> Result<Checked, Stop> {
        are_whole(&[(&formula.nodes, NODE_BYTES)])?;
        self.judge(pages)?;
        let answers = self.formula(pages, formula)?;
        let root = formula.root as usize;
        let node = &answers.nodes[root];
        let parts = parts(&Written::all(&formula.nodes), root);
        let errors: u32 = answers
            .nodes
            .iter()
            .zip(parts)
            .filter(|(_, part)| *part)
            .map(|(n, _)| n.errors())
            .sum();
        let mut out = node.out.clone();
        out.extend((errors as u16).to_be_bytes());
        assert_eq!(out.len(), FORMULA_BYTES);
        Ok(Checked { refusal: 0, value: node.value, out, store: answers.store })
    }

    /// The page after the requests; a refused one leaves it as it was.
    fn inserted(&self, case: &Case) -> Result<Vec<u8>, Stop> {
        let mut pairs = case.pairs.clone();
        for body in case.request_bodies() {
            let question = Question::insert_pair(&pairs, &case.names, case.lent, Pair::read(body));
            match self.ask(&question) {
                Ok(answer) => pairs = answer.page,
                Err(Stop::Refused(_)) => (),
                Err(stop) => return Err(stop),
            }
        }
        Ok(pairs)
    }

    /// The insertions, both formulas one after the other, and the comparison of their results.
    pub fn run(&self, case: &Case) -> Result<Run, Stop> {
        let Case { requests, left, right, .. } = case;
        are_whole(&[
            (requests, PAIR_BYTES),
            (&left.nodes, NODE_BYTES),
            (&right.nodes, NODE_BYTES),
        ])?;
        self.judge(case.pages())?;
        let pairs = self.inserted(case)?;
        let pages = Pages { pairs: &pairs, ..case.pages() };
        let one = self.formula(pages, left)?;
        let other = self.formula(Pages { store: &one.store, ..pages }, right)?;
        let units = [&one.nodes[left.root as usize], &other.nodes[right.root as usize]];
        let [l, r] = units.map(Node::unit);
        let asked = Question::is_convertible_to(&pairs, pages.names, pages.lent, l, r);
        let convertible = match self.ask(&asked) {
            Ok(answer) => answer.value == 1,
            Err(Stop::Refused(refusal)) => {
                return Err(format!("an answered unit is refused with {refusal}").into());
            }
            Err(stop) => return Err(stop),
        };
        Ok(Run { left: one, right: other, convertible, pairs })
    }
}

/// Refusal 2: a list whose length is no multiple of what one of its parts takes.
fn are_whole(lists: &[(&Vec<u8>, usize)]) -> Result<(), Refusal> {
    match lists.iter().all(|(list, part)| list.len() % part == 0) {
        true => Ok(()),
        false => Err(BROKEN_TABLE),
    }
}

/// 7 for a node deeper than 32, then 10 for the 257th.
fn limits(depth: usize, count: usize) -> Result<(), Refusal> {
    if depth > MAX_DEPTH {
        return Err(TOO_DEEP);
    }
    if count >= MAX_NODES {
        return Err(NO_ROOM);
    }
    Ok(())
}

impl<Ask: Fn(&Question) -> Result<Answer, String>> FormulaCalls for Composed<Ask> {
    fn check_formula(&self, pages: Pages, formula: &Formula) -> Result<Checked, String> {
        match self.checked(pages, formula) {
            Ok(checked) => Ok(checked),
            Err(Stop::Refused(refusal)) => {
                Ok(Checked { refusal, value: 0, out: Vec::new(), store: pages.store.to_vec() })
            }
            Err(Stop::Misdeed(misdeed)) => Err(misdeed),
        }
    }

    fn compare_formulas(&self, case: &Case) -> Result<Compared, String> {
        compared(case, &self.run(case))
    }
}

/// A run as `compare_formulas` answers it.
pub fn compared(case: &Case, run: &Result<Run, Stop>) -> Result<Compared, String> {
    match run {
        Ok(run) => Ok(Compared {
            refusal: 0,
            value: run.convertible.into(),
            store: run.right.store.clone(),
            pairs: run.pairs.clone(),
        }),
        Err(Stop::Refused(refusal)) => Ok(Compared {
            refusal: *refusal,
            value: 0,
            store: case.store.clone(),
            pairs: case.pairs.clone(),
        }),
        Err(Stop::Misdeed(misdeed)) => Err(misdeed.clone()),
    }
}

#[cfg(test)]
mod tests {
    use super::*;
    use crate::expected::expected;
    use crate::formulas::{AND, MINUS, STAR};
    use crate::inputs::answers::results::{answers_of_minus, source};
    use crate::inputs::names::table_on;
    use crate::inputs::pairs::{page_of, pair};
    use crate::inputs::types::shapes::{over, stored, ANY, BYTE, CINT, FLOAT, INT, UINT};
    use crate::limits::{EXPONENT_TOO_LARGE, TOO_MANY_SYMBOLS, WRONG_CHILD_COUNT};

    fn ask(question: &Question) -> Result<Answer, String> {
        Ok(expected(question))
    }

    fn value(ty: u8, unit: &[u8]) -> Written<'_> {
        Written::Value { ty: ty.into(), unit }
    }

    fn binary(op: u8, left: u8, right: u8) -> Written<'static> {
        Written::Binary { op, left, right }
    }

    fn negation(operand: u8) -> Written<'static> {
        Written::Unary { op: MINUS, operand }
    }

    /// The list with its last node as the root.
    fn formula(nodes: &[Written]) -> Formula {
        let bytes = nodes.iter().flat_map(|node| node.bytes(0xEE)).collect();
        Formula { nodes: bytes, root: (nodes.len() as u32).saturating_sub(1) }
    }

    /// Over mm, in and s, the first two a pair, and a store with the union of Int and Float.
    fn checked_of(formula: &Formula) -> Checked {
        let (store, _) = stored([&over(ANY, &[INT, FLOAT])], 0);
        let (names, pairs) = (table_on(&["mm", "in", "s"], 0), page_of(&[pair(1, 0)], 0));
        let pages = Pages { store: &store, names: &names, lent: true, pairs: &pairs };
        Composed(ask).check_formula(pages, formula).expect("no misdeed")
    }

    fn refusal(nodes: &[Written]) -> u32 {
        checked_of(&formula(nodes)).refusal
    }

    const MM: &[u8] = &[1, 0, 0, 1];
    const IN: &[u8] = &[1, 1, 0, 1];
    const S: &[u8] = &[1, 2, 0, 1];

    /// Document 01's sheet: Float mm plus Float in is Float mm, without an error.
    #[test]
    fn document_01s_sheet() {
        let sum = checked_of(&formula(&[value(FLOAT, MM), value(FLOAT, IN), binary(PLUS, 0, 1)]));
        assert_eq!((sum.refusal, sum.value), (0, FLOAT.into()));
        assert_eq!(sum.out[UNIT..UNIT + 4], *MM);
        assert_eq!(sum.out[..UNIT], [0; UNIT]);
        assert_eq!(sum.out[36..], [0, 0]);
    }

    #[test]
    fn a_shared_nodes_errors_count_once() {
        // Node 2 has an error, and so have node 4, which has it on both sides, and node 5.
        let nodes = [
            value(INT, MM),
            value(INT, S),
            binary(PLUS, 0, 1),
            value(UINT, MM),
            Written::Unary { op: STAR, operand: 2 },
            binary(AND, 2, 2),
            value(INT, &NO_UNIT),
        ];
        let errors =
            |root: u32| checked_of(&Formula { root, ..formula(&nodes) }).out[36..].to_vec();
        assert_eq!([2, 3, 4, 5, 6].map(errors), [[0, 1], [0, 0], [0, 2], [0, 3], [0, 0]]);
    }

    #[test]
    fn a_value_has_the_lowest_of_its_refusals() {
        assert_eq!(refusal(&[value(INT, &[0])]), 0);
        assert_eq!(refusal(&[value(20, MM)]), NOT_IN_USE);
        assert_eq!(refusal(&[value(19, &[1, 3, 0, 1])]), NOT_IN_USE);
        assert_eq!(refusal(&[value(19, &[2, 0, 0, 0, 3, 0, 1])]), NOT_IN_USE);
        assert_eq!(refusal(&[value(19, &[1, 0, 0, 0])]), BROKEN_UNIT);
    }

    #[test]
    fn more_symbols_than_places() {
        for count in [9, 128, 254] {
            // The eight symbols that stand there are looked at, whatever their exponents.
            let mut unit = [&[count][..], &[2, 0, 0].repeat(8)].concat();
            assert_eq!(refusal(&[value(INT, &unit)]), BROKEN_UNIT);
            assert_eq!(refusal(&[value(20, &unit)]), NOT_IN_USE);
            for place in 0..8 {
                unit[1 + 3 * place] = 3;
                assert_eq!(refusal(&[value(INT, &unit)]), NOT_IN_USE);
                unit[1 + 3 * place] = 2;
            }
        }
        // What stands behind fewer symbols, or no unit, is not looked at.
        assert_eq!(refusal(&[value(INT, &[1, 2, 0, 1, 3, 0, 1])]), 0);
        assert_eq!(refusal(&[value(INT, &[255, 3, 0, 1])]), 0);
    }

    #[test]
    fn the_first_refused_node_decides() {
        let (mm, unused) = (value(INT, MM), value(20, MM));
        assert_eq!(refusal(&[]), NOT_IN_USE);
        assert_eq!(refusal(&[Written::Undefined]), UNDEFINED_CODE);
        assert_eq!(refusal(&[mm, Written::Unary { op: 14, operand: 1 }]), UNDEFINED_CODE);
        assert_eq!(refusal(&[mm, Written::Unary { op: 0, operand: 0 }, unused]), UNDEFINED_CODE);
        assert_eq!(refusal(&[mm, binary(PLUS, 0, 1)]), NOT_IN_USE);
        assert_eq!(refusal(&[mm, binary(PLUS, 2, 0), mm]), NOT_IN_USE);
        assert_eq!(refusal(&[mm, Written::Index { target: 0, key: 1 }]), NOT_IN_USE);
        let broken = value(INT, &[1, 0, 0, 0]);
        assert_eq!(refusal(&[broken, Written::Undefined]), BROKEN_UNIT);
        // A root that is no node is 3, unless a node is refused with less.
        let rooted = |nodes: &[Written], root| checked_of(&Formula { root, ..formula(nodes) });
        assert_eq!(rooted(&[mm], 1).refusal, NOT_IN_USE);
        assert_eq!(rooted(&[broken], 1).refusal, NOT_IN_USE);
        assert_eq!(rooted(&[Written::Undefined], 65_536).refusal, UNDEFINED_CODE);
    }

    #[test]
    fn limits_of_formulas_and_of_units() {
        let mut deep = vec![value(INT, &[1, 0, 0, 31])];
        deep.extend((0..31).map(|last| binary(STAR, last, 0)));
        assert_eq!(refusal(&deep), 0);
        let deeper = |node| [&deep[..], &[node]].concat();
        assert_eq!(refusal(&deeper(negation(31))), TOO_DEEP);
        assert_eq!(refusal(&deeper(binary(STAR, 31, 0))), TOO_DEEP);
        assert_eq!(refusal(&deeper(binary(STAR, 30, 31))), TOO_DEEP);
        assert_eq!(refusal(&deeper(binary(STAR, 30, 30))), EXPONENT_TOO_LARGE);

        let mut many = vec![value(CINT, &[1, 0, 3, 232]); MAX_NODES];
        assert_eq!(refusal(&many), 0);
        many.push(negation(0));
        assert_eq!(refusal(&many), NO_ROOM);
        many[MAX_NODES] = binary(STAR, 0, 0);
        assert_eq!(refusal(&many), EXPONENT_TOO_LARGE);
        many[MAX_NODES] = value(20, MM);
        assert_eq!(refusal(&many), NOT_IN_USE);
    }

    /// A case over 256 symbols, and the number of a union whose negation is too wide.
    fn all_symbols(left: &[Written], right: &[Written]) -> (Case, u16) {
        let wide = answers_of_minus().pop().expect("a wide union");
        let (store, [ty]) = stored([&source(&wide)], 2_000);
        let (left, right) = (formula(left), formula(right));
        let (pairs, requests) = (page_of(&[], 0), vec![1, 0, 0, 0, 0, 0, 0, 0, 0, 7]);
        let case = Case { store, names: Vec::new(), lent: false, pairs, requests, left, right };
        (case, ty)
    }

    #[test]
    fn two_formulas_and_their_refusals() {
        let run = |case: &Case| Composed(ask).compare_formulas(case).expect("no misdeed");
        let units: [Vec<u8>; 2] = [0, 8].map(|first| {
            let terms = (first..first + 8).map(|symbol| (symbol, 1)).collect::<Vec<_>>();
            crate::units::unit_bytes(&terms)
        });
        let nine = [value(INT, &units[0]), value(INT, &units[1]), binary(STAR, 0, 1)];
        let mm = [value(BYTE, MM)];
        let (mut case, ty) = all_symbols(&mm, &nine);
        let refused = |refusal: u32, case: &Case| Compared {
            refusal,
            value: 0,
            store: case.store.clone(),
            pairs: case.pairs.clone(),
        };
        assert_eq!(run(&case), refused(TOO_MANY_SYMBOLS, &case));
        // The insertion finds no room, and that is no refusal of the call.
        case.right = formula(&[value(INT, IN)]);
        assert_eq!(run(&case), Compared { refusal: 0, ..refused(0, &case) });
        case.pairs.extend([0; PAIR_BYTES]);
        let compared = run(&case);
        assert_eq!((compared.value, &compared.store), (1, &case.store));
        assert_eq!(compared.pairs, page_of(&[Pair { factor: 7, ..pair(1, 0) }], 0));

        // The left list comes first, with its root.
        case.left = formula(&[Written::Value { ty, unit: MM }, negation(0)]);
        assert_eq!(run(&case), refused(WRONG_CHILD_COUNT, &case));
        case.right.root = 1;
        assert_eq!(run(&case), refused(WRONG_CHILD_COUNT, &case));
        case.left.root = 2;
        assert_eq!(run(&case), refused(NOT_IN_USE, &case));
        case.requests.push(0);
        assert_eq!(run(&case), refused(BROKEN_TABLE, &case));
    }
}
