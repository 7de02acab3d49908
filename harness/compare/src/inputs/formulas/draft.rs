//! A formula drawn node by node. Beside each node stands what it may be expected to answer, a
//! sketch, so that the next one can be drawn to fit; nothing but the shares hangs on it.

use super::ground::{bytes_of, holds_union, is_union, is_within_limits, times, Ground, Unit};
use crate::formulas::{
    parts, Formula, Written, AND, BANG, LESS, MAX_NODES, MINUS, PLUS, SLASH, STAR, UNEQUAL,
};
use crate::inputs::types::shapes::{
    ANY, ARRAY, BOOL, BYTE, CANY, CBOOL, CBYTE, CFLOAT, CINT, CMAP, CSET, CTUPLE, CUINT, FLOAT,
    INT, MAP, NULL, TUPLE, UINT,
};
use crate::limits::{FIXED_TYPES, MAX_DEPTH, NO_UNIT};
use crate::random::Random;
use crate::types::store::Entry;

/// What a node may be expected to answer.
#[derive(Clone)]
struct Sketch {
    /// `None` where it is Unknown or the check fails.
    ty: Option<u16>,
    unit: Unit,
    depth: usize,
}

/// How a formula is drawn: what it may have beside what the hypotheses allow.
#[derive(Clone, Copy, Default)]
struct Manners {
    unions: bool,
    /// Sums with one unitless side.
    one_sided: bool,
    /// Nodes that may have errors.
    errors: bool,
    /// A root that may be no number, and targets that index to Unknown.
    any_root: bool,
}

impl Manners {
    fn some(random: &mut Random) -> Self {
        let mut manners = Self::default();
        match random.below(10) {
            0 => manners.unions = true,
            1 => manners.one_sided = true,
            2 => manners.errors = true,
            3 => manners.any_root = true,
            4 => manners = Self { unions: true, one_sided: true, errors: true, any_root: true },
            _ => (),
        }
        manners
    }
}

/// A list of nodes that grows.
pub struct Draft<'a> {
    ground: &'a Ground,
    manners: Manners,
    /// A number's kind and its const form, those of most values.
    family: [u8; 2],
    filler: u8,
    nodes: Vec<u8>,
    sketches: Vec<Sketch>,
}

const FAMILIES: [[u8; 2]; 5] =
    [[INT, CINT], [INT, CINT], [FLOAT, CFLOAT], [UINT, CUINT], [BYTE, CBYTE]];

impl<'a> Draft<'a> {
    pub fn new(random: &mut Random, ground: &'a Ground) -> Self {
        let manners = Manners::some(random);
        let family = *random.pick(&FAMILIES);
        let filler = if random.once_in(10) { random.byte() } else { 0 };
        Self { ground, manners, family, filler, nodes: Vec::new(), sketches: Vec::new() }
    }

    fn push(&mut self, written: Written, ty: Option<u16>, unit: Unit) -> u8 {
        let below = written.operands().into_iter().map(|number| self.sketches[number].depth);
        let depth = 1 + below.max().unwrap_or(0);
        self.nodes.extend(written.bytes(self.filler));
        self.sketches.push(Sketch { ty, unit, depth });
        (self.sketches.len() - 1) as u8
    }

    fn value(&mut self, random: &mut Random, ty: u16, unit: Unit) -> u8 {
        let bytes = match unit.is_empty() && !random.once_in(3) {
            true => NO_UNIT.to_vec(),
            false => bytes_of(&unit),
        };
        self.push(Written::Value { ty, unit: &bytes }, Some(ty), unit)
    }

    /// A number of the family, with that unit; where unions are allowed, at times one of such.
    fn number(&mut self, random: &mut Random, unit: Unit) -> u8 {
        if self.manners.unions && random.once_in(3) {
            let unions = self.types(|draft, ty| draft.is_number_type(ty));
            if !unions.is_empty() {
                let ty = *random.pick(&unions);
                return self.value(random, ty, unit);
            }
        }
        let kind = *random.pick(&self.family);
        self.value(random, kind.into(), unit)
    }

    fn entry(&self, node: u8) -> Option<Entry> {
        self.sketches[usize::from(node)].ty.map(|ty| self.ground.store.entry(ty))
    }

    pub fn unit(&self, node: u8) -> &Unit {
        &self.sketches[usize::from(node)].unit
    }

    /// A node that pleases, most likely a late one.
    fn some_node(&self, random: &mut Random, pleases: impl Fn(&Self, u8) -> bool) -> Option<u8> {
        let all = 0..self.sketches.len().min(MAX_NODES) as u16;
        let fit: Vec<u8> = all.map(|node| node as u8).filter(|&node| pleases(self, node)).collect();
        let late = fit.len().saturating_sub(3);
        match fit.is_empty() {
            true => None,
            false if random.once_in(2) => Some(*random.pick(&fit[late..])),
            false => Some(*random.pick(&fit)),
        }
    }

    /// The types of the store that please, the fixed ones left out.
    fn types(&self, pleases: impl Fn(&Self, u16) -> bool) -> Vec<u16> {
        let all = FIXED_TYPES..self.ground.store.count();
        all.map(|ty| ty as u16).filter(|&ty| pleases(self, ty)).collect()
    }

    /// Is it a number of the family, or a union of such, or of such unions.
    fn is_number_type(&self, ty: u16) -> bool {
        let entry = self.ground.store.entry(ty);
        let mut children = entry.children.iter();
        self.family.contains(&entry.kind)
            || (is_union(entry.kind)
                && !entry.children.is_empty()
                && children.all(|&child| self.is_number_type(child)))
    }

    fn is_number(&self, node: u8) -> bool {
        let ty = self.sketches[usize::from(node)].ty;
        self.is_shallow(node) && ty.is_some_and(|ty| self.is_number_type(ty))
    }

    fn some_number(&mut self, random: &mut Random) -> u8 {
        let found = self.some_node(random, Self::is_number).filter(|_| !random.once_in(5));
        found.unwrap_or_else(|| {
            let unit = self.ground.unit(random);
            self.number(random, unit)
        })
    }

    /// A number whose unit goes with that of a node in a sum.
    fn companion(&mut self, random: &mut Random, node: u8) -> u8 {
        let unit = self.unit(node).clone();
        let sums = self.ground.sums(&unit);
        let loose = self.manners.one_sided && random.once_in(3);
        let goes_with = |draft: &Self, other: u8| {
            let other_unit = draft.unit(other);
            let suits =
                draft.ground.sums(other_unit) == sums && other_unit.is_empty() == unit.is_empty();
            draft.is_number(other) && (suits || loose)
        };
        let found = self.some_node(random, goes_with).filter(|_| !random.once_in(3));
        found.unwrap_or_else(|| {
            let other = match self.manners.one_sided && random.once_in(3) {
                true => Unit::new(),
                false => self.ground.convertible(random, &unit),
            };
            self.number(random, other)
        })
    }

    fn binary(&mut self, op: u8, left: u8, right: u8, ty: Option<u16>, unit: Unit) -> u8 {
        self.push(Written::Binary { op, left, right }, ty, unit)
    }

    fn sum(&mut self, random: &mut Random) {
        let left = self.some_number(random);
        let right = self.companion(random, left);
        let (left, right) = if random.once_in(2) { (left, right) } else { (right, left) };
        let op = *random.pick(&[PLUS, PLUS, MINUS]);
        let from = if self.unit(left).is_empty() { right } else { left };
        let unit = self.unit(from).clone();
        self.binary(op, left, right, Some(self.family[0].into()), unit);
    }

    fn product(&mut self, random: &mut Random) {
        for _ in 0..4 {
            let (left, right) = (self.some_number(random), self.some_number(random));
            let op = *random.pick(&[STAR, SLASH]);
            let sign = if op == STAR { 1 } else { -1 };
            let unit = times(self.unit(left), self.unit(right), sign);
            if is_within_limits(&unit) || random.once_in(200) {
                self.binary(op, left, right, Some(self.family[0].into()), unit);
                return;
            }
        }
    }

    fn negation(&mut self, random: &mut Random) {
        let operand = self.some_number(random);
        let unsigned = [UINT, BYTE].contains(&self.family[0]);
        if unsigned && !(self.manners.errors && random.once_in(3)) {
            return;
        }
        let unit = self.unit(operand).clone();
        let written = Written::Unary { op: MINUS, operand };
        self.push(written, (!unsigned).then_some(self.family[0].into()), unit);
    }

    /// An operator on what is Unknown.
    fn unknown(&mut self, random: &mut Random) {
        let is_unknown = |draft: &Self, node: u8| {
            draft.is_shallow(node) && draft.sketches[usize::from(node)].ty.is_none()
        };
        let unknown = self.some_node(random, is_unknown).unwrap_or_else(|| {
            let unit = self.ground.unit(random);
            let target = self.value(random, NULL.into(), unit.clone());
            self.push(Written::Index { target, key: target }, None, unit)
        });
        if random.once_in(2) {
            self.push(Written::Unary { op: MINUS, operand: unknown }, None, Unit::new());
        } else {
            let (op, other) = (*random.pick(&[PLUS, STAR, SLASH]), self.some_number(random));
            let (left, right) = if random.once_in(2) { (unknown, other) } else { (other, unknown) };
            self.binary(op, left, right, None, Unit::new());
        }
    }

    /// A union negated, which has no unit where its members come to several types.
    fn negated_union(&mut self, random: &mut Random) {
        let unions = self.types(|draft, ty| is_union(draft.ground.store.entry(ty).kind));
        if !unions.is_empty() {
            let (ty, unit) = (*random.pick(&unions), self.ground.unit(random));
            let operand = self.value(random, ty, unit.clone());
            self.push(Written::Unary { op: MINUS, operand }, Some(ty), unit);
        }
    }

    /// A value that is no number of the family: something to index, a key, or anything.
    fn other(&mut self, random: &mut Random) {
        let ty = random.below(self.ground.store.count()) as u16;
        if self.manners.unions || !holds_union(&self.ground.store, ty) {
            let unit = self.ground.unit(random);
            self.value(random, ty, unit);
        }
    }

    /// An index into a value of the store's types that comes to the family, or to anything.
    fn index(&mut self, random: &mut Random) {
        let target = match self.some_node(random, Self::is_target).filter(|_| random.once_in(2)) {
            Some(target) => target,
            None => {
                let ty = FIXED_TYPES + random.below(self.ground.store.count() - FIXED_TYPES + 1);
                let ty = if ty == self.ground.store.count() { NULL.into() } else { ty as u16 };
                let union = holds_union(&self.ground.store, ty);
                if !self.is_target_type(ty) || (union && !self.manners.unions) {
                    return;
                }
                let unit = self.ground.unit(random);
                self.value(random, ty, unit)
            }
        };
        let entry = self.entry(target).expect("a target has a type");
        let key = match entry.kind {
            MAP | CMAP => self.key(random, entry.children[0]),
            _ => self.some_node(random, Self::is_shallow).expect("the target is one"),
        };
        let ty = match entry.kind {
            TUPLE | CTUPLE | NULL | ANY | CANY => None,
            _ => entry.children.last().copied(),
        };
        let unit = self.unit(target).clone();
        self.push(Written::Index { target, key }, ty, unit);
    }

    fn is_shallow(&self, node: u8) -> bool {
        self.sketches[usize::from(node)].depth < MAX_DEPTH
    }

    fn is_target(&self, node: u8) -> bool {
        let ty = self.sketches[usize::from(node)].ty;
        self.is_shallow(node) && ty.is_some_and(|ty| self.is_target_type(ty))
    }

    fn is_target_type(&self, ty: u16) -> bool {
        let entry = self.ground.store.entry(ty);
        match entry.kind {
            ARRAY..=CSET | MAP | CMAP => true,
            NULL | TUPLE | CTUPLE => self.manners.any_root || self.manners.errors,
            ANY | CANY => entry.children.iter().all(|&child| self.is_target_type(child)),
            _ => false,
        }
    }

    /// A key of a map: a node of that type, where there is one.
    fn key(&mut self, random: &mut Random, ty: u16) -> u8 {
        let is_key = |draft: &Self, node: u8| {
            draft.is_shallow(node) && draft.sketches[usize::from(node)].ty == Some(ty)
        };
        if self.manners.errors && random.once_in(3) {
            return self.some_number(random);
        }
        self.some_node(random, is_key).unwrap_or_else(|| {
            let unit = self.ground.unit(random);
            self.value(random, ty, unit)
        })
    }

    /// A comparison, which may serve as a key.
    fn comparison(&mut self, random: &mut Random) {
        let left = self.some_number(random);
        let right = self.companion(random, left);
        let op = LESS + random.below((UNEQUAL - LESS + 1).into()) as u8;
        self.binary(op, left, right, Some(BOOL.into()), Unit::new());
    }

    fn logic(&mut self, random: &mut Random) {
        let is_bool = |draft: &Self, node: u8| {
            draft.is_shallow(node)
                && draft.entry(node).is_some_and(|entry| [BOOL, CBOOL].contains(&entry.kind))
        };
        let sides = [0; 2].map(|_| self.some_node(random, is_bool));
        match sides {
            [Some(operand), _] if random.once_in(2) => {
                self.push(Written::Unary { op: BANG, operand }, Some(BOOL.into()), Unit::new());
            }
            [Some(left), Some(right)] => {
                let op = AND + random.below(2) as u8;
                self.binary(op, left, right, Some(BOOL.into()), Unit::new());
            }
            _ => (),
        }
    }

    /// Any node over any others.
    fn anything(&mut self, random: &mut Random) {
        let some = |random: &mut Random| self.some_node(random, |_, _| true).unwrap_or(0);
        let (left, right) = (some(random), some(random));
        let op = 1 + random.below(13) as u8;
        let written = match random.below(3) {
            _ if self.sketches.is_empty() => return,
            0 => Written::Unary { op, operand: left },
            1 => Written::Binary { op: op.min(UNEQUAL), left, right },
            _ => Written::Index { target: left, key: right },
        };
        let unit = self.unit(left).clone();
        self.push(written, None, unit);
    }

    fn grow(&mut self, random: &mut Random) {
        if self.manners.any_root && random.once_in(8) {
            return self.unknown(random);
        }
        match random.below(100) {
            0..40 => self.sum(random),
            40..66 => self.product(random),
            66..76 => self.negation(random),
            76..88 => self.index(random),
            88..93 => self.comparison(random),
            93 | 94 => self.logic(random),
            95..98 => self.other(random),
            _ if self.manners.errors => self.anything(random),
            _ if self.manners.unions => self.negated_union(random),
            _ => self.sum(random),
        }
    }

    /// So many nodes, or a few more.
    pub fn fill(&mut self, random: &mut Random, count: usize) {
        while self.sketches.len() < count {
            if self.sketches.len() < count.min(1 + random.below(6)) {
                let unit = self.ground.unit(random);
                self.number(random, unit);
            } else {
                self.grow(random);
            }
        }
    }

    /// The number that has the most nodes below it, or at times any node.
    pub fn root(&self, random: &mut Random) -> u8 {
        let all: Vec<u8> = (0..self.sketches.len().min(MAX_NODES)).map(|node| node as u8).collect();
        let nodes = Written::all(&self.nodes);
        let below =
            |&node: &u8| parts(&nodes, node.into()).into_iter().filter(|&part| part).count();
        let numbers = all.iter().copied().filter(|&node| self.is_number(node));
        let last = numbers.max_by_key(below);
        match last {
            Some(root) if !self.manners.any_root && !random.once_in(12) => root,
            _ if random.once_in(2) => all[all.len() - 1],
            _ => *random.pick(&all),
        }
    }

    /// One more product, so that the whole has such a unit, where that is within the limits.
    pub fn adjust(&mut self, random: &mut Random, root: u8, wanted: &Unit) -> u8 {
        let missing = times(wanted, self.unit(root), -1);
        let mut missing = self.ground.convertible(random, &missing);
        if random.once_in(3) {
            missing = times(&missing, &self.ground.wrongly_nothing(random), 1);
        }
        let unit = times(self.unit(root), &missing, 1);
        if !self.is_number(root) || !is_within_limits(&missing) || !is_within_limits(&unit) {
            return root;
        }
        let other = self.number(random, missing);
        self.binary(STAR, root, other, Some(self.family[0].into()), unit)
    }

    pub fn formula(self, root: u8) -> Formula {
        Formula { nodes: self.nodes, root: root.into() }
    }
}
