//! Types in layers: each type of a level has children of the level below, which are few and so
//! shared widely. What is 8 levels deep and more has too many nodes for the oracle.

use super::shapes::{
    bindings, A, ANY, ARRAY, B, BOOL, CINT, FLOAT, GENERIC, INT, MAP, NULL, RECORD, RESULT, SET,
    STRING, TUPLE, UINT,
};
use crate::answers;
use crate::call::{Call, Operand, Pages, Question};
use crate::inputs::names::{shortest_names, table};
use crate::inputs::Sink;
use crate::limits::{FIXED_TYPES, MAX_CHILDREN, MAX_DEPTH, NO_UNIT};
use crate::random::Random;
use crate::types::is_within_reach;
use crate::types::store::{child_counts, Entry, Store};

/// The fewest levels of deep types.
const FEWEST_LEVELS: usize = 8;

/// The most levels: below them stand arrays.
pub const MOST_LEVELS: usize = MAX_DEPTH - 2;

/// How many levels the target of an index has above its keys: maps, and unions of unions of them.
const INDEX_LEVELS: usize = 3;

/// The random rounds for which one deep store is drawn.
const ROUNDS_A_STORE: usize = 50;

/// How many names the types have.
const NAMES: usize = 4;

/// Questions on types of up to four levels, which the oracle can be asked.
pub fn shallow(random: &mut Random, rounds: usize, ask: Sink) {
    for _ in 0..rounds.div_ceil(ROUNDS_A_STORE) {
        let levels = 1 + random.below(4);
        let plan = Plan::new(random, levels, 3);
        for question in plan.questions(random).into_iter().filter(is_shallow) {
            ask(question);
        }
    }
}

fn is_shallow(question: &Question) -> bool {
    match question.call {
        Call::CheckIndex => answers::is_within_reach(question),
        _ => is_within_reach(question),
    }
}

/// Questions on types of 8 levels up to so many.
pub fn deep(seed: u64, rounds: usize, levels: usize, ask: Sink) {
    let mut random = Random::new(seed);
    let fewest = FEWEST_LEVELS.min(levels);
    for _ in 0..rounds.div_ceil(ROUNDS_A_STORE) {
        let levels = fewest + random.below(levels - fewest + 1);
        let plan = Plan::new(&mut random, levels, MAX_CHILDREN);
        for question in plan.questions(&mut random) {
            ask(question);
        }
    }
}

// ---- Stores ----

/// What the levels are made of, from the lowest on.
#[derive(Clone, Copy)]
enum Style {
    Tuples,
    Unions,
    MapsOverTuples,
    UnionsOverTuples,
    UnionsOverMaps,
    Anything,
}

/// One type a level and side, each over the one of the level below: it decides the answer alone.
#[derive(Clone, Copy, PartialEq)]
enum Path {
    None,
    /// All else matches, and the left one of the path does not, since one child does not.
    Spoilt,
    /// Nothing else matches, and of a union on the right one member does, its one of the path.
    Saved,
}

/// How a store is drawn.
struct Plan {
    style: Style,
    path: Path,
    levels: usize,
    /// The most children of a type.
    most: usize,
    /// How many types a level has on a side.
    width: usize,
    /// A child is Null or a Generic once in so many times.
    wild: usize,
    /// A type has its const form once in so many.
    consts: usize,
    /// A tuple has another length than the others of its level once in so many.
    odd: usize,
    /// A child is taken from the other side once in so many.
    across: usize,
}

/// Once in so many times is hardly ever.
const NEVER: usize = 1_000_000;

impl Plan {
    fn new(random: &mut Random, levels: usize, most: usize) -> Self {
        let styles = [
            Style::Tuples,
            Style::Unions,
            Style::MapsOverTuples,
            Style::UnionsOverTuples,
            Style::UnionsOverMaps,
            Style::Anything,
        ];
        Self {
            style: *random.pick(&styles),
            path: *random.pick(&[Path::None, Path::Spoilt, Path::Saved]),
            levels,
            most,
            width: if most == MAX_CHILDREN { 3 + random.below(10) } else { 1 + random.below(3) },
            wild: *random.pick(&[NEVER, NEVER, 200, 30]),
            consts: *random.pick(&[NEVER, NEVER, 100, 10]),
            odd: *random.pick(&[NEVER, NEVER, 20]),
            across: *random.pick(&[NEVER, NEVER, 50, 5]),
        }
    }

    /// The kind of a level's types.
    fn kind(&self, random: &mut Random, level: usize) -> u8 {
        let low = *random.pick(&[TUPLE, TUPLE, TUPLE, ARRAY]);
        match self.style {
            Style::Tuples => low,
            Style::Unions => ANY,
            Style::Anything => *random.pick(&[TUPLE, TUPLE, MAP, ANY, ARRAY, RESULT, SET]),
            _ if 2 * level < self.levels => low,
            Style::MapsOverTuples => MAP,
            Style::UnionsOverTuples => ANY,
            Style::UnionsOverMaps if 4 * level < 3 * self.levels => MAP,
            Style::UnionsOverMaps => ANY,
        }
    }

    /// The questions on one store.
    fn questions(&self, random: &mut Random) -> Vec<Question> {
        let store = Layers::new(random, self);
        let mut questions = Vec::new();
        for _ in 0..2 {
            questions.extend(store.matches(random));
            questions.extend(store.unify(random));
            questions.push(store.check_index(random));
        }
        questions
    }
}

/// The types of a level on either side, and those of the path.
struct Level {
    sides: [Vec<u16>; 2],
    path: [u16; 2],
}

/// A store in layers, the lowest level first.
struct Layers {
    store: Store,
    levels: Vec<Level>,
    path: Path,
}

impl Layers {
    fn new(random: &mut Random, plan: &Plan) -> Self {
        let mut store = Store::default();
        let mut levels = vec![leaves(random, &mut store, plan.path)];
        for level in 0..plan.levels {
            let usual =
                Usual { kind: plan.kind(random, level), count: 1 + random.below(plan.most) };
            let below = &levels[level];
            let sides = [0, 1].map(|side| {
                let types = (0..plan.width).map(|_| {
                    let entry = some_type(random, &mut store, plan, &usual, (below, side));
                    made(&mut store, entry)
                });
                types.collect()
            });
            let path =
                [0, 1].map(|side| path_type(random, &mut store, plan.path, &usual, (below, side)));
            levels.push(Level { sides, path });
        }
        Self { store, levels, path: plan.path }
    }
}

/// The kind of a level's types, and how many children its tuples have.
struct Usual {
    kind: u8,
    count: usize,
}

impl Usual {
    /// So many children, or as many as the kind takes.
    fn clamped(&self, count: usize) -> usize {
        let counts = child_counts(self.kind);
        count.clamp(*counts.start(), *counts.end())
    }
}

/// A type of the level's kind.
fn some_type(
    random: &mut Random,
    store: &mut Store,
    plan: &Plan,
    usual: &Usual,
    (below, side): (&Level, usize),
) -> Entry {
    let count = match usual.kind {
        TUPLE if !random.once_in(plan.odd) => usual.count,
        _ => 1 + random.below(plan.most),
    };
    let children: Vec<u16> = (0..usual.clamped(count))
        .map(|_| some_child(random, store, plan, &below.sides, side))
        .collect();
    Entry::of(usual.kind + u8::from(random.once_in(plan.consts)), &children)
}

/// The type of the path. On the side that decides just one child of it, often the last, is the
/// one below; else all are.
fn path_type(
    random: &mut Random,
    store: &mut Store,
    path: Path,
    usual: &Usual,
    (below, side): (&Level, usize),
) -> u16 {
    let mut children = vec![below.path[side]; usual.clamped(usual.count)];
    let decides = match path {
        Path::None | Path::Spoilt => side == 0,
        Path::Saved => side == 1 && usual.kind == ANY,
    };
    if decides {
        let last = children.len() - 1;
        let place = if random.once_in(2) { last } else { random.below(children.len()) };
        for (_, child) in children.iter_mut().enumerate().filter(|(other, _)| *other != place) {
            *child = *random.pick(&below.sides[side]);
        }
    }
    made(store, Entry::of(usual.kind, &children))
}

/// A page of the store, with room for a union or without.
fn page_for(store: &Store, random: &mut Random) -> Vec<u8> {
    let mut page = store.write(0);
    page.resize(page.len() + *random.pick(&[0, 1, 40, 100]), 0);
    page
}

fn made(store: &mut Store, entry: Entry) -> u16 {
    store.make(entry, usize::MAX).expect("a type within the limits")
}

/// A type of the level below, most often of the same side; seldom Null or a Generic.
fn some_child(
    random: &mut Random,
    store: &mut Store,
    plan: &Plan,
    below: &[Vec<u16>; 2],
    side: usize,
) -> u16 {
    if random.once_in(plan.wild) {
        return match random.below(3) {
            0 => made(store, Entry::named(GENERIC, random.below(NAMES) as u8)),
            _ => NULL.into(),
        };
    }
    let side = if random.once_in(plan.across) { 1 - side } else { side };
    *random.pick(&below[side])
}

/// So many arrays of some kinds.
fn arrays(random: &mut Random, store: &mut Store, kinds: &[u8], count: usize) -> Vec<u16> {
    let some = (0..count).map(|_| Entry::of(ARRAY, &[(*random.pick(kinds)).into()]));
    some.map(|array| made(store, array)).collect()
}

/// The lowest types of both sides. Beside a path all match or none; else arrays of Null stand
/// against others, the same with one type that is no such array, or a few and the same few with
/// one more.
fn leaves(random: &mut Random, store: &mut Store, path: Path) -> Level {
    let few = arrays(random, store, &[INT, CINT, UINT], 3);
    let others = arrays(random, store, &[FLOAT, BOOL, STRING], 3);
    let empty = made(store, Entry::of(ARRAY, &[NULL.into()]));
    match path {
        Path::None => {
            let sides = some_leaves(random, store, empty, few, others);
            let path = [sides[0][0], sides[1][0]];
            Level { sides, path }
        }
        Path::Spoilt => Level { path: [INT.into(), few[0]], sides: [vec![empty], few] },
        Path::Saved => Level { path: [empty, others[0]], sides: [few, others] },
    }
}

fn some_leaves(
    random: &mut Random,
    store: &mut Store,
    empty: u16,
    few: Vec<u16>,
    others: Vec<u16>,
) -> [Vec<u16>; 2] {
    let spoilt = match random.below(4) {
        0 => vec![INT.into()],
        1 => others[..1].to_vec(),
        _ => Vec::new(),
    };
    match random.below(6) {
        0 => [few.clone(), [few, spoilt].concat()],
        1 => [few, [vec![empty], spoilt].concat()],
        2 => [vec![empty, made(store, Entry::named(RECORD, A))], [few, spoilt].concat()],
        3 => [vec![empty, NULL.into()], [few, vec![FLOAT.into()]].concat()],
        _ => [[vec![empty], spoilt].concat(), few],
    }
}

// ---- Questions ----

/// The names page, and whether it is lent.
fn some_names(random: &mut Random) -> (Vec<u8>, bool) {
    (table(&shortest_names(NAMES)), random.once_in(2))
}

impl Layers {
    /// A type of each side, most often of the left one first, and of the path if there is one.
    fn two(&self, random: &mut Random) -> [u32; 2] {
        let Level { sides, path } = &self.levels[self.levels.len() - 1];
        let [left, right] = match self.path {
            Path::None => [0, 1].map(|side| *random.pick(&sides[side])),
            _ if random.once_in(4) => [0, 1].map(|side| *random.pick(&sides[side])),
            _ => *path,
        };
        match random.below(3) {
            0 => [right, left].map(u32::from),
            _ => [left, right].map(u32::from),
        }
    }

    fn matches(&self, random: &mut Random) -> [Question; 2] {
        let (page, (names, lent)) = (page_for(&self.store, random), some_names(random));
        [(); 2].map(|()| {
            let [actual, expected] = self.two(random);
            Question::matches(&page, &names, lent, actual, expected)
        })
    }

    /// Without bindings, and with some.
    fn unify(&self, random: &mut Random) -> [Question; 2] {
        let (page, (names, lent)) = (page_for(&self.store, random), some_names(random));
        let types = [(); 2].map(|()| random.below(self.store.count()) as u16);
        let bound = [(B, types[0]), (A, types[1])];
        [&[], &bound[..1 + random.below(2)]]
            .map(|bound| Question::unify(&page, &names, lent, self.two(random), &bindings(bound)))
    }

    /// A map, or a union of maps or of unions of maps, whose keys are types of one side, indexed
    /// by a type of the other.
    fn check_index(&self, random: &mut Random) -> Question {
        let highest = (self.levels.len() - 1).min(MOST_LEVELS - INDEX_LEVELS);
        let Level { sides, path } = &self.levels[highest];
        let keys = if self.path == Path::Saved { &path[1..] } else { &sides[1] };
        let mut store = self.store.clone();
        let mut maps = Vec::new();
        for _ in 0..*random.pick(&[1, 2, 5, MAX_CHILDREN]) {
            let kind = MAP + u8::from(random.once_in(4));
            let key_and_value = [*random.pick(keys), random.below(FIXED_TYPES) as u16];
            maps.push(made(&mut store, Entry::of(kind, &key_and_value)));
        }
        let target = match random.below(3) {
            0 => maps[0],
            1 => made(&mut store, Entry::of(ANY, &maps)),
            _ => {
                let inner = made(&mut store, Entry::of(ANY, &maps));
                made(&mut store, Entry::of(ANY, &[maps[0], inner]))
            }
        };
        let (page, (names, lent)) = (page_for(&store, random), some_names(random));
        let pages = Pages { store: &page, names: &names, lent, pairs: b"" };
        let target = Operand { checked: target.into(), unit: &NO_UNIT };
        let key = if random.once_in(4) { *random.pick(&sides[0]) } else { path[0] };
        Question::check_index(pages, target, key.into())
    }
}

#[cfg(test)]
mod tests {
    use super::*;
    use crate::call::Answer;
    use crate::{expected, reference};
    use std::collections::BTreeMap;

    /// How often each call said no, and how often yes.
    type Counts = BTreeMap<Call, [usize; 2]>;

    fn count(counts: &mut Counts, question: &Question, answer: &Answer) {
        let yes = answer.is_yes(question.call);
        counts.entry(question.call).or_default()[usize::from(yes)] += 1;
    }

    #[test]
    fn the_reference_answers_shallow_types_as_the_oracle_does() {
        let mut counts = Counts::new();
        shallow(&mut Random::new(1), 50_000, &mut |question| {
            let answer = reference::expected(&question);
            assert_eq!(answer, expected::expected(&question), "{question:?}");
            count(&mut counts, &question, &answer);
            answer
        });
        assert!(counts.values().flatten().all(|&times| times > 200), "{counts:?}");
    }

    #[test]
    fn deep_types_pass_and_fail_often() {
        let mut counts = Counts::new();
        deep(1, 20_000, MOST_LEVELS, &mut |question| {
            let answer = reference::expected(&question);
            count(&mut counts, &question, &answer);
            answer
        });
        assert!(counts.values().flatten().all(|&times| times > 100), "{counts:?}");
    }
}
