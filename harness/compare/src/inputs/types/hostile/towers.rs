//! Unions below towers of unions, which bring every one of them together with every other.

use super::{arrays, different, draw, empty_array, made, maps, sample, Hostile, KINDS};
use crate::inputs::types::shapes::{ANY, ARRAY, CARRAY, MAP, NULL, SET, TUPLE};
use crate::limits::MAX_CHILDREN;
use crate::random::Random;
use crate::types::store::Store;

/// How many types of the level below a union of a tower has: one more member is its last.
const TOWER_WIDTH: usize = MAX_CHILDREN - 1;

/// One level of a tower on either side: the types of the level in unions of fifteen, whose last
/// member is on the left a type that matches nothing on the right, and on the right a type that
/// everything on the left matches. So each of the left is tried with each of the right before
/// that one, and the comparison goes on up to the last.
struct Tower {
    sides: [Vec<u16>; 2],
    /// What each of the left side matches.
    all: u16,
    level: u16,
}

impl Tower {
    fn rise(&mut self, store: &mut Store) {
        let last = made(store, SET, &[1 + self.level]);
        let mut unions = |types: &[u16], last: u16| {
            let parts = types.chunks(TOWER_WIDTH);
            parts.map(|part| made(store, ANY, &[part, &[last]].concat())).collect::<Vec<u16>>()
        };
        let [left, right] = &self.sides;
        self.sides = [unions(left, last), unions(right, self.all)];
        self.all = made(store, ANY, &[self.all, last]);
        self.level += 1;
    }

    /// Rises until one type is left on either side.
    fn finish(mut self, mut store: Store) -> Hostile {
        while self.sides.iter().any(|side| side.len() > 1) {
            self.rise(&mut store);
        }
        Hostile { store, actual: self.sides[0][0], expected: self.sides[1][0] }
    }
}

/// A union that every union of arrays, of unions of arrays and of maps matches, so many unions
/// deep: an array of Null and a map of Null in the lowest.
fn taking_all(store: &mut Store, unions: usize) -> u16 {
    let lowest = [empty_array(store), made(store, MAP, &[NULL.into(); 2])];
    let lowest = made(store, ANY, &lowest);
    (1..unions).fold(lowest, |union, _| made(store, ANY, &[union]))
}

/// 1,400 unions, each of fourteen of forty arrays, an array of Null, which every array matches,
/// and a map of its own, below a tower that has them all on both sides. Of two of these unions
/// the fifteen arrays match, and the map, which comes last, does not: two million pairs of unions
/// and as many of maps, each of which is a no found with the last member.
pub fn unions_of_arrays() -> Hostile {
    let (mut store, mut random) = (Store::default(), Random::new(4));
    let arrays = arrays(&mut store, 40);
    let empty = empty_array(&mut store);
    let maps = maps(&mut store, &arrays, 1_400);
    let unions = different(&mut store, maps.len(), ANY, |place| {
        [sample(&mut random, &arrays, 14), vec![empty, maps[place]]].concat()
    });
    let all = taking_all(&mut store, 1);
    Tower { sides: [unions.clone(), unions], all, level: 0 }.finish(store)
}

/// Forty unions of twelve of twenty arrays each, and one of an array of Null, which all these
/// match; and so many unions of fourteen of the forty, that one, and a map of its own.
fn unions_of_unions(store: &mut Store, random: &mut Random, count: usize) -> Vec<u16> {
    let arrays = arrays(store, 20);
    let inner = different(store, 40, ANY, |_| sample(random, &arrays, 12));
    let empty = empty_array(store);
    let empty = made(store, ANY, &[empty]);
    let maps = maps(store, &inner, count);
    different(store, count, ANY, |place| {
        [sample(random, &inner, 14), vec![empty, maps[place]]].concat()
    })
}

/// As `unions_of_arrays`, with 1,370 unions whose members are unions themselves: a map is looked
/// for in the members of members.
pub fn unions_two_deep() -> Hostile {
    let (mut store, mut random) = (Store::default(), Random::new(5));
    let unions = unions_of_unions(&mut store, &mut random, 1_370);
    let all = taking_all(&mut store, 2);
    Tower { sides: [unions.clone(), unions], all, level: 0 }.finish(store)
}

/// 760 such unions, on the left in unions of fifteen, on the right in 860, each of fifteen drawn
/// among them: every union on the left meets every one of the 860, and each time fifteen unions
/// are compared again of which sixteen members are looked up, the last of which fails, unless
/// answers for pairs of unions are kept too.
pub fn many_containers() -> Hostile {
    let (mut store, mut random) = (Store::default(), Random::new(5));
    let unions = unions_of_unions(&mut store, &mut random, 760);
    let all = taking_all(&mut store, 2);
    let right = different(&mut store, 860, ANY, |_| {
        [sample(&mut random, &unions, TOWER_WIDTH), vec![all]].concat()
    });
    let mut tower = Tower { sides: [unions, Vec::new()], all, level: 0 };
    tower.rise(&mut store);
    tower.sides[1] = right;
    tower.finish(store)
}

/// 1,300 tuples of fifteen children that are Null or an array of Null, and one of forty arrays,
/// below a tower that has them all on both sides. Of two different ones fifteen children match,
/// and the last does not, not even where it is the same: neither is an array of Null.
pub fn tuples_below() -> Hostile {
    let (mut store, mut random) = (Store::default(), Random::new(6));
    let arrays = arrays(&mut store, 40);
    let nothing = [NULL.into(), empty_array(&mut store)];
    let tuples = different(&mut store, 1_300, TUPLE, |_| {
        [draw(&mut random, &nothing, 15), draw(&mut random, &arrays, 1)].concat()
    });
    // Every tuple matches the one without children.
    let none = made(&mut store, TUPLE, &[]);
    let all = made(&mut store, ANY, &[none]);
    Tower { sides: [tuples.clone(), tuples], all, level: 0 }.finish(store)
}

/// As `tuples_below`, with 3,400 tuples, nearly as many as a store takes beside the tower, of five
/// children that are Null, an array of Null or a const one, and one of sixty arrays: seven times
/// as many pairs, each with less to do.
pub fn short_tuples() -> Hostile {
    let (mut store, mut random) = (Store::default(), Random::new(7));
    let arrays = arrays(&mut store, 60);
    let nothing = [NULL.into(), empty_array(&mut store), made(&mut store, CARRAY, &[NULL.into()])];
    let tuples = different(&mut store, 3_400, TUPLE, |_| {
        [draw(&mut random, &nothing, 5), draw(&mut random, &arrays, 1)].concat()
    });
    let none = made(&mut store, TUPLE, &[]);
    let all = made(&mut store, ANY, &[none]);
    Tower { sides: [tuples.clone(), tuples], all, level: 0 }.finish(store)
}

/// 3,364 maps, whose keys are 58 tuples that match each other and whose values are 58 arrays of
/// which no two do, below a tower that has them all on both sides: of two different maps the keys
/// match, and the values do not.
pub fn many_maps() -> Hostile {
    let (mut store, mut random) = (Store::default(), Random::new(8));
    let arrays = arrays(&mut store, 58);
    let nothing = [NULL.into(), empty_array(&mut store)];
    let keys = different(&mut store, 58, TUPLE, |_| draw(&mut random, &nothing, 16));
    let pairs = keys.iter().flat_map(|&key| arrays.iter().map(move |&value| [key, value]));
    let maps: Vec<u16> = pairs.map(|pair| made(&mut store, MAP, &pair)).collect();
    let all = taking_all(&mut store, 1);
    Tower { sides: [maps.clone(), maps], all, level: 0 }.finish(store)
}

/// How many rungs the ladder below has, and how high its chains are.
const RUNGS: usize = 14;
const CHAIN: usize = 13;

/// A ladder of fourteen unions, an array of Null in the lowest and in each other the one before:
/// each is matched by a member of the ones above it, and of no other. 1,651 unions, each of an
/// array, the fourteen rungs from the lowest on, and last the union before it in a chain of
/// thirteen, or at a chain's foot a map of the chain's own; below a tower that has them all on
/// both sides. No union of a chain matches one of another chain, and all these pairs meet: of the
/// one, tried with the members of the other, a member more must be looked up with each rung
/// before one fails, 136 in all. Here a union is tried as a member and has members tried, while
/// in `many_containers` there are unions for the one and unions for the other.
pub fn ladder() -> Hostile {
    let mut store = Store::default();
    let mut rungs = vec![empty_array(&mut store)];
    for place in 0..RUNGS {
        let below = rungs[place];
        rungs.push(made(&mut store, ANY, &[below]));
    }
    rungs[0] = made(&mut store, ARRAY, &[1]);
    let kinds: Vec<u16> = (1..=KINDS).collect();
    let mut unions = Vec::new();
    for foot in maps(&mut store, &kinds, 127) {
        let mut last = foot;
        for _ in 0..CHAIN {
            last = made(&mut store, ANY, &[&rungs[..], &[last]].concat());
            unions.push(last);
        }
    }
    let all = taking_all(&mut store, RUNGS + CHAIN);
    Tower { sides: [unions.clone(), unions], all, level: 0 }.finish(store)
}
