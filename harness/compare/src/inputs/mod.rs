//! The questions of a comparison: short ones exhaustively, random ones around
//! every limit, and damaged ones. All follow from the seed.

pub mod answers;
pub mod formulas;
pub mod names;
pub mod pairs;
pub mod types;
pub mod units;
pub mod unused;

use crate::call::{Answer, Question};
use crate::random::Random;

/// Where the questions go, one by one: there are too many to keep. What comes
/// back is the expected answer.
pub type Sink<'a> = &'a mut dyn FnMut(Question) -> Answer;

/// All questions; `rounds` says how many random ones each call gets.
pub fn questions(seed: u64, rounds: usize, ask: Sink) {
    let mut random = Random::new(seed);
    names::questions(&mut random, rounds, ask);
    units::questions(&mut random, rounds, ask);
    pairs::questions(&mut random, rounds, ask);
    types::questions(&mut random, rounds, ask);
    answers::questions(&mut random, rounds, ask);
    types::layers::shallow(&mut random, rounds, ask);
}

/// Good bytes harmed in every place: each byte changed in several ways, the
/// bytes cut at each length, and extended.
pub fn damaged_everywhere(bytes: &[u8], random: &mut Random) -> Vec<Vec<u8>> {
    let mut all = Vec::new();
    for place in 0..bytes.len() {
        all.push(bytes[..place].to_vec());
        let old = bytes[place];
        // One up and down, the other case of a letter, the sign, the extremes.
        for new in [
            old.wrapping_add(1),
            old.wrapping_sub(1),
            old ^ 0x20,
            old ^ 0x80,
            0,
            255,
            random.byte(),
        ] {
            let mut changed = bytes.to_vec();
            changed[place] = new;
            all.push(changed);
        }
    }
    for extra in [&[0][..], &[1], &[255], &[0, 0, 0], &[0, 1, 0], &[0, 0, 1]] {
        all.push([bytes, extra].concat());
    }
    all
}

/// Good bytes harmed once.
pub fn damaged_somewhere(bytes: &[u8], random: &mut Random) -> Vec<u8> {
    let mut bytes = bytes.to_vec();
    match random.below(4) {
        0 => bytes.truncate(random.below(bytes.len() + 1)),
        1 => bytes.push(*random.pick(&[0, 1, 255])),
        _ if bytes.is_empty() => bytes.push(random.byte()),
        2 => {
            let place = random.below(bytes.len());
            bytes[place] = random.byte();
        }
        _ => {
            let place = random.below(bytes.len());
            bytes[place] = bytes[place].wrapping_add(*random.pick(&[1, 255]));
        }
    }
    bytes
}

/// All byte strings of up to two bytes.
pub fn short_strings() -> Vec<Vec<u8>> {
    let mut all = vec![Vec::new()];
    all.extend((0..=255).map(|byte| vec![byte]));
    all.extend((0..=u16::MAX).map(|word| word.to_be_bytes().to_vec()));
    all
}

#[cfg(test)]
mod tests {
    use super::*;
    use crate::call::{all_outcomes, all_reasons, reasons_of, Call};
    use crate::expected::expected;
    use std::collections::BTreeSet;
    use std::hash::{DefaultHasher, Hash, Hasher};

    /// The outcomes and the reasons that all questions meet.
    #[derive(Default)]
    struct Met {
        outcomes: BTreeSet<(Call, u32)>,
        reasons: BTreeSet<(Call, u8)>,
    }

    /// A digest of all questions, and what they meet.
    fn digest(seed: u64) -> (u64, Met) {
        let mut hasher = DefaultHasher::new();
        let mut met = Met::default();
        questions(seed, 500, &mut |question| {
            question.hash(&mut hasher);
            let answer = expected(&question);
            met.outcomes.insert((question.call, answer.refusal));
            met.reasons.extend(reasons_of(question.call, &answer));
            answer
        });
        (hasher.finish(), met)
    }

    #[test]
    fn a_seed_gives_the_same_questions_and_they_meet_every_outcome() {
        let (first, met) = digest(1);
        assert_eq!(met.outcomes, all_outcomes());
        assert_eq!(met.reasons, all_reasons());
        assert_eq!(digest(1).0, first);
        assert_ne!(digest(2).0, first);
    }
}
