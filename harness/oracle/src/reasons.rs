//! The messages of the operators and of indexing as document 01's reason numbers.

use rl_utils::errors::Error;

/// Some members fail.
pub const SOME_MEMBERS: u8 = 7;

/// How the messages of the reasons begin, but for those that begin with the operator's name.
const BEGINNINGS: [(&str, u8); 11] = [
    ("type mismatch on ", 1),
    ("unit mismatch on ", 2),
    ("expected bool on the left side of ", 3),
    ("expected bool on the right side of ", 4),
    ("unknown binary operator ", 5),
    ("unknown unary operator ", 5),
    ("cannot negate a uint value ", 6),
    ("invalid index operation for every member of the union: ", SOME_MEMBERS),
    ("invalid index operation for union", 8),
    ("map key type mismatch: ", 9),
    ("invalid index operation: ", 10),
];

/// An error's reason. Where some members fail, `failing` says how many, and `first` is the
/// first of them as the message prints it: a member, or the left and the right one of a pair.
#[derive(Debug, Clone, PartialEq, Eq)]
pub struct Reason {
    pub number: u8,
    pub failing: usize,
    pub first: Vec<String>,
}

impl Reason {
    pub fn of(error: &Error) -> Self {
        let message = error.message.as_str();
        let number =
            number_of(message).unwrap_or_else(|| panic!("an error of no reason: {message}"));
        if number != SOME_MEMBERS {
            return Self { number, failing: 0, first: Vec::new() };
        }
        // A printed type has no colon.
        let (_, members) = message.rsplit_once(": ").expect("the failing members");
        let members = outer_parts(members, ", ");
        let first = match outer_parts(members[0], " ")[..] {
            [member] => vec![member.to_owned()],
            [left, _, right] => vec![left.to_owned(), right.to_owned()],
            _ => panic!("neither a member nor a pair: {}", members[0]),
        };
        Self { number, failing: members.len(), first }
    }
}

fn number_of(message: &str) -> Option<u8> {
    if let Some((_, rest)) = message.strip_prefix("operator ").and_then(|op| op.split_once(' ')) {
        let of_members = rest.starts_with("not supported for every member of ");
        return Some(if of_members { SOME_MEMBERS } else { 8 });
    }
    let begins = |(beginning, _): &&(&str, u8)| message.starts_with(beginning);
    BEGINNINGS.iter().find(begins).map(|&(_, number)| number)
}

/// The parts of a text at the separators that stand in no brackets.
fn outer_parts<'a>(text: &'a str, separator: &str) -> Vec<&'a str> {
    let (mut parts, mut start, mut depth) = (Vec::new(), 0, 0);
    for (place, byte) in text.bytes().enumerate() {
        match byte {
            b'(' | b'[' => depth += 1,
            b')' | b']' => depth -= 1,
            _ if depth == 0 && place >= start && text[place..].starts_with(separator) => {
                parts.push(&text[start..place]);
                start = place + separator.len();
            }
            _ => {}
        }
    }
    parts.push(&text[start..]);
    parts
}

#[cfg(test)]
mod tests {
    use super::*;

    fn reason(message: &str) -> (u8, usize, Vec<String>) {
        let Reason { number, failing, first } = Reason::of(&Error { message: message.to_owned() });
        (number, failing, first)
    }

    #[test]
    fn failing_members_are_counted_and_the_first_is_found() {
        let pairs = "operator <= not supported for every member of Any([Map(Int, Int), Bool]) \
                     and Int: Map(Int, Int) <= Int, Bool <= Int";
        let first = vec!["Map(Int, Int)".to_owned(), "Int".to_owned()];
        assert_eq!(reason(pairs), (7, 2, first));
        let members = "invalid index operation for every member of the union: \
                       Callback([Int, Int], Bool), Any([]), Record(\"a\")";
        assert_eq!(reason(members), (7, 3, vec!["Callback([Int, Int], Bool)".to_owned()]));
    }

    #[test]
    fn messages_that_begin_alike_are_told_apart() {
        assert_eq!(reason("operator ? not supported for Any([])").0, 8);
        assert_eq!(reason("invalid index operation for union").0, 8);
        assert_eq!(reason("invalid index operation: this is Int").0, 10);
    }
}
