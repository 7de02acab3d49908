//! The chosen rows of the names table.

use crate::call::Question;
use crate::inputs::names::{shortest_names, table, table_on};
use crate::limits::{MAX_NAMES, MAX_NAME_BYTES};

pub fn chosen() -> Vec<Question> {
    [short_pages(), emptied_pages(), broken_pages(), words(), room(), numbers(), full_tables()]
        .concat()
}

/// Pages of 0, 1 and 2 bytes for every call that is lent one.
fn short_pages() -> Vec<Question> {
    let pages: [&[u8]; 7] = [b"", b"\0", b"\xFF", b"\0\0", b"\0\x01", b"\x01\0", b"\xFF\xFF"];
    let ask = |page| {
        [
            Question::empty_names(page),
            Question::add_name(page, b"m"),
            Question::find_name(page, b"m"),
            Question::read_name(page, 0),
        ]
    };
    // A text row is large, so one page of each length must do.
    let ask_text = |page| Question::unit_text(page, &[0]);
    let texts = [b"" as &[u8], b"\0", b"\0\0", b"\0\x01"].map(ask_text);
    pages.into_iter().flat_map(ask).chain(texts).collect()
}

/// Any page of two bytes or more can be emptied, one out of form too.
fn emptied_pages() -> Vec<Question> {
    vec![
        Question::empty_names(&[0; 9]),
        Question::empty_names(&[255; 9]),
        Question::empty_names(&table_on(&["m", "s"], 12)),
        Question::empty_names(&table_on(&["m", "m"], 0)),
    ]
}

/// Each breach of a page's form, which comes before a malformed name or a
/// number not in use.
fn broken_pages() -> Vec<Question> {
    let pages: [&[u8]; 16] = [
        b"\x00\x01",                                     // the name is not there
        b"\x00\x01\x00",                                 // a name of no bytes
        b"\x00\x01\x01",                                 // the name's bytes are not there
        b"\x00\x01\x03mm",                               // the name is cut
        b"\x00\x02\x01m",                                // the second name is not there
        b"\x00\x02\x01m\x02s",                           // the second name is cut
        b"\x00\x01\x012",                                // a digit first
        b"\x00\x01\x03m-s",                              // a byte that no name has
        b"\x00\x01\x02m\xC3",                            // a byte past ASCII
        b"\x00\x01\x20mmmmmmmmmmmmmmmmmmmmmmmmmmmmmmmm", // 32 bytes
        b"\x00\x02\x01m\x01m",                           // equal names
        b"\x00\x03\x01s\x02mm\x01s\x00",                 // equal names apart
        b"\x00\x00\x01",                                 // not zero after the last
        b"\x00\x01\x01m\x00\x00\x01",                    // not zero at the end
        b"\x01\x01\x01m\x00\x00",                        // 257 names
        b"\xFF\xFF\x01m\x00\x00",
    ];
    let ask = |page| {
        [
            Question::add_name(page, b"new"),
            Question::find_name(page, b"2"),
            Question::read_name(page, 9),
        ]
    };
    pages.into_iter().flat_map(ask).collect()
}

/// Words that are names and words that are not, found, absent and added.
fn words() -> Vec<Question> {
    let page = table_on(&["mm", "m", "M", "_m", "m1"], 24);
    let words: [&[u8]; 24] = [
        b"mm",
        b"m",
        b"M",
        b"_m",
        b"m1", // known
        b"mmm",
        b"MM",
        b"_",
        b"__",
        b"m_",
        b"_1",
        b"Z",
        b"z9", // new
        b"",
        b"2mm",
        b"9",
        b"m m",
        b"m-",
        b"m\0",
        b"\0",
        b"m\xC3\xB5",
        b"@",
        b"[",
        b"`{", // malformed
    ];
    let ask = |word: &[u8]| [Question::add_name(&page, word), Question::find_name(&page, word)];
    let mut questions: Vec<Question> = words.into_iter().flat_map(ask).collect();
    for length in [MAX_NAME_BYTES - 1, MAX_NAME_BYTES, MAX_NAME_BYTES + 1, 256 + 1] {
        let word = vec![b'n'; length];
        questions.push(Question::add_name(&[0; 40], &word));
        questions.push(Question::find_name(&[0; 4], &word));
    }
    questions
}

/// A new name where the page has just the room, one byte less and one more;
/// a known name where it has none.
fn room() -> Vec<Question> {
    let mut questions = Vec::new();
    for length in 5..=10 {
        let page = table_on(&["m"], length);
        questions.push(Question::add_name(&page, b"mm"));
        questions.push(Question::add_name(&page, b"s"));
        questions.push(Question::add_name(&page, b"m"));
        questions.push(Question::add_name(&page, b"2"));
    }
    for length in 2..=5 {
        questions.push(Question::add_name(&vec![0; length], b"m"));
    }
    for length in 33..=35 {
        questions.push(Question::add_name(&vec![0; length], &[b'n'; MAX_NAME_BYTES]));
    }
    questions
}

/// Names read by number: each of a table, the longest, and numbers not in use.
fn numbers() -> Vec<Question> {
    let page = table_on(&["mm", "in", "stitch", "_", "Nm2"], 30);
    let mut questions: Vec<Question> = [0, 1, 2, 3, 4, 5, 6, 255, 256, 257, 65_535]
        .map(|number| Question::read_name(&page, number))
        .to_vec();
    for length in [MAX_NAME_BYTES - 1, MAX_NAME_BYTES] {
        questions.push(Question::read_name(&table(&[vec![b'n'; length]]), 0));
    }
    questions.push(Question::read_name(&[0; 5], 0));
    questions
}

/// A handful of rows with about 256 names, the shortest so that they stay small.
fn full_tables() -> Vec<Question> {
    let names = shortest_names(MAX_NAMES + 1);
    let (last, next) = (&names[MAX_NAMES - 1], &names[MAX_NAMES]);
    let full = table(&names[..MAX_NAMES]);
    let full_with_room = [full.clone(), vec![0; 4]].concat();
    let one_left = [table(&names[..MAX_NAMES - 1]), vec![0; 3]].concat();
    let past_full = table(&names);
    vec![
        Question::add_name(&one_left, last),
        Question::add_name(&full_with_room, next),
        Question::add_name(&full, last),
        Question::find_name(&full, last),
        Question::read_name(&full, 255),
        Question::read_name(&full, 256),
        Question::find_name(&past_full, last),
    ]
}
