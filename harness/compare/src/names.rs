//! The model of the names table. The Rust has no such table, so this is written
//! from document 01, section Names, and from nothing else.

use crate::call::{Given, Outcome};
use crate::limits::{
    ABSENT, BROKEN_TABLE, MALFORMED_NAME, MAX_NAMES, MAX_NAME_BYTES, NOT_IN_USE, NO_ROOM,
};

/// The names of a table in the order of their numbers.
#[derive(Debug, Clone, PartialEq, Eq, Default)]
pub struct Names(pub Vec<Vec<u8>>);

impl Names {
    /// Reads a page; `None` where it is not in form.
    pub fn read(page: &[u8]) -> Option<Self> {
        let (count, mut rest) = page.split_first_chunk::<2>()?;
        let count = usize::from(u16::from_be_bytes(*count));
        if count > MAX_NAMES {
            return None;
        }

        let mut names = Vec::new();
        for _ in 0..count {
            let (length, tail) = rest.split_first()?;
            let (name, tail) = tail.split_at_checked(usize::from(*length))?;
            if !is_name(name) || names.iter().any(|earlier| earlier == name) {
                return None;
            }
            names.push(name.to_vec());
            rest = tail;
        }

        rest.iter().all(|&byte| byte == 0).then_some(Self(names))
    }

    /// Writes a page of `length` bytes; `None` where the names do not fit.
    pub fn write(&self, length: usize) -> Option<Vec<u8>> {
        let mut page = (self.0.len() as u16).to_be_bytes().to_vec();
        for name in &self.0 {
            page.push(name.len() as u8);
            page.extend(name);
        }
        if page.len() > length {
            return None;
        }
        page.resize(length, 0);
        Some(page)
    }

    /// The names as the oracle takes them.
    pub fn strings(&self) -> Vec<String> {
        self.0.iter().map(|name| String::from_utf8(name.clone()).expect("ASCII")).collect()
    }

    fn number(&self, name: &[u8]) -> Option<u32> {
        self.0.iter().position(|known| known == name).map(|number| number as u32)
    }
}

/// "1 to 31 bytes: ASCII letters, digits, underscore, not a digit first."
pub fn is_name(name: &[u8]) -> bool {
    (1..=MAX_NAME_BYTES).contains(&name.len())
        && name.iter().all(|&byte| byte.is_ascii_alphanumeric() || byte == b'_')
        && !name[0].is_ascii_digit()
}

pub fn empty_names(page: &[u8]) -> Outcome {
    let page = Names::default().write(page.len()).ok_or(BROKEN_TABLE)?;
    Ok(Given { page, ..Given::default() })
}

pub fn add_name(page: &[u8], name: &[u8]) -> Outcome {
    let mut names = table_and_name(page, name)?;
    if let Some(number) = names.number(name) {
        return Ok(Given { value: number, page: page.to_vec(), ..Given::default() });
    }

    let number = names.0.len();
    if number == MAX_NAMES {
        return Err(NO_ROOM);
    }
    names.0.push(name.to_vec());
    let page = names.write(page.len()).ok_or(NO_ROOM)?;
    Ok(Given { value: number as u32, page, ..Given::default() })
}

pub fn find_name(page: &[u8], name: &[u8]) -> Outcome {
    let names = table_and_name(page, name)?;
    Ok(Given { value: names.number(name).unwrap_or(ABSENT), ..Given::default() })
}

pub fn read_name(page: &[u8], number: u32) -> Outcome {
    let names = Names::read(page).ok_or(BROKEN_TABLE)?;
    let name = names.0.get(number as usize).ok_or(NOT_IN_USE)?;
    Ok(Given { value: name.len() as u32, out: name.clone(), ..Given::default() })
}

/// The table, where it and the name are in form: the table is judged first.
fn table_and_name(page: &[u8], name: &[u8]) -> Result<Names, u32> {
    let names = Names::read(page).ok_or(BROKEN_TABLE)?;
    if is_name(name) {
        Ok(names)
    } else {
        Err(MALFORMED_NAME)
    }
}

#[cfg(test)]
mod tests {
    use super::*;

    #[test]
    fn a_page_in_form_is_read_and_written_back() {
        let page = *b"\x00\x02\x01m\x02mm\x00\x00";
        let names = Names::read(&page).expect("in form");
        assert_eq!(names.0, [b"m".to_vec(), b"mm".to_vec()]);
        assert_eq!(names.write(page.len()), Some(page.to_vec()));
        assert_eq!(names.write(6), None);
    }

    #[test]
    fn each_breach_of_the_form_is_seen() {
        let breaches: [&[u8]; 9] = [
            b"",
            b"\x00",
            b"\x01\x01",
            b"\x00\x01",
            b"\x00\x01\x02m",
            b"\x00\x01\x00",
            b"\x00\x01\x012",
            b"\x00\x02\x01m\x01m",
            b"\x00\x01\x01m\x00\x01",
        ];
        for page in breaches {
            assert_eq!(Names::read(page), None, "{page:?}");
        }
    }

    #[test]
    fn a_new_name_needs_a_place_and_a_known_one_does_not() {
        let page = b"\x00\x01\x01m\x00";
        assert_eq!(add_name(page, b"s").unwrap_err(), NO_ROOM);
        assert_eq!(add_name(page, b"m").unwrap().value, 0);
        let longer = add_name(b"\x00\x01\x01m\x00\x00", b"s").unwrap();
        assert_eq!((longer.value, longer.page.as_slice()), (1, &b"\x00\x02\x01m\x01s"[..]));
    }
}
