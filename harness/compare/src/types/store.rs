//! The store of types in a page, written from document 01, section Types, and
//! from nothing else.

use crate::limits::{
    Refusal, FIXED_TYPES, MAX_CHILDREN, MAX_DEPTH, MAX_ENTRIES, NO_ROOM, TOO_DEEP,
};
use std::collections::HashMap;
use std::ops::RangeInclusive;

/// The highest kind code.
pub const LAST_KIND: u8 = 37;

pub const CALLBACK: u8 = 31;
pub const GENERIC: u8 = 37;

/// "32 to 37, one name".
pub fn is_named(kind: u8) -> bool {
    (32..=LAST_KIND).contains(&kind)
}

/// How many children a kind takes.
pub fn child_counts(kind: u8) -> RangeInclusive<usize> {
    match kind {
        19..=24 => 1..=1,
        25 | 26 => 2..=2,
        27..=30 => 0..=MAX_CHILDREN,
        CALLBACK => 1..=MAX_CHILDREN,
        _ => 0..=0,
    }
}

/// A type that a store holds: its kind, and its children or its name.
#[derive(Debug, Clone, PartialEq, Eq, Hash)]
pub struct Entry {
    pub kind: u8,
    pub children: Vec<u16>,
    /// The name's number; 0 where the kind has none.
    pub name: u8,
}

impl Entry {
    pub fn of(kind: u8, children: &[u16]) -> Self {
        Self { kind, children: children.to_vec(), name: 0 }
    }

    pub fn named(kind: u8, name: u8) -> Self {
        Self { kind, children: Vec::new(), name }
    }

    /// "A child-count byte (0 beside a name) and a T body", in form or not.
    pub fn bytes(&self) -> Vec<u8> {
        let mut bytes = vec![self.children.len() as u8, self.kind];
        bytes.extend(self.children.iter().flat_map(|child| child.to_be_bytes()));
        if is_named(self.kind) {
            bytes.push(self.name);
        }
        bytes
    }

    /// The entry that the bytes begin with, and those after it; `None` where they
    /// begin with none that has its parts.
    fn read(bytes: &[u8]) -> Option<(Self, &[u8])> {
        let (&[count, kind], rest) = bytes.split_first_chunk::<2>()?;
        let stored = (FIXED_TYPES as u8..=LAST_KIND).contains(&kind);
        if !stored || !child_counts(kind).contains(&usize::from(count)) {
            return None;
        }
        if is_named(kind) {
            let (&name, rest) = rest.split_first()?;
            return Some((Self::named(kind, name), rest));
        }
        let (children, rest) = rest.split_at_checked(2 * usize::from(count))?;
        let children: Vec<u16> =
            children.chunks(2).map(|pair| u16::from_be_bytes([pair[0], pair[1]])).collect();
        Some((Self::of(kind, &children), rest))
    }
}

/// The bytes of any entries up to the last one, in form or not, and zeros up to
/// the given length.
pub fn page_of(entries: &[Entry], length: usize) -> Vec<u8> {
    let mut page = (entries.len() as u16).to_be_bytes().to_vec();
    page.extend(entries.iter().flat_map(Entry::bytes));
    page.resize(length.max(page.len()), 0);
    page
}

/// The types of a store in form.
#[derive(Debug, Clone, Default)]
pub struct Store {
    entries: Vec<Entry>,
    numbers: HashMap<Entry, u16>,
    depths: Vec<usize>,
    /// How many nodes the tree of each has.
    nodes: Vec<usize>,
    /// How many bytes the entries take.
    bytes: usize,
}

impl Store {
    /// Reads a page, where so many names are in use; `None` where it is not in form.
    pub fn read(page: &[u8], names: usize) -> Option<Self> {
        let (count, mut rest) = page.split_first_chunk::<2>()?;
        let count = usize::from(u16::from_be_bytes(*count));
        if count > MAX_ENTRIES {
            return None;
        }
        let mut store = Self::default();
        for _ in 0..count {
            let (entry, tail) = Entry::read(rest)?;
            let known = entry.children.iter().all(|&child| store.in_use(child.into()));
            if !known || (is_named(entry.kind) && usize::from(entry.name) >= names) {
                return None;
            }
            if store.numbers.contains_key(&entry) || store.depth_over(&entry) > MAX_DEPTH {
                return None;
            }
            store.push(entry);
            rest = tail;
        }
        rest.iter().all(|&byte| byte == 0).then_some(store)
    }

    /// The page of the store, of `length` bytes.
    pub fn write(&self, length: usize) -> Vec<u8> {
        page_of(&self.entries, length)
    }

    /// How many types there are, the fixed ones among them.
    pub fn count(&self) -> usize {
        FIXED_TYPES + self.entries.len()
    }

    pub fn in_use(&self, number: u32) -> bool {
        (number as usize) < self.count()
    }

    /// The type of a number in use.
    pub fn entry(&self, number: u16) -> Entry {
        match Self::place(number) {
            Some(place) => self.entries[place].clone(),
            None => Entry::of(number as u8, &[]),
        }
    }

    /// All types by their numbers.
    pub fn all(&self) -> Vec<Entry> {
        (0..self.count()).map(|number| self.entry(number as u16)).collect()
    }

    /// "A childless type has depth 1."
    pub fn depth(&self, number: u16) -> usize {
        Self::place(number).map_or(1, |place| self.depths[place])
    }

    /// How many nodes the tree of a type has: a child counts at each place that it has.
    pub fn nodes(&self, number: u16) -> usize {
        Self::place(number).map_or(1, |place| self.nodes[place])
    }

    /// "Making a type returns the number of its equal, else the next", where a page
    /// of so many bytes has room. The parts are those of the kind, and in use.
    pub fn make(&mut self, entry: Entry, length: usize) -> Result<u16, Refusal> {
        if entry.kind < FIXED_TYPES as u8 {
            return Ok(entry.kind.into());
        }
        if let Some(&number) = self.numbers.get(&entry) {
            return Ok(number);
        }
        if self.depth_over(&entry) > MAX_DEPTH {
            return Err(TOO_DEEP);
        }
        if self.entries.len() == MAX_ENTRIES || 2 + self.bytes + entry.bytes().len() > length {
            return Err(NO_ROOM);
        }
        self.push(entry);
        Ok((self.count() - 1) as u16)
    }

    /// Where a type stands among the entries; `None` for a fixed one.
    fn place(number: u16) -> Option<usize> {
        usize::from(number).checked_sub(FIXED_TYPES)
    }

    /// The depth of a type over children that are there.
    fn depth_over(&self, entry: &Entry) -> usize {
        1 + entry.children.iter().map(|&child| self.depth(child)).max().unwrap_or(0)
    }

    fn push(&mut self, entry: Entry) {
        let nodes = |sum: usize, &child: &u16| sum.saturating_add(self.nodes(child));
        self.nodes.push(entry.children.iter().fold(1, nodes));
        self.depths.push(self.depth_over(&entry));
        self.bytes += entry.bytes().len();
        self.numbers.insert(entry.clone(), self.count() as u16);
        self.entries.push(entry);
    }
}

#[cfg(test)]
mod tests {
    use super::*;
    use crate::limits::MAX_NAMES;

    /// Array Int; Map (String, that); Tuple(); a Record; Generic 1.
    const ENTRIES: &[u8] =
        b"\x00\x05\x01\x13\x00\x01\x02\x19\x00\x09\x00\x13\x00\x1B\x00\x20\x00\x00\x25\x01";

    #[test]
    fn a_page_in_form_is_read_and_written_back() {
        let page = [ENTRIES, &[0; 3]].concat();
        let store = Store::read(&page, 2).expect("in form");
        assert_eq!(store.write(page.len()), page);
        assert_eq!(store.entry(20), Entry::of(25, &[9, 19]));
        assert_eq!((store.depth(9), store.depth(20), store.depth(21)), (1, 3, 1));
        assert_eq!(store.nodes(20), 4);
    }

    #[test]
    fn each_breach_of_the_form_is_seen() {
        assert!(Store::read(&[0, 0], 0).is_some());
        assert!(Store::read(ENTRIES, MAX_NAMES).is_some());
        assert!(Store::read(ENTRIES, 1).is_none(), "a name not in use");
        for length in 0..ENTRIES.len() {
            assert!(Store::read(&ENTRIES[..length], 2).is_none(), "cut at {length}");
        }
        let breaches: [&[u8]; 10] = [
            b"\x00\x01\x00\x12",                 // a fixed kind
            b"\x00\x01\x00\x26",                 // no kind
            b"\x00\x01\x00\x13\x00\x00",         // no child
            b"\x00\x01\x02\x13\x00\x00\x00\x00", // two children
            b"\x00\x01\x01\x13\x00\x13",         // itself
            b"\x00\x01\x01\x20\x00",             // a count beside a name
            b"\x00\x02\x00\x1B\x00\x1B",         // equal entries
            b"\x00\x01\x00\x1B\x00\x01",         // not zero after the last
            b"\x00\x01\x01\x1F",                 // the child is not there
            b"\x0F\xEE\x00\x1B",                 // 4,078 entries
        ];
        for page in breaches {
            assert!(Store::read(page, 2).is_none(), "{page:?}");
        }
    }

    #[test]
    fn a_type_is_made_once_and_within_the_limits() {
        let mut store = Store::default();
        assert_eq!(store.make(Entry::of(9, &[]), 0), Ok(9));
        assert_eq!(store.make(Entry::of(19, &[1]), 5), Err(NO_ROOM));
        assert_eq!(store.make(Entry::of(19, &[1]), 6), Ok(19));
        assert_eq!(store.make(Entry::of(19, &[1]), 0), Ok(19));
        for depth in 2..MAX_DEPTH as u16 {
            assert_eq!(store.make(Entry::of(19, &[17 + depth]), 1_000), Ok(18 + depth));
        }
        assert_eq!(store.make(Entry::of(19, &[49]), 0), Err(TOO_DEEP));
    }
}
