//! Bindings: "up to 32 names with their types, no name twice".

use super::store::Store;
use crate::limits::{Refusal, BINDINGS_BYTES, MAX_BINDINGS, NO_ROOM};

/// Names with their types, in the order in which they were bound.
#[derive(Debug, Clone, PartialEq, Eq, Default)]
pub struct Bindings(pub Vec<(u8, u16)>);

impl Bindings {
    /// Reads the bytes, where so many names are in use; `None` where they are not in form.
    pub fn read(bytes: &[u8; BINDINGS_BYTES], store: &Store, names: usize) -> Option<Self> {
        let count = usize::from(bytes[0]);
        if count > MAX_BINDINGS {
            return None;
        }
        let mut bindings = Self::default();
        for place in 0..count {
            let name = bytes[name_at(place)];
            let at = type_at(place);
            let number = u16::from_be_bytes([bytes[at], bytes[at + 1]]);
            let known = usize::from(name) < names && store.in_use(number.into());
            if !known || bindings.get(name).is_some() {
                return None;
            }
            bindings.0.push((name, number));
        }
        Some(bindings)
    }

    /// The bytes, where what stands past the count is as before.
    pub fn write(&self, before: &[u8; BINDINGS_BYTES]) -> [u8; BINDINGS_BYTES] {
        let mut bytes = *before;
        bytes[0] = self.0.len() as u8;
        for (place, (name, number)) in self.0.iter().enumerate() {
            bytes[name_at(place)] = *name;
            bytes[type_at(place)..][..2].copy_from_slice(&number.to_be_bytes());
        }
        bytes
    }

    /// The type that a name is bound to.
    pub fn get(&self, name: u8) -> Option<u16> {
        self.0.iter().find(|bound| bound.0 == name).map(|bound| bound.1)
    }

    /// Binds a name that is not bound.
    pub fn push(&mut self, name: u8, number: u16) -> Result<(), Refusal> {
        if self.0.len() == MAX_BINDINGS {
            return Err(NO_ROOM);
        }
        self.0.push((name, number));
        Ok(())
    }
}

/// Where the name at a place stands.
pub fn name_at(place: usize) -> usize {
    1 + place
}

/// Where its type stands.
pub fn type_at(place: usize) -> usize {
    1 + MAX_BINDINGS + 2 * place
}
