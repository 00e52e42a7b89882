//! A cache that is changed by chance, of keys that begin alike in groups.

use crate::cases::Load;
use crate::keys::Chance;
use crate::rows::remove;
use crate::stores::Store;
use crate::Outcome;

// How many keys a group has room for. Half of the places are taken, so a step in sixteen removes the last key of its
// group.
const PLACES: usize = 4;

const GROUP_BYTES: usize = 32;
const KEY_BYTES: usize = 40;

// The bytes with which all keys of a group begin.
type Group = [u8; GROUP_BYTES];

type Key = [u8; KEY_BYTES];

/// A cache with places for keys, of which half are taken by chance, at the beginning and after any number of steps. The
/// keys of a group begin with the same 32 bytes, which are chosen again when the group has become empty: two keys of a
/// group are in a layer four layers below the first, which no other group uses.
pub struct Cache {
    chance: Chance,
    groups: Vec<Group>,
    // Those of the first group come first.
    places: Vec<Option<Key>>,
}

fn new_group(chance: &mut Chance) -> Group {
    let mut group = [0; GROUP_BYTES];
    for part in group.chunks_exact_mut(8) {
        part.copy_from_slice(&chance.number().to_be_bytes());
    }
    group
}

impl Cache {
    /// A cache of about so many rows.
    pub fn new(rows: usize) -> Cache {
        let mut chance = Chance::new(88_172_645_463_325_252);
        let count = (2 * rows).div_ceil(PLACES);
        let groups = (0..count).map(|_| new_group(&mut chance)).collect();
        let places = vec![None; count * PLACES];
        Cache {
            chance,
            groups,
            places,
        }
    }

    fn put<S: Store>(&mut self, store: &S, place: usize) -> Outcome<()> {
        let mut key = [0; KEY_BYTES];
        let (begin, end) = key.split_at_mut(GROUP_BYTES);
        begin.copy_from_slice(&self.groups[place / PLACES]);
        end.copy_from_slice(&self.chance.number().to_be_bytes());
        store.put(&key, &self.chance.number().to_be_bytes())?;
        self.places[place] = Some(key);
        Ok(())
    }

    // Takes another beginning for a group that has become empty.
    fn renew(&mut self, group: usize) {
        let begin = group * PLACES;
        let places = &self.places[begin..begin + PLACES];
        if places.iter().all(Option::is_none) {
            self.groups[group] = new_group(&mut self.chance);
        }
    }
}

impl Load for Cache {
    fn fill<S: Store>(&mut self, store: &S) -> Outcome<()> {
        for place in 0..self.places.len() {
            if self.chance.number() >> 63 == 0 {
                self.put(store, place)?;
            }
        }
        Ok(())
    }

    /// An operation: a remove of the key at a place by chance, or a put of a new key where there is none.
    fn step<S: Store>(&mut self, store: &S) -> Outcome<()> {
        let place = (self.chance.number() % self.places.len() as u64) as usize;
        match self.places[place].take() {
            None => self.put(store, place),
            Some(key) => {
                self.renew(place / PLACES);
                remove(store, &key)
            }
        }
    }
}
