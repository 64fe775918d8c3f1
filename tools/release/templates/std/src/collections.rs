//! Maps and sets in order, whose growth can fail. Rust's own have no call that answers when there is no memory; here the entries are in
//! short lists, one after another, all in the order of their keys. So a new entry moves few others, however many there are.

use crate::alloc::{AllocFailed, Global};
use core::borrow::Borrow;
use memory::vec::Vec;

/// The most entries of one list. A full one is parted in two.
const MOST: usize = 64;

/// A map in the order of its keys.
pub struct BTreeMap<K, V> {
    /// None of them is empty.
    lists: Vec<Vec<(K, V)>>,
}

impl<K: Ord, V> BTreeMap<K, V> {
    /// The empty map. It allocates nothing.
    pub const fn new(_: Global) -> BTreeMap<K, V> {
        BTreeMap { lists: Vec::new() }
    }

    /// The list that has a key, or in which it would be: the last that begins with no greater key, or the first.
    fn list<Q: Ord + ?Sized>(&self, key: &Q) -> usize
    where
        K: Borrow<Q>,
    {
        self.lists
            .partition_point(|list| list[0].0.borrow() <= key)
            .saturating_sub(1)
    }

    /// Where a key is, or would be.
    fn place<Q: Ord + ?Sized>(&self, list: usize, key: &Q) -> Result<usize, usize>
    where
        K: Borrow<Q>,
    {
        match self.lists.get(list) {
            Some(entries) => entries.binary_search_by(|entry| entry.0.borrow().cmp(key)),
            None => Err(0),
        }
    }

    /// Makes room for one entry at a place of a list. Gives the list and the place where it goes then, or `None` without memory.
    fn room(&mut self, list: usize, place: usize) -> Option<(usize, usize)> {
        if self.lists.is_empty() {
            self.lists.try_reserve(1).ok()?;
            self.lists.push(Vec::new());
        }
        if self.lists[list].len() < MOST {
            self.lists[list].try_reserve(1).ok()?;
            return Some((list, place));
        }
        // Keys that come in their order fill one list after another.
        let kept = if list + 1 == self.lists.len() && place == MOST {
            MOST
        } else {
            MOST / 2
        };
        let mut behind = Vec::new();
        behind.try_reserve(MOST - kept + 1).ok()?;
        self.lists.try_reserve(1).ok()?;
        behind.extend(self.lists[list].drain(kept..));
        self.lists.insert(list + 1, behind);
        if place < kept || (place == kept && kept < MOST) {
            Some((list, place))
        } else {
            Some((list + 1, place - kept))
        }
    }

    /// Gives a key a value, and answers the one before.
    pub fn insert(&mut self, key: K, value: V) -> Result<Option<V>, AllocFailed<(K, V)>> {
        let list = self.list(&key);
        match self.place(list, &key) {
            Ok(place) => Ok(Some(core::mem::replace(
                &mut self.lists[list][place].1,
                value,
            ))),
            Err(place) => match self.room(list, place) {
                Some((list, place)) => {
                    self.lists[list].insert(place, (key, value));
                    Ok(None)
                }
                None => {
                    // An empty list that was made for it alone is removed.
                    self.lists.retain(|entries| !entries.is_empty());
                    Err(AllocFailed((key, value)))
                }
            },
        }
    }

    /// The value of a key.
    pub fn get<Q: Ord + ?Sized>(&self, key: &Q) -> Option<&V>
    where
        K: Borrow<Q>,
    {
        let list = self.list(key);
        let place = self.place(list, key).ok()?;
        Some(&self.lists[list][place].1)
    }

    /// Whether a key has a value.
    pub fn contains_key<Q: Ord + ?Sized>(&self, key: &Q) -> bool
    where
        K: Borrow<Q>,
    {
        self.place(self.list(key), key).is_ok()
    }
}

/// A set, in order.
pub struct BTreeSet<K> {
    map: BTreeMap<K, ()>,
}

impl<K: Ord> BTreeSet<K> {
    /// The empty set. It allocates nothing.
    pub const fn new(alloc: Global) -> BTreeSet<K> {
        BTreeSet {
            map: BTreeMap::new(alloc),
        }
    }

    /// Puts a key into the set. Says whether it is new.
    pub fn insert(&mut self, key: K) -> Result<bool, AllocFailed<K>> {
        match self.map.insert(key, ()) {
            Ok(old) => Ok(old.is_none()),
            Err(AllocFailed((key, ()))) => Err(AllocFailed(key)),
        }
    }

    /// Whether a key is in the set.
    pub fn contains<Q: Ord + ?Sized>(&self, key: &Q) -> bool
    where
        K: Borrow<Q>,
    {
        self.map.contains_key(key)
    }
}
