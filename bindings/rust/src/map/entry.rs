//! Entries: the place of a key, looked up once.
use crate::Key;
use crate::error::{AllocError, TryInsertError, or_end};
use crate::map::ArtMap;
use crate::parted::value_of;
use crate::view::index_of;
use std::fmt;

/// The place of a key in a map, which [`ArtMap::entry`] and [`ArtMap::try_entry`] find.
///
/// ```
/// use artmap::{ArtMap, Entry};
///
/// let mut map = ArtMap::from([(1, 'a')]);
/// assert!(matches!(map.entry(1), Entry::Occupied(_)));
/// assert!(matches!(map.entry(2), Entry::Vacant(_)));
/// ```
pub enum Entry<'a, K, V> {
    /// The key is stored.
    Occupied(OccupiedEntry<'a, K, V>),
    /// The key is not stored.
    Vacant(VacantEntry<'a, K, V>),
}

/// The place of a key that is stored.
///
/// ```
/// let mut map = artmap::ArtMap::from([(1, 'a')]);
/// let entry = map.first_entry().unwrap();
/// assert_eq!((entry.key(), entry.get()), (&1, &'a'));
/// ```
pub struct OccupiedEntry<'a, K, V> {
    pub(crate) map: &'a mut ArtMap<K, V>,
    pub(crate) index: usize,
}

/// The place of a key that is not stored.
///
/// ```
/// use artmap::{ArtMap, Entry};
///
/// let mut map = ArtMap::new();
/// if let Entry::Vacant(entry) = map.entry(1) {
///     entry.insert('a');
/// }
/// assert_eq!(map[&1], 'a');
/// ```
pub struct VacantEntry<'a, K, V> {
    map: &'a mut ArtMap<K, V>,
    key: K,
}

impl<'a, K: Key, V> Entry<'a, K, V> {
    pub(crate) fn new(map: &'a mut ArtMap<K, V>, key: K, found: Option<u64>) -> Self {
        match found {
            Some(word) => Entry::Occupied(OccupiedEntry { map, index: index_of(word) }),
            None => Entry::Vacant(VacantEntry { map, key }),
        }
    }

    /// The key: the one that is stored, or the one that was asked for.
    ///
    /// ```
    /// let mut map = artmap::ArtMap::<_, u32>::new();
    /// assert_eq!(map.entry("a").key(), &"a");
    /// ```
    pub fn key(&self) -> &K {
        match self {
            Entry::Occupied(entry) => entry.key(),
            Entry::Vacant(entry) => entry.key(),
        }
    }

    /// Has the value of a key that is stored changed.
    ///
    /// ```
    /// let mut map = artmap::ArtMap::from([("a", 1)]);
    /// map.entry("a").and_modify(|value| *value += 1).or_insert(7);
    /// map.entry("b").and_modify(|value| *value += 1).or_insert(7);
    /// assert!(map.values().eq(&[2, 7]));
    /// ```
    #[must_use]
    pub fn and_modify<F: FnOnce(&mut V)>(mut self, change: F) -> Self {
        if let Entry::Occupied(entry) = &mut self {
            change(entry.get_mut());
        }
        self
    }

    /// Sets the value, and gives the entry.
    ///
    /// ```
    /// let mut map = artmap::ArtMap::new();
    /// assert_eq!(map.entry("a").insert_entry(1).get(), &1);
    /// assert_eq!(map.entry("a").insert_entry(2).get(), &2);
    /// ```
    pub fn insert_entry(self, value: V) -> OccupiedEntry<'a, K, V> {
        match self {
            Entry::Occupied(mut entry) => {
                entry.insert(value);
                entry
            }
            Entry::Vacant(entry) => entry.insert_entry(value),
        }
    }

    /// As [`insert_entry`](Self::insert_entry).
    ///
    /// ```
    /// let mut map = artmap::ArtMap::new();
    /// assert!(map.entry("a").try_insert_entry(1).is_ok_and(|entry| *entry.get() == 1));
    /// ```
    ///
    /// # Errors
    ///
    /// Where memory lacks. The map is as it was, and the pair is handed back.
    pub fn try_insert_entry(self, value: V) -> Result<OccupiedEntry<'a, K, V>, TryInsertError<K, V>> {
        match self {
            Entry::Occupied(mut entry) => {
                entry.insert(value);
                Ok(entry)
            }
            Entry::Vacant(entry) => entry.try_insert_entry(value),
        }
    }

    /// As [`or_insert`](Self::or_insert).
    ///
    /// ```
    /// let mut map = artmap::ArtMap::new();
    /// assert_eq!(map.entry("a").try_or_insert(1), Ok(&mut 1));
    /// assert_eq!(map.entry("a").try_or_insert(2), Ok(&mut 1));
    /// ```
    ///
    /// # Errors
    ///
    /// Where memory lacks. The map is as it was, and the pair is handed back.
    pub fn try_or_insert(self, value: V) -> Result<&'a mut V, TryInsertError<K, V>> {
        self.try_or_insert_with(|| value)
    }

    /// As [`or_insert_with`](Self::or_insert_with).
    ///
    /// ```
    /// let mut map = artmap::ArtMap::new();
    /// assert_eq!(map.entry("a").try_or_insert_with(|| 1), Ok(&mut 1));
    /// ```
    ///
    /// # Errors
    ///
    /// Where memory lacks. The map is as it was, and the pair is handed back.
    pub fn try_or_insert_with<F: FnOnce() -> V>(self, make: F) -> Result<&'a mut V, TryInsertError<K, V>> {
        match self {
            Entry::Occupied(entry) => Ok(entry.into_mut()),
            Entry::Vacant(entry) => entry.try_insert(make()),
        }
    }

    /// The value; where the key is not stored it is stored with this one.
    ///
    /// ```
    /// let mut map = artmap::ArtMap::new();
    /// *map.entry("a").or_insert(1) += 1;
    /// assert_eq!(map["a"], 2);
    /// ```
    pub fn or_insert(self, value: V) -> &'a mut V {
        self.or_insert_entry(value).into_mut()
    }

    /// As [`or_insert`](Self::or_insert), with a value that is made where it is wanted.
    ///
    /// ```
    /// let mut map = artmap::ArtMap::new();
    /// map.entry("a").or_insert_with(Vec::new).push(1);
    /// assert_eq!(map["a"], [1]);
    /// ```
    pub fn or_insert_with<F: FnOnce() -> V>(self, make: F) -> &'a mut V {
        self.or_insert_with_entry(make).into_mut()
    }

    /// As [`or_insert_with`](Self::or_insert_with), where the value is made of the key.
    ///
    /// ```
    /// let mut map = artmap::ArtMap::new();
    /// assert_eq!(map.entry("abc").or_insert_with_key(|key| key.len()), &3);
    /// ```
    pub fn or_insert_with_key<F: FnOnce(&K) -> V>(self, make: F) -> &'a mut V {
        self.or_insert_with_key_entry(make).into_mut()
    }

    /// As [`or_insert`](Self::or_insert), with the default value.
    ///
    /// ```
    /// let mut map = artmap::ArtMap::<_, u32>::new();
    /// assert_eq!(map.entry("a").or_default(), &0);
    /// ```
    pub fn or_default(self) -> &'a mut V
    where
        V: Default,
    {
        self.or_insert_with(V::default)
    }

    /// As [`or_insert`](Self::or_insert), and it gives the entry.
    ///
    /// ```
    /// let mut map = artmap::ArtMap::new();
    /// assert_eq!(map.entry("a").or_insert_entry(1).remove(), 1);
    /// ```
    pub fn or_insert_entry(self, value: V) -> OccupiedEntry<'a, K, V> {
        self.or_insert_with_entry(|| value)
    }

    /// As [`or_insert_with`](Self::or_insert_with), and it gives the entry.
    ///
    /// ```
    /// let mut map = artmap::ArtMap::new();
    /// assert_eq!(map.entry("a").or_insert_with_entry(|| 1).key(), &"a");
    /// ```
    pub fn or_insert_with_entry<F: FnOnce() -> V>(self, make: F) -> OccupiedEntry<'a, K, V> {
        self.or_insert_with_key_entry(|_| make())
    }

    /// As [`or_insert_with_key`](Self::or_insert_with_key), and it gives the entry.
    ///
    /// ```
    /// let mut map = artmap::ArtMap::new();
    /// assert_eq!(map.entry("abc").or_insert_with_key_entry(|key| key.len()).get(), &3);
    /// ```
    pub fn or_insert_with_key_entry<F: FnOnce(&K) -> V>(self, make: F) -> OccupiedEntry<'a, K, V> {
        match self {
            Entry::Occupied(entry) => entry,
            Entry::Vacant(entry) => {
                let value = make(&entry.key);
                entry.insert_entry(value)
            }
        }
    }

    /// As [`or_default`](Self::or_default), and it gives the entry.
    ///
    /// ```
    /// let mut map = artmap::ArtMap::<_, u32>::new();
    /// assert_eq!(map.entry("a").or_default_entry().get(), &0);
    /// ```
    pub fn or_default_entry(self) -> OccupiedEntry<'a, K, V>
    where
        V: Default,
    {
        self.or_insert_with_entry(V::default)
    }
}

impl<'a, K: Key, V> OccupiedEntry<'a, K, V> {
    /// The key that is stored.
    ///
    /// ```
    /// let mut map = artmap::ArtMap::from([(1, 'a')]);
    /// assert_eq!(map.first_entry().unwrap().key(), &1);
    /// ```
    #[must_use]
    pub fn key(&self) -> &K {
        self.map.slab.pair(self.index).0
    }

    /// The value.
    ///
    /// ```
    /// let mut map = artmap::ArtMap::from([(1, 'a')]);
    /// assert_eq!(map.first_entry().unwrap().get(), &'a');
    /// ```
    #[must_use]
    pub fn get(&self) -> &V {
        self.map.slab.pair(self.index).1
    }

    /// The value, to be written, for as long as the entry is there.
    ///
    /// ```
    /// let mut map = artmap::ArtMap::from([(1, 'a')]);
    /// map.first_entry().unwrap().get_mut().make_ascii_uppercase();
    /// assert_eq!(map[&1], 'A');
    /// ```
    pub fn get_mut(&mut self) -> &mut V {
        self.map.slab.pair_mut(self.index).1
    }

    /// The value, to be written, for as long as the map is lent.
    ///
    /// ```
    /// let mut map = artmap::ArtMap::from([(1, 10)]);
    /// let value = map.first_entry().unwrap().into_mut();
    /// *value += 1;
    /// assert_eq!(map[&1], 11);
    /// ```
    #[must_use]
    pub fn into_mut(self) -> &'a mut V {
        self.map.slab.pair_mut(self.index).1
    }

    /// Sets the value, and gives the one that was there.
    ///
    /// ```
    /// let mut map = artmap::ArtMap::from([(1, 'a')]);
    /// assert_eq!(map.first_entry().unwrap().insert('b'), 'a');
    /// ```
    pub fn insert(&mut self, value: V) -> V {
        std::mem::replace(self.get_mut(), value)
    }

    /// Takes the pair out, and gives its value.
    ///
    /// ```
    /// let mut map = artmap::ArtMap::from([(1, 'a')]);
    /// assert_eq!(map.first_entry().unwrap().remove(), 'a');
    /// ```
    #[allow(clippy::must_use_candidate, reason = "it takes the pair out")]
    pub fn remove(self) -> V {
        value_of(self.remove_entry())
    }

    /// Takes the pair out, and gives it.
    ///
    /// ```
    /// let mut map = artmap::ArtMap::from([(1, 'a')]);
    /// assert_eq!(map.first_entry().unwrap().remove_entry(), (1, 'a'));
    /// ```
    #[allow(clippy::must_use_candidate, reason = "it takes the pair out")]
    pub fn remove_entry(self) -> (K, V) {
        or_end(self.map.take_at(self.index))
    }

    /// As [`remove_entry`](Self::remove_entry).
    ///
    /// ```
    /// let mut map = artmap::ArtMap::from([(1, 'a')]);
    /// assert_eq!(map.first_entry().unwrap().try_remove_entry(), Ok((1, 'a')));
    /// ```
    ///
    /// # Errors
    ///
    /// Where memory lacks: a node of the tree was to become a smaller one. The map is as it was.
    pub fn try_remove_entry(self) -> Result<(K, V), AllocError> {
        self.map.take_at(self.index)
    }
}

impl<'a, K: Key, V> VacantEntry<'a, K, V> {
    /// The key that was asked for.
    ///
    /// ```
    /// let mut map = artmap::ArtMap::<_, u32>::new();
    /// assert_eq!(map.entry("a").key(), &"a");
    /// ```
    #[must_use]
    pub fn key(&self) -> &K {
        &self.key
    }

    /// The key that was asked for, taken back.
    ///
    /// ```
    /// use artmap::{ArtMap, Entry};
    ///
    /// let mut map = ArtMap::<_, u32>::new();
    /// let Entry::Vacant(entry) = map.entry("a".to_string()) else { unreachable!() };
    /// assert_eq!(entry.into_key(), "a");
    /// ```
    #[must_use]
    pub fn into_key(self) -> K {
        self.key
    }

    /// Stores the key with a value.
    ///
    /// ```
    /// use artmap::{ArtMap, Entry};
    ///
    /// let mut map = ArtMap::new();
    /// let Entry::Vacant(entry) = map.entry("a") else { unreachable!() };
    /// *entry.insert(1) += 1;
    /// assert_eq!(map["a"], 2);
    /// ```
    pub fn insert(self, value: V) -> &'a mut V {
        self.insert_entry(value).into_mut()
    }

    /// As [`insert`](Self::insert).
    ///
    /// ```
    /// use artmap::{ArtMap, Entry};
    ///
    /// let mut map = ArtMap::new();
    /// let Entry::Vacant(entry) = map.entry("a") else { unreachable!() };
    /// assert_eq!(entry.try_insert(1), Ok(&mut 1));
    /// ```
    ///
    /// # Errors
    ///
    /// Where memory lacks. The map is as it was, and the pair is handed back.
    pub fn try_insert(self, value: V) -> Result<&'a mut V, TryInsertError<K, V>> {
        self.try_insert_entry(value).map(OccupiedEntry::into_mut)
    }

    /// As [`insert`](Self::insert), and it gives the entry.
    ///
    /// ```
    /// use artmap::{ArtMap, Entry};
    ///
    /// let mut map = ArtMap::new();
    /// let Entry::Vacant(entry) = map.entry("a") else { unreachable!() };
    /// assert_eq!(entry.insert_entry(1).key(), &"a");
    /// ```
    pub fn insert_entry(self, value: V) -> OccupiedEntry<'a, K, V> {
        match self.try_insert_entry(value) {
            Ok(entry) => entry,
            Err(why) => why.end(),
        }
    }

    /// As [`insert_entry`](Self::insert_entry).
    ///
    /// ```
    /// use artmap::{ArtMap, Entry};
    ///
    /// let mut map = ArtMap::new();
    /// let Entry::Vacant(entry) = map.entry("a") else { unreachable!() };
    /// assert!(entry.try_insert_entry(1).is_ok());
    /// ```
    ///
    /// # Errors
    ///
    /// Where memory lacks. The map is as it was, and the pair is handed back.
    pub fn try_insert_entry(self, value: V) -> Result<OccupiedEntry<'a, K, V>, TryInsertError<K, V>> {
        let (index, _) = self.map.put(self.key, value)?;
        Ok(OccupiedEntry { map: self.map, index })
    }
}

impl<K: Key + fmt::Debug, V: fmt::Debug> fmt::Debug for Entry<'_, K, V> {
    fn fmt(&self, to: &mut fmt::Formatter<'_>) -> fmt::Result {
        match self {
            Entry::Occupied(entry) => to.debug_tuple("Entry").field(entry).finish(),
            Entry::Vacant(entry) => to.debug_tuple("Entry").field(entry).finish(),
        }
    }
}

impl<K: Key + fmt::Debug, V: fmt::Debug> fmt::Debug for OccupiedEntry<'_, K, V> {
    fn fmt(&self, to: &mut fmt::Formatter<'_>) -> fmt::Result {
        to.debug_struct("OccupiedEntry").field("key", self.key()).field("value", self.get()).finish()
    }
}

impl<K: fmt::Debug, V> fmt::Debug for VacantEntry<'_, K, V> {
    fn fmt(&self, to: &mut fmt::Formatter<'_>) -> fmt::Result {
        to.debug_tuple("VacantEntry").field(&self.key).finish()
    }
}
