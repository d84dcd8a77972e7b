//! Entries of keys that others may begin, or begin with: what stands in the way of a key, looked up once.
use crate::Key;
use crate::error::{AllocError, TryInsertError, TryKeyError, no_memory, or_end};
use crate::iter::Prefix;
use crate::iter_mut::PrefixMut;
use crate::map::{ArtMap, OccupiedEntry};
use crate::view::index_of;
use crate::walk::Under;

/// The place of a key in a map, with what stands in its way. [`ArtMap::prefix_entry`] finds it.
///
/// ```
/// use artmap::{ArtMap, PrefixEntry};
///
/// let mut map = ArtMap::try_from_iter([(vec![1, 1], 'a'), (vec![1, 2], 'b')]).unwrap();
/// assert!(matches!(map.prefix_entry(vec![1, 1, 7]), PrefixEntry::Occupied(_)));
/// assert!(matches!(map.prefix_entry(vec![1]), PrefixEntry::Inner(_)));
/// assert!(matches!(map.prefix_entry(vec![2]), PrefixEntry::Vacant(_)));
/// ```
pub enum PrefixEntry<'a, K, V> {
    /// A stored key equals the key, or begins it.
    Occupied(OccupiedEntry<'a, K, V>),
    /// Stored keys begin with the key, and are longer.
    Inner(InnerEntry<'a, K, V>),
    /// No stored key is in the way.
    Vacant(InnerEntry<'a, K, V>),
}

/// The place of a key that others may begin with. These make way for it.
///
/// ```
/// use artmap::{ArtMap, PrefixEntry};
///
/// let mut map = ArtMap::try_from_iter([(vec![1, 1], 'a'), (vec![1, 2], 'b'), (vec![2], 'c')]).unwrap();
/// let PrefixEntry::Inner(entry) = map.prefix_entry(vec![1]) else { unreachable!() };
/// assert!(entry.iter().map(|pair| pair.1).eq(&['a', 'b']));
/// *entry.insert('d') = 'e';
/// assert!(map.values().eq(&['e', 'c']));
/// ```
pub struct InnerEntry<'a, K, V> {
    map: &'a mut ArtMap<K, V>,
    key: K,
}

impl<'a, K: Key, V> PrefixEntry<'a, K, V> {
    /// The stored key that equals the key or begins it, or else the key that was asked for.
    ///
    /// ```
    /// let mut map = artmap::ArtMap::try_from_iter([(vec![1], 'a')]).unwrap();
    /// assert_eq!(map.prefix_entry(vec![1, 2]).key(), &[1]);
    /// assert_eq!(map.prefix_entry(vec![2]).key(), &[2]);
    /// ```
    pub fn key(&self) -> &K {
        match self {
            PrefixEntry::Occupied(entry) => entry.key(),
            PrefixEntry::Inner(entry) | PrefixEntry::Vacant(entry) => &entry.key,
        }
    }

    /// Sets the value of the stored key that equals the key or begins it; else stores the key, in the place of those that
    /// begin with it. Gives the entry.
    ///
    /// ```
    /// let mut map = artmap::ArtMap::try_from_iter([(b"abb".to_vec(), 'a'), (b"b".to_vec(), 'b')]).unwrap();
    /// for (key, value) in [("abb", 'A'), ("bcd", 'B'), ("ab", 'C')] {
    ///     map.prefix_entry(key.as_bytes().to_vec()).insert_entry(value);
    /// }
    /// assert!(map.iter().eq([(&b"ab".to_vec(), &'C'), (&b"b".to_vec(), &'B')]));
    /// ```
    pub fn insert_entry(self, value: V) -> OccupiedEntry<'a, K, V> {
        match self {
            PrefixEntry::Occupied(mut entry) => {
                entry.insert(value);
                entry
            }
            PrefixEntry::Inner(entry) | PrefixEntry::Vacant(entry) => entry.insert_entry(value),
        }
    }

    /// As [`insert_entry`](Self::insert_entry).
    ///
    /// ```
    /// let mut map = artmap::ArtMap::new();
    /// let entry = map.try_prefix_entry(vec![1]).unwrap();
    /// assert!(entry.try_insert_entry('a').is_ok());
    /// ```
    ///
    /// # Errors
    ///
    /// As [`ArtMap::try_prefix_insert`], which tells also what it takes.
    pub fn try_insert_entry(self, value: V) -> Result<OccupiedEntry<'a, K, V>, TryInsertError<K, V>> {
        match self {
            PrefixEntry::Occupied(mut entry) => {
                entry.insert(value);
                Ok(entry)
            }
            PrefixEntry::Inner(entry) | PrefixEntry::Vacant(entry) => entry.try_insert_entry(value),
        }
    }

    /// The value of the stored key that equals the key or begins it; else the key is stored with this one, in the place of
    /// those that begin with it.
    ///
    /// ```
    /// let mut map = artmap::ArtMap::try_from_iter([(vec![1], 'a')]).unwrap();
    /// assert_eq!(map.prefix_entry(vec![1, 2]).or_insert('b'), &'a');
    /// assert_eq!(map.prefix_entry(vec![2]).or_insert('b'), &'b');
    /// ```
    pub fn or_insert(self, value: V) -> &'a mut V {
        self.or_insert_with_key(|_| value)
    }

    /// As [`or_insert`](Self::or_insert), with a value that is made where it is wanted.
    ///
    /// ```
    /// let mut map = artmap::ArtMap::new();
    /// map.prefix_entry(vec![1, 2]).or_insert_with(Vec::new).push(1);
    /// assert_eq!(map[&vec![1, 2]], [1]);
    /// ```
    pub fn or_insert_with<F: FnOnce() -> V>(self, make: F) -> &'a mut V {
        self.or_insert_with_key(|_| make())
    }

    /// As [`or_insert_with`](Self::or_insert_with), where the value is made of the key.
    ///
    /// ```
    /// let mut map = artmap::ArtMap::new();
    /// assert_eq!(map.prefix_entry(vec![1, 2]).or_insert_with_key(|key| key.len()), &2);
    /// ```
    pub fn or_insert_with_key<F: FnOnce(&K) -> V>(self, make: F) -> &'a mut V {
        match self {
            PrefixEntry::Occupied(entry) => entry.into_mut(),
            PrefixEntry::Inner(entry) | PrefixEntry::Vacant(entry) => {
                let value = make(&entry.key);
                entry.insert(value)
            }
        }
    }

    /// As [`or_insert`](Self::or_insert), with the default value.
    ///
    /// ```
    /// let mut map = artmap::ArtMap::<_, u32>::new();
    /// assert_eq!(map.prefix_entry(vec![1, 2]).or_default(), &0);
    /// ```
    pub fn or_default(self) -> &'a mut V
    where
        V: Default,
    {
        self.or_insert_with(V::default)
    }
}

#[allow(clippy::iter_without_into_iter, reason = "it is an entry, as in blart")]
impl<'a, K: Key, V> InnerEntry<'a, K, V> {
    fn under(&self) -> Result<Under, AllocError> {
        Under::of(self.key.to_bytes()?.as_ref())
    }

    /// The key that was asked for.
    ///
    /// ```
    /// use artmap::{ArtMap, PrefixEntry};
    ///
    /// let mut map = ArtMap::<_, u32>::new();
    /// let PrefixEntry::Vacant(entry) = map.prefix_entry(vec![1]) else { unreachable!() };
    /// assert_eq!(entry.key(), &[1]);
    /// ```
    #[must_use]
    pub fn key(&self) -> &K {
        &self.key
    }

    /// The pairs whose keys begin with the key.
    ///
    /// ```
    /// use artmap::{ArtMap, PrefixEntry};
    ///
    /// let mut map = ArtMap::try_from_iter([(vec![1, 1], 'a'), (vec![1, 2], 'b')]).unwrap();
    /// let PrefixEntry::Inner(entry) = map.prefix_entry(vec![1]) else { unreachable!() };
    /// assert_eq!(entry.iter().count(), 2);
    /// ```
    pub fn iter(&self) -> Prefix<'_, K, V> {
        Prefix::new(self.map.view(), or_end(self.under()))
    }

    /// The pairs whose keys begin with the key, with values to be written.
    ///
    /// ```
    /// use artmap::{ArtMap, PrefixEntry};
    ///
    /// let mut map = ArtMap::try_from_iter([(vec![1, 1], 'a'), (vec![1, 2], 'b')]).unwrap();
    /// let PrefixEntry::Inner(mut entry) = map.prefix_entry(vec![1]) else { unreachable!() };
    /// entry.iter_mut().for_each(|(_, value)| *value = 'c');
    /// assert!(map.values().eq(&['c', 'c']));
    /// ```
    pub fn iter_mut(&mut self) -> PrefixMut<'_, K, V> {
        let under = or_end(self.under());
        PrefixMut::new(self.map, under)
    }

    /// Stores the key with a value, in the place of those that begin with it.
    ///
    /// ```
    /// use artmap::{ArtMap, PrefixEntry};
    ///
    /// let mut map = ArtMap::new();
    /// let PrefixEntry::Vacant(entry) = map.prefix_entry(vec![1]) else { unreachable!() };
    /// assert_eq!(entry.insert('a'), &'a');
    /// ```
    pub fn insert(self, value: V) -> &'a mut V {
        self.insert_entry(value).into_mut()
    }

    /// As [`insert`](Self::insert), and it gives the entry.
    ///
    /// ```
    /// use artmap::{ArtMap, PrefixEntry};
    ///
    /// let mut map = ArtMap::new();
    /// let PrefixEntry::Vacant(entry) = map.prefix_entry(vec![1]) else { unreachable!() };
    /// assert_eq!(entry.insert_entry('a').remove(), 'a');
    /// ```
    pub fn insert_entry(self, value: V) -> OccupiedEntry<'a, K, V> {
        let (index, _) = self.map.put_over(self.key, value);
        OccupiedEntry { map: self.map, index }
    }

    /// As [`insert_entry`](Self::insert_entry).
    ///
    /// ```
    /// use artmap::{ArtMap, PrefixEntry};
    ///
    /// let mut map = ArtMap::new();
    /// let PrefixEntry::Vacant(entry) = map.prefix_entry(vec![1]) else { unreachable!() };
    /// assert!(entry.try_insert_entry('a').is_ok());
    /// ```
    ///
    /// # Errors
    ///
    /// As [`ArtMap::try_prefix_insert`], which tells also what it takes.
    pub fn try_insert_entry(self, value: V) -> Result<OccupiedEntry<'a, K, V>, TryInsertError<K, V>> {
        let (index, _) = self.map.try_put_over(self.key, value)?;
        Ok(OccupiedEntry { map: self.map, index })
    }
}

impl<K: Key, V> ArtMap<K, V> {
    /// The entry of a key, which is never refused: a stored key that equals it or begins it, or the place for it with those
    /// that begin with it.
    ///
    /// ```
    /// let mut map = artmap::ArtMap::try_from_iter([(vec![1, 1], 'a'), (vec![1, 2], 'b')]).unwrap();
    /// assert_eq!(map.prefix_entry(vec![1, 2, 3]).or_insert('c'), &'b');
    /// assert_eq!(map.prefix_entry(vec![1]).or_insert('c'), &'c');
    /// assert_eq!(map.len(), 1);
    /// ```
    pub fn prefix_entry(&mut self, key: K) -> PrefixEntry<'_, K, V> {
        match self.try_prefix_entry(key) {
            Ok(entry) => entry,
            Err(_) => no_memory(),
        }
    }

    /// As [`prefix_entry`](Self::prefix_entry).
    ///
    /// ```
    /// let mut map = artmap::ArtMap::new();
    /// assert_eq!(map.try_prefix_entry(vec![1]).unwrap().or_insert('a'), &'a');
    /// ```
    ///
    /// # Errors
    ///
    /// Where there is no memory for the bytes of the key, which is handed back.
    pub fn try_prefix_entry(&mut self, key: K) -> Result<PrefixEntry<'_, K, V>, TryKeyError<K>> {
        let met = key.to_bytes().map(|bytes| {
            let bytes = bytes.as_ref();
            let found = self.words.find(bytes);
            (found, found.is_none() && self.words.has_prefix(bytes))
        });
        Ok(match met {
            Ok((Some(word), _)) => PrefixEntry::Occupied(OccupiedEntry { map: self, index: index_of(word) }),
            Ok((None, true)) => PrefixEntry::Inner(InnerEntry { map: self, key }),
            Ok((None, false)) => PrefixEntry::Vacant(InnerEntry { map: self, key }),
            Err(AllocError) => return Err(TryKeyError::Memory { key }),
        })
    }
}
