//! Calls that look pairs up, and walk over them.
use crate::error::or_end;
use crate::iter::{Iter, IterBytes, Keys, Prefix, Range, Values};
use crate::iter_mut::{IterMut, PrefixMut, RangeMut, ValuesMut};
use crate::map::ArtMap;
use crate::owned::{IntoIter, IntoKeys, IntoValues};
use crate::view::{MAP, between, index_of, under, word_of_key};
use crate::walk::Way;
use crate::{Key, KeyPrefix};
use std::borrow::Borrow;
use std::ops::RangeBounds;

impl<K: Key, V> ArtMap<K, V> {
    /// The value of a key.
    ///
    /// ```
    /// let map = artmap::ArtMap::from([("one".to_string(), 1)]);
    /// assert_eq!(map.get("one"), Some(&1));
    /// assert_eq!(map.get("two"), None);
    /// ```
    #[inline]
    pub fn get<Q: Key + ?Sized>(&self, key: &Q) -> Option<&V>
    where
        K: Borrow<Q>,
    {
        Some(self.view().get(key)?.1)
    }

    /// The stored key and the value of a key.
    ///
    /// ```
    /// let map = artmap::ArtMap::from([(7u16, true)]);
    /// assert_eq!(map.get_key_value(&7), Some((&7, &true)));
    /// ```
    pub fn get_key_value<Q: Key + ?Sized>(&self, key: &Q) -> Option<(&K, &V)>
    where
        K: Borrow<Q>,
    {
        self.view().get(key)
    }

    /// Whether a key is stored.
    ///
    /// ```
    /// let map = artmap::ArtMap::from([(-1, 0), (1, 0)]);
    /// assert!(map.contains_key(&-1) && !map.contains_key(&0));
    /// ```
    pub fn contains_key<Q: Key + ?Sized>(&self, key: &Q) -> bool
    where
        K: Borrow<Q>,
    {
        or_end(word_of_key(&self.words, key)).is_some()
    }

    /// The value of a key, to be written.
    ///
    /// ```
    /// let mut map = artmap::ArtMap::from([("one", vec![1])]);
    /// map.get_mut("one").unwrap().push(2);
    /// assert_eq!(map["one"], [1, 2]);
    /// ```
    #[inline]
    pub fn get_mut<Q: Key + ?Sized>(&mut self, key: &Q) -> Option<&mut V>
    where
        K: Borrow<Q>,
    {
        let word = or_end(word_of_key(&self.words, key))?;
        Some(self.slab.pair_mut(index_of(word)).1)
    }

    /// The value of the longest key that begins the query, or equals it: of prefixes as keys, the one that the query is
    /// under. Of texts many may begin it.
    ///
    /// ```
    /// let paths = artmap::ArtMap::from([("/", 1), ("/api", 2)]);
    /// assert_eq!((paths.prefix_get("/api/v1"), paths.prefix_get("/ap")), (Some(&2), Some(&1)));
    ///
    /// let mut routes = artmap::ArtMap::new();
    /// routes.try_insert(vec![10, 1], "office").unwrap();
    /// routes.try_insert(vec![10, 2, 7], "lab").unwrap();
    /// assert_eq!(routes.prefix_get(&[10, 1, 0, 9]), Some(&"office"));
    /// assert_eq!(routes.prefix_get(&[10, 2, 8, 1]), None);
    /// ```
    pub fn prefix_get<P: KeyPrefix<K> + ?Sized>(&self, query: &P) -> Option<&V> {
        Some(self.view().prefix_get(query)?.1)
    }

    /// The pair with the longest key that begins the query, or equals it.
    ///
    /// ```
    /// let mut routes = artmap::ArtMap::new();
    /// routes.try_insert(vec![10, 2, 7], "lab").unwrap();
    /// assert_eq!(routes.prefix_get_key_value(&[10, 2, 7, 1]), Some((&vec![10, 2, 7], &"lab")));
    /// ```
    pub fn prefix_get_key_value<P: KeyPrefix<K> + ?Sized>(&self, query: &P) -> Option<(&K, &V)> {
        self.view().prefix_get(query)
    }

    /// The value of the longest key that begins the query, or equals it, to be written.
    ///
    /// ```
    /// let mut hits = artmap::ArtMap::new();
    /// hits.try_insert(vec![10, 1], 0).unwrap();
    /// *hits.prefix_get_mut(&[10, 1, 0, 9]).unwrap() += 1;
    /// assert_eq!(hits[&vec![10, 1]], 1);
    /// ```
    pub fn prefix_get_mut<P: KeyPrefix<K> + ?Sized>(&mut self, query: &P) -> Option<&mut V> {
        Some(self.prefix_get_key_value_mut(query)?.1)
    }

    /// The pair with the longest key that begins the query, or equals it, with its value to be written.
    ///
    /// ```
    /// let mut hits = artmap::ArtMap::new();
    /// hits.try_insert(vec![10, 1], 0).unwrap();
    /// let (key, count) = hits.prefix_get_key_value_mut(&[10, 1, 0, 9]).unwrap();
    /// *count += key.len();
    /// assert_eq!(hits[&vec![10, 1]], 2);
    /// ```
    pub fn prefix_get_key_value_mut<P: KeyPrefix<K> + ?Sized>(&mut self, query: &P) -> Option<(&K, &mut V)> {
        or_end(self.try_prefix_get_key_value_mut(query))
    }

    /// The pair with the least key.
    ///
    /// ```
    /// let map = artmap::ArtMap::from([(5, 'e'), (-5, 'a')]);
    /// assert_eq!(map.first_key_value(), Some((&-5, &'a')));
    /// ```
    pub fn first_key_value(&self) -> Option<(&K, &V)> {
        self.view().end(Way::Up)
    }

    /// The pair with the greatest key.
    ///
    /// ```
    /// let map = artmap::ArtMap::from([(5, 'e'), (-5, 'a')]);
    /// assert_eq!(map.last_key_value(), Some((&5, &'e')));
    /// ```
    pub fn last_key_value(&self) -> Option<(&K, &V)> {
        self.view().end(Way::Down)
    }

    /// The pairs in ascending order, from both ends.
    ///
    /// ```
    /// let map = artmap::ArtMap::from([(2, 'b'), (1, 'a'), (3, 'c')]);
    /// let mut pairs = map.iter();
    /// assert_eq!((pairs.len(), pairs.next_back()), (3, Some((&3, &'c'))));
    /// assert!(pairs.eq([(&1, &'a'), (&2, &'b')]));
    /// ```
    pub fn iter(&self) -> Iter<'_, K, V> {
        self.view().iter()
    }

    /// The pairs in ascending order, from both ends, with values to be written.
    ///
    /// ```
    /// let mut map = artmap::ArtMap::from([(2, 'b'), (1, 'a')]);
    /// map.iter_mut().for_each(|(_, letter)| letter.make_ascii_uppercase());
    /// assert!(map.values().eq(&['A', 'B']));
    /// ```
    pub fn iter_mut(&mut self) -> IterMut<'_, K, V> {
        IterMut::new(self)
    }

    /// The pairs in ascending order, from both ends, with keys as bytes.
    ///
    /// ```
    /// let map = artmap::ArtMap::from([(*b"ab", 1), (*b"aa", 2)]);
    /// assert!(map.iter_bytes().eq([(&b"aa"[..], &2), (&b"ab"[..], &1)]));
    /// ```
    pub fn iter_bytes(&self) -> IterBytes<'_, K, V> {
        IterBytes(self.iter())
    }

    /// The keys in ascending order, from both ends.
    ///
    /// ```
    /// let map = artmap::ArtMap::from([(2, 'b'), (1, 'a')]);
    /// assert!(map.keys().rev().eq(&[2, 1]));
    /// ```
    pub fn keys(&self) -> Keys<'_, K, V> {
        Keys(self.iter())
    }

    /// The values in the order of their keys, from both ends.
    ///
    /// ```
    /// let map = artmap::ArtMap::from([(2, 'b'), (1, 'a')]);
    /// assert!(map.values().eq(&['a', 'b']));
    /// ```
    pub fn values(&self) -> Values<'_, K, V> {
        Values(self.iter())
    }

    /// The values in the order of their keys, from both ends, to be written.
    ///
    /// ```
    /// let mut map = artmap::ArtMap::from([(2, 20), (1, 10)]);
    /// map.values_mut().for_each(|value| *value /= 10);
    /// assert!(map.values().eq(&[1, 2]));
    /// ```
    pub fn values_mut(&mut self) -> ValuesMut<'_, K, V> {
        ValuesMut(self.iter_mut())
    }

    /// The keys of the map, which is consumed.
    ///
    /// ```
    /// let map = artmap::ArtMap::from([(2, 'b'), (1, 'a')]);
    /// assert_eq!(map.into_keys().collect::<Vec<_>>(), [1, 2]);
    /// ```
    pub fn into_keys(self) -> IntoKeys<K, V> {
        IntoKeys(IntoIter::new(self))
    }

    /// The values of the map, which is consumed.
    ///
    /// ```
    /// let map = artmap::ArtMap::from([(2, 'b'), (1, 'a')]);
    /// assert_eq!(map.into_values().collect::<String>(), "ab");
    /// ```
    pub fn into_values(self) -> IntoValues<K, V> {
        IntoValues(IntoIter::new(self))
    }

    /// The pairs between two bounds in ascending order, from both ends.
    ///
    /// ```
    /// use std::ops::Bound::{Excluded, Included, Unbounded};
    ///
    /// let map: artmap::ArtMap<i32, i32> = (-3..4).map(|it| (it, it * it)).collect();
    /// assert!(map.range(-1..=1).map(|pair| pair.0).eq(&[-1, 0, 1]));
    /// assert_eq!(map.range((Excluded(2), Unbounded)).next(), Some((&3, &9)));
    ///
    /// let names = artmap::ArtMap::from(["ada", "bob", "cy"].map(|it| (it.to_string(), ())));
    /// assert_eq!(names.range::<str, _>((Included("b"), Excluded("c"))).count(), 1);
    /// ```
    ///
    /// # Panics
    ///
    /// As `range` of `BTreeMap`, and also of an empty map: where the start is after the end, or both are the same key and
    /// excluded.
    pub fn range<Q, R>(&self, range: R) -> Range<'_, K, V>
    where
        Q: Key + ?Sized,
        K: Borrow<Q>,
        R: RangeBounds<Q>,
    {
        self.view().range(&range, MAP)
    }

    /// The pairs between two bounds, with values to be written.
    ///
    /// ```
    /// let mut map = artmap::ArtMap::from([("a", 1), ("b", 2), ("c", 3)]);
    /// map.range_mut("b"..).for_each(|(_, value)| *value *= 10);
    /// assert!(map.values().eq(&[1, 20, 30]));
    /// ```
    ///
    /// # Panics
    ///
    /// As [`range`](Self::range).
    pub fn range_mut<Q, R>(&mut self, range: R) -> RangeMut<'_, K, V>
    where
        Q: Key + ?Sized,
        K: Borrow<Q>,
        R: RangeBounds<Q>,
    {
        let limits = or_end(between(&range, MAP));
        RangeMut::new(self, limits)
    }

    /// The pairs whose keys begin with a prefix, in ascending order, from both ends.
    ///
    /// ```
    /// let map = artmap::ArtMap::from(["car", "cat", "dog"].map(|it| (it, it.len())));
    /// assert!(map.prefix("ca").map(|pair| pair.0).eq(&["car", "cat"]));
    /// assert_eq!(map.prefix("").next_back(), Some((&"dog", &3)));
    /// ```
    pub fn prefix<P: KeyPrefix<K> + ?Sized>(&self, prefix: &P) -> Prefix<'_, K, V> {
        self.view().prefix(prefix)
    }

    /// The pairs whose keys begin with a prefix, with values to be written.
    ///
    /// ```
    /// let mut map = artmap::ArtMap::from(["car", "cat", "dog"].map(|it| (it, 1)));
    /// map.prefix_mut("ca").for_each(|(_, value)| *value = 2);
    /// assert!(map.values().eq(&[2, 2, 1]));
    /// ```
    pub fn prefix_mut<P: KeyPrefix<K> + ?Sized>(&mut self, prefix: &P) -> PrefixMut<'_, K, V> {
        PrefixMut::new(self, or_end(under(prefix)))
    }
}
