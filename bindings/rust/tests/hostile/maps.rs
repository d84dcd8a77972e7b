//! The calls of a map.
use crate::world::{Evil, Val, W, W2};
use crate::{Built, Row, apart, from_both_ends, silent};
use artmap::{ArtMap, Entry, PrefixEntry};
use std::hash::{DefaultHasher, Hash};
use std::ops::Bound;
use std::panic::resume_unwind;

pub type Map = ArtMap<Evil, Val>;

/// More than a walk asks for first.
const MANY: u32 = 14;

impl Built for Map {
    fn new(world: &W, order: u32) -> Map {
        let pair = |id| (Evil::new(id, world), Val::new(world));
        if order == 0 {
            return (0..MANY).map(|it| pair(it * 2)).collect();
        }
        let mut map = Map::new();
        for at in 0..MANY + 3 {
            let (key, value) = pair((at * 5) % (MANY + 3) * 2);
            map.insert(key, value);
        }
        for id in [MANY, MANY + 1, MANY + 2] {
            map.remove(&Evil::new(id * 2, world));
        }
        map
    }

    fn objects(&self) -> usize {
        2 * self.len()
    }

    fn grow(&mut self, world: &W) {
        for id in [101, 7, 103, 102, 105] {
            let _ = self.try_insert(key(id, world), Val::new(world));
        }
    }

    fn look(&mut self, is_whole: bool) {
        let len = self.len();
        for is_up in [true, false] {
            let mut lent = Vec::new();
            let mut walk = self.iter_mut();
            silent(|| {
                while let Some(it) = if is_up { walk.next() } else { walk.next_back() } {
                    lent.push(it.1);
                }
            });
            assert!(!is_whole || lent.len() == len);
            apart(lent, "iter_mut");
        }
        from_both_ends(self.values_mut(), "values_mut");
        from_both_ends(self.range_mut::<Evil, _>(..).map(|it| it.1), "range_mut");
        from_both_ends(self.prefix_mut::<[u8]>(&[]).map(|it| it.1), "prefix_mut");
        if is_whole {
            assert!(self.range::<Evil, _>(..).count() == len && self.iter().rev().count() == len);
            assert!(self.keys().map(|it| it.id).is_sorted() && self.iter().all(|it| self.get(it.0).is_some()));
        }
    }
}

fn key(id: u32, world: &W) -> Evil {
    Evil::new(id, world)
}

fn pairs(ids: impl IntoIterator<Item = u32>, world: &W) -> impl Iterator<Item = (Evil, Val)> {
    ids.into_iter().map(move |id| {
        world.step();
        (key(id, world), Val::new(world))
    })
}

fn of(ids: impl IntoIterator<Item = u32>, world: &W) -> Map {
    Map::try_from_iter(pairs(ids, world)).unwrap_or_default()
}

fn seen<T>(_: T) {}

fn entered(map: &mut Map, id: u32, w: &W, call: impl FnOnce(Entry<'_, Evil, Val>)) {
    call(map.entry(key(id, w)));
}

fn vacant(map: &mut Map, w: &W, call: impl FnOnce(artmap::VacantEntry<'_, Evil, Val>)) {
    if let Entry::Vacant(it) = map.entry(key(7, w)) {
        call(it);
    }
}

fn occupied(map: &mut Map, w: &W, call: impl FnOnce(artmap::OccupiedEntry<'_, Evil, Val>)) {
    if let Entry::Occupied(it) = map.entry(key(8, w)) {
        call(it);
    }
}

fn inner(map: &mut Map, w: &W, call: impl FnOnce(artmap::InnerEntry<'_, Evil, Val>)) {
    if let PrefixEntry::Inner(it) | PrefixEntry::Vacant(it) = map.prefix_entry(key(9, w)) {
        call(it);
    }
}

/// Has the panic of a walk go on, if it had one.
fn went(is_ended: bool) {
    if !is_ended {
        resume_unwind(Box::new("as the walk"));
    }
}

/// Whether a pair goes or stays, by a closure that may panic.
fn said(w: &W, key: &Evil) -> bool {
    w.step();
    key.id % 3 == 0
}

#[rustfmt::skip]
pub const ROWS: &[Row<Map>] = &[
    ("insert", |map, w| seen(map.insert(key(7, w), Val::new(w)))),
    ("insert, stored", |map, w| seen(map.insert(key(8, w), Val::new(w)))),
    ("insert, twice", |map, w| { map.insert(key(7, w), Val::new(w)); map.insert(key(9, w), Val::new(w)); }),
    ("try_insert", |map, w| seen(map.try_insert(key(7, w), Val::new(w)))),
    ("try_insert, stored", |map, w| seen(map.try_insert(key(8, w), Val::new(w)))),
    ("prefix_insert", |map, w| seen(map.prefix_insert(key(7, w), Val::new(w)))),
    ("prefix_insert, stored", |map, w| seen(map.prefix_insert(key(8, w), Val::new(w)))),
    ("try_prefix_insert", |map, w| seen(map.try_prefix_insert(key(7, w), Val::new(w)))),
    ("try_prefix_insert, stored", |map, w| seen(map.try_prefix_insert(key(8, w), Val::new(w)))),
    ("remove", |map, w| seen(map.remove(&key(8, w)))),
    ("remove, absent", |map, w| seen(map.remove(&key(7, w)))),
    ("remove_entry", |map, w| seen(map.remove_entry(&key(8, w)))),
    ("try_remove", |map, w| seen(map.try_remove(&key(8, w)))),
    ("try_remove_entry", |map, w| seen(map.try_remove_entry(&key(8, w)))),
    ("pop_first", |map, _| { while map.pop_first().is_some() {} }),
    ("pop_last", |map, _| { while map.pop_last().is_some() {} }),
    ("try_pop_first", |map, _| seen((map.try_pop_first(), map.try_pop_first()))),
    ("try_pop_last", |map, _| seen((map.try_pop_last(), map.try_pop_last()))),
    ("remove_prefix", |map, w| seen(map.remove_prefix(&W2(w)))),
    ("try_remove_prefix", |map, w| seen(map.try_remove_prefix(&W2(w)))),
    ("get", |map, w| seen(map.get(&key(8, w)))),
    ("get_key_value", |map, w| seen(map.get_key_value(&key(8, w)))),
    ("contains_key", |map, w| seen(map.contains_key(&key(8, w)))),
    ("get_mut", |map, w| seen(map.get_mut(&key(8, w)))),
    ("index", |map, w| seen(&map[&key(8, w)])),
    ("prefix_get", |map, w| seen(map.prefix_get(&W2(w)))),
    ("prefix_get_key_value", |map, w| seen(map.prefix_get_key_value(&W2(w)))),
    ("prefix_get_mut", |map, w| seen(map.prefix_get_mut(&W2(w)))),
    ("prefixes", |map, w| seen(map.prefixes(&W2(w)).count())),
    ("prefix_get_key_value_mut", |map, w| seen(map.prefix_get_key_value_mut(&W2(w)))),
    ("try_get", |map, w| seen(map.try_get(&key(8, w)))),
    ("try_get_key_value", |map, w| seen(map.try_get_key_value(&key(8, w)))),
    ("try_contains_key", |map, w| seen(map.try_contains_key(&key(8, w)))),
    ("try_get_mut", |map, w| seen(map.try_get_mut(&key(8, w)))),
    ("try_prefix_get", |map, w| seen(map.try_prefix_get(&W2(w)))),
    ("try_prefix_get_key_value", |map, w| seen(map.try_prefix_get_key_value(&W2(w)))),
    ("try_prefix_get_mut", |map, w| seen(map.try_prefix_get_mut(&W2(w)))),
    ("try_prefix_get_key_value_mut", |map, w| seen(map.try_prefix_get_key_value_mut(&W2(w)))),
    ("try_range", |map, w| seen(map.try_range(key(3, w)..key(9, w)))),
    ("try_range_mut", |map, w| { if let Ok(it) = map.try_range_mut(key(3, w)..key(90, w)) { apart(it.map(|it| it.1).take(9), "try_range_mut"); } }),
    ("try_prefix", |map, w| seen(map.try_prefix(&W2(w)))),
    ("try_prefix_mut", |map, w| { if let Ok(it) = map.try_prefix_mut(&W2(w)) { apart(it.map(|it| it.1).take(9), "try_prefix_mut"); } }),
    ("first_key_value", |map, _| seen((map.first_key_value(), map.last_key_value()))),
    ("iter", |map, _| seen((map.iter().count(), map.iter().last(), map.iter().map(|it| it.0.id).collect::<Vec<_>>()))),
    ("iter, backward", |map, _| map.iter().rev().for_each(drop)),
    ("iter_bytes", |map, _| map.iter_bytes().for_each(drop)),
    ("keys", |map, _| map.keys().rev().for_each(drop)),
    ("values", |map, _| map.values().for_each(drop)),
    ("range", |map, w| map.range(key(3, w)..).for_each(drop)),
    ("range, backward", |map, w| map.range((Bound::Excluded(key(3, w)), Bound::Included(key(24, w)))).rev().for_each(drop)),
    ("prefix", |map, w| map.prefix(&W2(w)).for_each(drop)),
    ("iter_mut", |map, _| apart(map.iter_mut().map(|it| it.1), "iter_mut")),
    ("iter_mut, held", |map, _| went(from_both_ends(map.iter_mut().map(|it| it.1), "iter_mut"))),
    ("values_mut", |map, _| went(from_both_ends(map.values_mut(), "values_mut"))),
    ("values_mut, backward", |map, _| apart(map.values_mut().rev(), "values_mut")),
    ("range_mut", |map, w| went(from_both_ends(map.range_mut(key(3, w)..).map(|it| it.1), "range_mut"))),
    ("prefix_mut", |map, w| went(from_both_ends(map.prefix_mut(&W2(w)).map(|it| it.1), "prefix_mut"))),
    ("walks, shown", |map, w| seen(format!("{:?} {:?} {:?} {:?}", map.iter(), map.keys(), map.values(), map.range(key(3, w)..)))),
    ("into_iter", |map, _| std::mem::take(map).into_iter().for_each(drop)),
    ("into_iter, half", |map, _| std::mem::take(map).into_iter().take(5).for_each(drop)),
    ("into_iter, backward", |map, _| std::mem::take(map).into_iter().rev().for_each(drop)),
    ("into_iter, shown", |map, _| { let mut it = std::mem::take(map).into_iter(); it.next(); seen(format!("{it:?}")); }),
    ("into_keys", |map, _| std::mem::take(map).into_keys().for_each(drop)),
    ("into_values", |map, _| std::mem::take(map).into_values().for_each(drop)),
    ("clear", |map, _| map.clear()),
    ("iter_mut, shown", |map, _| { let mut it = map.iter_mut(); it.next(); seen(format!("{it:?}")); }),
    ("range_mut, shown", |map, w| seen(format!("{:?}", map.range_mut(key(3, w)..)))),
    ("values_mut, shown", |map, _| seen(format!("{:?}", map.values_mut()))),
    ("freeze_clone", |map, w| seen(map.freeze_clone().get(&key(8, w)))),
    ("extract_if, crossed", |map, w| map.extract_if(key(9, w)..key(3, w), |key, _| said(w, key)).for_each(drop)),
    ("retain", |map, w| map.retain(|key, _| said(w, key))),
    ("try_retain", |map, w| seen(map.try_retain(|key, _| said(w, key)))),
    ("extract_if", |map, w| map.extract_if(.., |key, _| said(w, key)).for_each(drop)),
    ("extract_if, range", |map, w| map.extract_if(key(3, w)..key(20, w), |key, _| said(w, key)).for_each(drop)),
    ("extract_if, held", |map, w| seen(map.extract_if(.., |key, _| said(w, key)).collect::<Vec<_>>())),
    ("try_extract_if", |map, w| map.try_extract_if(.., |key, _| said(w, key)).for_each(drop)),
    ("extend", |map, w| map.extend(pairs(30..50, w))),
    ("extend, mixed", |map, w| map.extend(pairs([60, 61, 62, 3, 63, 8, 64, 65, 1, 66], w))),
    ("try_extend", |map, w| seen(map.try_extend(pairs([60, 61, 62, 3, 63, 8], w)))),
    ("try_from_iter", |_, w| seen(Map::try_from_iter(pairs([5, 6, 7, 3, 9, 8], w)))),
    ("collect", |_, w| seen(pairs([5, 6, 7, 3, 9, 8], w).collect::<Map>())),
    ("collect, twice", |_, w| seen(pairs([5, 6, 5, 3, 7, 5, 6], w).collect::<Map>())),
    ("append", |map, w| map.append(&mut of([5, 8, 40, 41], w))),
    ("append, after", |map, w| map.append(&mut of(40..60, w))),
    ("append, before", |map, w| { let mut high = of(40..60, w); high.append(map); *map = high; }),
    ("append, to few", |map, w| { let mut few = of([5, 8, 40], w); few.append(map); *map = few; }),
    ("append, a lot", |map, w| map.append(&mut of(5..25, w))),
    ("try_append", |map, w| seen(map.try_append(&mut of([5, 8, 40, 41], w)))),
    ("try_append, a lot", |map, w| seen(map.try_append(&mut of(5..25, w)))),
    ("try_append, shuffled", |map, w| { let mut more = of([40, 42], w); seen(more.try_insert(key(3, w), Val::new(w))); seen((more.try_append(map), map.try_append(&mut more))); }),
    ("split_off", |map, w| seen(map.split_off(&key(11, w)))),
    ("try_split_off", |map, w| seen(map.try_split_off(&key(11, w)))),
    ("shrink_to_fit", |map, _| map.shrink_to_fit()),
    ("compact", |map, _| { let _ = map.try_compact(); }),
    ("try_compact", |map, _| seen(map.try_compact())),
    ("try_reserve", |map, _| seen(map.try_reserve(100))),
    ("clone", |map, _| seen(map.clone())),
    ("try_clone", |map, _| seen(map.try_clone())),
    ("clone, changed", |map, w| { let mut copy = map.clone(); copy.remove(&key(8, w)); copy.insert(key(7, w), Val::new(w)); apart(copy.values_mut(), "a copy"); }),
    ("eq", |map, w| seen(*map == of(0..14, w))),
    ("cmp", |map, w| seen((map.cmp(&&mut of([0, 2, 4, 7], w)), map.partial_cmp(&&mut of([0, 2], w))))),
    ("hash", |map, _| map.hash(&mut DefaultHasher::new())),
    ("debug", |map, _| seen(format!("{map:?}"))),
    ("entry, or_insert", |map, w| entered(map, 7, w, |it| seen(it.or_insert(Val::new(w))))),
    ("entry, or_insert_with", |map, w| entered(map, 7, w, |it| seen(it.or_insert_with(|| { w.step(); Val::new(w) })))),
    ("entry, or_insert_with_key", |map, w| entered(map, 7, w, |it| seen(it.or_insert_with_key(|_| Val::new(w))))),
    ("entry, or_insert_entry", |map, w| entered(map, 7, w, |it| seen(it.or_insert_entry(Val::new(w)).remove()))),
    ("entry, insert_entry", |map, w| entered(map, 8, w, |it| seen(it.insert_entry(Val::new(w)).remove_entry()))),
    ("entry, and_modify", |map, w| entered(map, 8, w, |it| seen(it.and_modify(|_| { w.step(); }).key().id))),
    ("try_entry", |map, w| { if let Ok(it) = map.try_entry(key(7, w)) { seen(it.try_or_insert(Val::new(w))); } }),
    ("try_entry, with", |map, w| { if let Ok(it) = map.try_entry(key(7, w)) { seen(it.try_or_insert_with(|| { w.step(); Val::new(w) })); } }),
    ("try_entry, insert_entry", |map, w| { if let Ok(it) = map.try_entry(key(7, w)) { let _ = it.try_insert_entry(Val::new(w)); } }),
    ("vacant, insert", |map, w| vacant(map, w, |it| it.insert(Val::new(w)).number = 9)),
    ("vacant, insert_entry", |map, w| vacant(map, w, |it| it.insert_entry(Val::new(w)).get_mut().number = 9)),
    ("vacant, into_key", |map, w| vacant(map, w, |it| seen(it.into_key()))),
    ("try_entry, vacant", |map, w| { if let Ok(Entry::Vacant(it)) = map.try_entry(key(7, w)) { seen(it.try_insert(Val::new(w))); } }),
    ("occupied, insert", |map, w| occupied(map, w, |mut it| seen(it.insert(Val::new(w))))),
    ("occupied, remove", |map, w| occupied(map, w, |it| seen(it.remove()))),
    ("occupied, into_mut", |map, w| occupied(map, w, |it| it.into_mut().number = 9)),
    ("occupied, shown", |map, w| occupied(map, w, |it| seen(format!("{it:?}")))),
    ("try_entry, removed", |map, w| { if let Ok(Entry::Occupied(it)) = map.try_entry(key(8, w)) { seen(it.try_remove_entry()); } }),
    ("first_entry", |map, _| seen(map.first_entry().map(artmap::OccupiedEntry::remove_entry))),
    ("last_entry", |map, _| seen(map.last_entry().map(artmap::OccupiedEntry::remove))),
    ("prefix_entry, or_insert", |map, w| seen(map.prefix_entry(key(7, w)).or_insert(Val::new(w)))),
    ("prefix_entry, stored", |map, w| seen(map.prefix_entry(key(8, w)).or_insert_with(|| { w.step(); Val::new(w) }))),
    ("prefix_entry, insert_entry", |map, w| seen(map.prefix_entry(key(9, w)).insert_entry(Val::new(w)).remove())),
    ("try_prefix_entry", |map, w| { if let Ok(it) = map.try_prefix_entry(key(9, w)) { let _ = it.try_insert_entry(Val::new(w)); } }),
    ("inner, iter", |map, w| inner(map, w, |mut it| { it.iter().for_each(drop); apart(it.iter_mut().map(|it| it.1), "inner"); })),
    ("inner, insert", |map, w| inner(map, w, |it| it.insert(Val::new(w)).number = 9)),
    ("freeze", |map, w| {
        let frozen = std::mem::take(map).freeze();
        let other = frozen.clone();
        seen((other.get(&key(8, w)), other.contains_key(&key(7, w)), other.get_key_value(&key(8, w)), other == frozen));
        seen((other.iter().count(), other.range(key(3, w)..).last(), other.prefix(&W2(w)).next(), format!("{other:?}")));
        drop(other);
        *map = frozen.thaw().unwrap_or_default();
    }),
    ("try_ of a frozen map", |map, w| {
        let frozen = std::mem::take(map).freeze();
        seen((frozen.try_get(&key(8, w)), frozen.try_contains_key(&key(7, w)), frozen.try_get_key_value(&key(8, w))));
        seen((frozen.try_range(key(3, w)..), frozen.try_prefix(&W2(w)), frozen.try_clone()));
    }),
];
