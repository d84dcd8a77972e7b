//! The calls of a set.
use crate::world::{Evil, W, W2};
use crate::{Built, Row};
use artmap::ArtSet;
use std::hash::{DefaultHasher, Hash};

pub type Set = ArtSet<Evil>;

const MANY: u32 = 14;

impl Built for Set {
    fn new(world: &W, order: u32) -> Set {
        let mut set = Set::new();
        for at in 0..MANY {
            set.insert(Evil::new(if order == 0 { at * 2 } else { at * 5 % MANY * 2 }, world));
        }
        set
    }

    fn objects(&self) -> usize {
        self.len()
    }

    fn grow(&mut self, world: &W) {
        for id in [101, 7, 103, 102, 105] {
            let _ = self.try_insert(key(id, world));
        }
    }

    fn look(&mut self, is_whole: bool) {
        if is_whole {
            let len = self.len();
            assert!(self.range::<Evil, _>(..).count() == len && self.iter().rev().count() == len);
            assert!(self.iter().map(|it| it.id).is_sorted() && self.iter().all(|it| self.contains(it)));
        }
    }
}

fn key(id: u32, world: &W) -> Evil {
    Evil::new(id, world)
}

fn keys(ids: impl IntoIterator<Item = u32>, world: &W) -> impl Iterator<Item = Evil> {
    ids.into_iter().map(move |id| {
        world.step();
        key(id, world)
    })
}

fn of(ids: impl IntoIterator<Item = u32>, world: &W) -> Set {
    Set::try_from_iter(keys(ids, world)).unwrap_or_default()
}

fn said(w: &W, key: &Evil) -> bool {
    w.step();
    key.id % 3 == 0
}

fn seen<T>(_: T) {}

#[rustfmt::skip]
pub const ROWS: &[Row<Set>] = &[
    ("insert", |set, w| seen((set.insert(key(7, w)), set.insert(key(8, w))))),
    ("try_insert", |set, w| seen((set.try_insert(key(7, w)), set.try_insert(key(8, w))))),
    ("replace", |set, w| seen((set.replace(key(7, w)), set.replace(key(8, w))))),
    ("try_replace", |set, w| seen((set.try_replace(key(7, w)), set.try_replace(key(8, w))))),
    ("remove", |set, w| seen((set.remove(&key(7, w)), set.remove(&key(8, w))))),
    ("take", |set, w| seen(set.take(&key(8, w)))),
    ("try_remove", |set, w| seen(set.try_remove(&key(8, w)))),
    ("try_take", |set, w| seen(set.try_take(&key(8, w)))),
    ("pop_first", |set, _| { while set.pop_first().is_some() {} }),
    ("pop_last", |set, _| { while set.pop_last().is_some() {} }),
    ("try_pop_first", |set, _| seen((set.try_pop_first(), set.try_pop_last()))),
    ("remove_prefix", |set, w| seen(set.remove_prefix(&W2(w)))),
    ("try_remove_prefix", |set, w| seen(set.try_remove_prefix(&W2(w)))),
    ("retain", |set, w| set.retain(|key| said(w, key))),
    ("try_retain", |set, w| seen(set.try_retain(|key| said(w, key)))),
    ("extract_if", |set, w| set.extract_if(key(3, w).., |key| said(w, key)).for_each(drop)),
    ("try_extract_if", |set, w| set.try_extract_if(.., |key| said(w, key)).for_each(drop)),
    ("append", |set, w| set.append(&mut of([5, 8, 40, 41], w))),
    ("try_append", |set, w| seen(set.try_append(&mut of([5, 8, 40, 41], w)))),
    ("split_off", |set, w| seen(set.split_off(&key(11, w)))),
    ("try_split_off", |set, w| seen(set.try_split_off(&key(11, w)))),
    ("extend", |set, w| set.extend(keys([30, 31, 3, 8, 32], w))),
    ("try_extend", |set, w| seen(set.try_extend(keys([30, 31, 3, 8, 32], w)))),
    ("try_from_iter", |_, w| seen(Set::try_from_iter(keys([30, 31, 3, 8, 32], w)))),
    ("try_clone", |set, _| seen(set.try_clone())),
    ("clone", |set, _| seen(set.clone())),
    ("shrink_to_fit", |set, _| set.shrink_to_fit()),
    ("try_compact", |set, _| seen(set.try_compact())),
    ("contains", |set, w| seen((set.contains(&key(8, w)), set.get(&key(8, w)), set.prefix_get(&W2(w))))),
    ("prefixes", |set, w| seen(set.prefixes(&W2(w)).count())),
    ("try_contains", |set, w| seen((set.try_contains(&key(8, w)), set.try_get(&key(8, w)), set.try_prefix_get(&W2(w))))),
    ("first, last", |set, _| seen((set.first(), set.last()))),
    ("iter", |set, _| seen((set.iter().last(), set.iter().rev().count(), format!("{:?}", set.iter())))),
    ("range", |set, w| seen((set.range(key(3, w)..).count(), set.prefix(&W2(w)).count()))),
    ("try_range", |set, w| seen((set.try_range(key(3, w)..), set.try_prefix(&W2(w))))),
    ("difference", |set, w| set.difference(&of([4, 8, 9], w)).for_each(drop)),
    ("symmetric_difference", |set, w| set.symmetric_difference(&of([4, 8, 9], w)).for_each(drop)),
    ("intersection", |set, w| set.intersection(&of([4, 8, 9], w)).for_each(drop)),
    ("union", |set, w| set.union(&of([4, 8, 9], w)).for_each(drop)),
    ("is_disjoint", |set, w| seen((set.is_disjoint(&of([1], w)), set.is_subset(&of(0..30, w)), set.is_superset(&of([2], w))))),
    ("operators", |set, w| { let it = of([4, 8, 9], w); seen((&*set & &it, &*set | &it, &*set ^ &it, &*set - &it)); }),
    ("eq, cmp, hash", |set, w| { seen((*set == of(0..14, w), set.cmp(&&mut of([0, 2], w)))); set.hash(&mut DefaultHasher::new()); }),
    ("debug", |set, _| seen(format!("{set:?}"))),
    ("into_iter", |set, _| std::mem::take(set).into_iter().for_each(drop)),
    ("into_iter, half", |set, _| std::mem::take(set).into_iter().rev().take(5).for_each(drop)),
    ("freeze", |set, w| {
        let frozen = std::mem::take(set).freeze();
        seen((frozen.clone().contains(&key(8, w)), frozen.iter().count(), frozen.range(key(3, w)..).count()));
        *set = frozen.thaw().unwrap_or_default();
    }),
    ("frozen sets", |set, w| {
        let (one, other) = (set.freeze_clone(), of([4, 8, 9], w).freeze());
        seen((one.union(&other).count(), one.difference(&other).count(), one.is_subset(&other), one.cmp(&other)));
        one.hash(&mut DefaultHasher::new());
    }),
    ("clear", |set, _| set.clear()),
];
