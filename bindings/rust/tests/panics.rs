//! A panic in a `Drop`, a `Clone`, a closure, an iterator or a conversion leaves the map whole: it has the pairs that std's map
//! has then, and each value is dropped once.
use artmap::{AllocError, ArtMap, ArtSet, Key, NoPrefixes};
use std::cell::Cell;
use std::collections::BTreeMap;
use std::panic::{AssertUnwindSafe, catch_unwind};
use std::rc::Rc;

/// How many values live, and which number panics where it is dropped, cloned or coded.
#[derive(Default)]
struct State {
    alive: Cell<i32>,
    drop: Cell<u32>,
    clone: Cell<u32>,
    code: Cell<u32>,
}

const NONE: u32 = 0;

struct Trap(u32, Rc<State>);

impl Trap {
    fn new(number: u32, state: &Rc<State>) -> Trap {
        state.alive.set(state.alive.get() + 1);
        Trap(number, state.clone())
    }
}

impl Drop for Trap {
    fn drop(&mut self) {
        self.1.alive.set(self.1.alive.get() - 1);
        let is_mine = self.1.drop.get() == self.0 && self.1.drop.replace(NONE) != NONE;
        assert!(!is_mine, "a drop");
    }
}

impl Clone for Trap {
    fn clone(&self) -> Trap {
        assert!(self.1.clone.get() != self.0, "a clone");
        Trap::new(self.0, &self.1)
    }
}

impl Key for Trap {
    type Bytes<'a> = [u8; 4];

    fn to_bytes(&self) -> Result<[u8; 4], AllocError> {
        assert!(self.1.code.get() != self.0, "a coding");
        self.0.to_bytes()
    }
}

impl NoPrefixes for Trap {}

impl PartialEq for Trap {
    fn eq(&self, other: &Self) -> bool {
        self.0 == other.0
    }
}
impl Eq for Trap {}
impl PartialOrd for Trap {
    fn partial_cmp(&self, other: &Self) -> Option<std::cmp::Ordering> {
        Some(self.cmp(other))
    }
}
impl Ord for Trap {
    fn cmp(&self, other: &Self) -> std::cmp::Ordering {
        self.0.cmp(&other.0)
    }
}

type Map = ArtMap<u32, Trap>;
type Model = BTreeMap<u32, Trap>;

fn panics(call: impl FnOnce()) {
    assert!(catch_unwind(AssertUnwindSafe(call)).is_err(), "no panic");
}

/// Both are as the numbers, and nothing else lives.
fn same(map: &Map, model: &Model, state: &State) {
    assert_eq!(map.len(), model.len());
    assert!(map.iter().map(|it| (it.0, it.1.0)).eq(model.iter().map(|it| (it.0, it.1.0))));
    assert!(map.iter().rev().map(|it| it.0).eq(model.keys().rev()));
    let twice = i32::try_from(map.len()).unwrap() * 2;
    assert_eq!(state.alive.get(), twice);
}

fn both(state: &Rc<State>) -> (Map, Model) {
    let pairs = || (1..=200).map(|it| (it, Trap::new(it, state)));
    (pairs().collect(), pairs().collect())
}

/// Has a value panic where it is dropped, in the call on each of the maps.
fn dropped(at: u32, mine: impl FnOnce(&mut Map, &Rc<State>), other: impl FnOnce(&mut Model, &Rc<State>)) {
    let state = Rc::default();
    let (mut map, mut model) = both(&state);
    state.drop.set(at);
    panics(|| mine(&mut map, &state));
    state.drop.set(at);
    panics(|| other(&mut model, &state));
    state.drop.set(NONE);
    same(&map, &model, &state);
}

#[test]
fn a_drop() {
    dropped(7, |map, _| drop(map.remove(&7)), |map, _| drop(map.remove(&7)));
    dropped(
        7,
        |map, state| drop(map.insert(7, Trap::new(8, state))),
        |map, state| drop(map.insert(7, Trap::new(8, state))),
    );
    dropped(50, |map, _| map.retain(|key, _| key % 5 != 0), |map, _| map.retain(|key, _| key % 5 != 0));
    dropped(90, |map, _| drop(map.split_off(&30)), |map, _| drop(map.split_off(&30)));
    dropped(150, |map, _| map.clear(), |map, _| map.clear());
    dropped(
        20,
        |map, _| map.extract_if(..40, |_, _| true).take(25).for_each(drop),
        |map, _| {
            (1..=20).for_each(|it| drop(map.remove(&it)));
        },
    );
    dropped(60, |map, _| assert_eq!(map.remove_prefix(&[0, 0, 0]), 200), |map, _| map.clear());
    dropped(1, |map, _| drop(map.pop_first()), |map, _| drop(map.pop_first()));
    dropped(
        9,
        |map, state| map.append(&mut [(9, Trap::new(1, state)), (10, Trap::new(2, state))].into_iter().collect()),
        |map, state| {
            // (what was not moved yet is dropped)
            map.insert(9, Trap::new(1, state));
        },
    );
}

#[test]
fn a_drop_of_the_map_and_of_its_walks() {
    for taken in [0, 1, 50] {
        let state: Rc<State> = Rc::default();
        let (map, model) = both(&state);
        drop(model);
        state.drop.set(120);
        let mut walk = map.into_iter();
        assert_eq!(walk.by_ref().take(taken).count(), taken);
        panics(|| drop(walk));
        assert_eq!(state.alive.get(), 0);
    }
}

#[test]
fn a_clone() {
    let state = Rc::default();
    let (map, model) = both(&state);
    state.clone.set(77);
    panics(|| drop(map.clone()));
    same(&map, &model, &state);
}

#[test]
fn a_closure() {
    let state = Rc::default();
    let (mut map, mut model) = both(&state);
    let keeps = |key: &u32| if *key == 100 { panic!("at 100") } else { key % 2 == 0 };
    panics(|| map.retain(|key, _| keeps(key)));
    panics(|| model.retain(|key, _| keeps(key)));
    same(&map, &model, &state);
    panics(|| map.entry(500).or_insert_with(|| panic!("no value")).0 = 1);
    panics(|| drop(map.entry(6).and_modify(|_| panic!("no change"))));
    panics(|| map.extract_if(.., |key, _| if *key == 120 { panic!("at 120") } else { key % 4 == 0 }).for_each(drop));
    (1..120).filter(|it| it % 4 == 0).for_each(|it| drop(model.remove(&it)));
    same(&map, &model, &state);
}

#[test]
fn an_iterator() {
    for stop in [1, 2, 700, 4095, 4096, 4097] {
        for order in [0, 1] {
            let state: Rc<State> = Rc::default();
            let pairs = |start: u32| {
                let state = &state;
                (0..5000).map(move |at| {
                    assert!(at != stop, "at its end");
                    let number = if order == 0 { start + at } else { start + at * 7919 % 5000 };
                    (number, Trap::new(number, state))
                })
            };
            let (mut map, mut model) = (Map::new(), Model::new());
            panics(|| map.extend(pairs(5)));
            panics(|| model.extend(pairs(5)));
            same(&map, &model, &state);
            panics(|| drop(pairs(5).collect::<Map>()));
            same(&map, &model, &state);
        }
    }
}

/// Numbers, of which it tells that there are so many, or panics.
struct Lying(std::ops::Range<u32>, Option<usize>);

impl Iterator for Lying {
    type Item = (u32, u32);

    fn next(&mut self) -> Option<(u32, u32)> {
        self.0.next().map(|it| (it, it))
    }

    fn size_hint(&self) -> (usize, Option<usize>) {
        (self.1.expect("a size"), None)
    }
}

#[test]
fn a_size_that_is_not_so() {
    for size in [0, 1, 7, 5000, usize::MAX] {
        let mut map: ArtMap<_, _> = Lying(0..300, Some(size)).collect();
        map.extend(Lying(200..400, Some(size)));
        assert!(map.iter().map(|(key, value)| (*key, *value)).eq((0..400).map(|it| (it, it))), "{size}");
        panics(|| map.extend(Lying(0..1, None)));
        assert_eq!(map.len(), 400);
    }
    panics(|| drop(Lying(0..300, None).collect::<ArtMap<_, _>>()));
}

#[test]
fn a_conversion() {
    let state: Rc<State> = Rc::default();
    let mut set: ArtSet<Trap> = (1..=200).map(|it| Trap::new(it, &state)).collect();
    state.code.set(150);
    panics(|| assert!(set.insert(Trap::new(150, &state))));
    panics(|| assert!(set.remove(&Trap::new(150, &state))));
    panics(|| set.extend((190..300).chain([150]).map(|it| Trap::new(it, &state))));
    panics(|| set.retain(|key| key.0 != 150));
    panics(|| drop(set.split_off(&Trap::new(100, &state))));
    panics(|| assert!(set.iter().all(|key| key.to_bytes().is_ok())));
    state.code.set(NONE);
    assert!(set.iter().map(|it| it.0).eq(1..300) && set.iter().rev().map(|it| it.0).eq((1..300).rev()));
    assert_eq!(state.alive.get(), 299);
    assert!((1..300).all(|it| set.contains(&Trap::new(it, &state))));
}
