//! Keys, values and closures that are hostile: in each call of a map and of a set each of their methods panics once, tells other
//! bytes than before, once or from then on, or an error. Then no place is lent twice, each key and value has been dropped
//! once, and where none lied the map is whole. Where `ARTMAP_CALLS` asks for few calls, one step in four is played.
#![forbid(unsafe_code)]
mod destructors;
mod maps;
mod sets;
mod world;

use std::cell::RefCell;
use std::collections::HashSet;
use std::panic::{AssertUnwindSafe, catch_unwind, set_hook};
use std::rc::Rc;
use world::{LIES, Mode, Val, W};

/// A call on what is built, and its name. One with `try_` before it may be told that memory lacks.
type Row<T> = (&'static str, fn(&mut T, &W));

/// What is built, and looked at.
trait Built: Sized {
    fn new(world: &W, order: u32) -> Self;

    /// How many keys and values live in it.
    fn objects(&self) -> usize;

    /// Puts keys in that are honest, into the places that are free.
    fn grow(&mut self, world: &W);

    /// That each place is lent once, where a walk is gone to its end; and, if none lied, that all is found.
    fn look(&mut self, is_whole: bool);
}

/// Goes some walk to its end, which a panic may be.
fn silent(call: impl FnOnce()) -> bool {
    catch_unwind(AssertUnwindSafe(call)).is_ok()
}

thread_local! {
    /// Where a place was lent twice.
    static TWICE: RefCell<Option<String>> = const { RefCell::new(None) };
}

/// Each of these places is another one. (A panic is caught, so a wrong one is kept.)
fn apart<'a>(lent: impl IntoIterator<Item = &'a mut Val>, of: &str) {
    let mut lent: Vec<&mut Val> = lent.into_iter().collect();
    for it in &mut lent {
        it.number += 1;
    }
    let places: HashSet<*const Val> = lent.iter().map(|it| &raw const **it).collect();
    if places.len() != lent.len() {
        TWICE.set(Some(of.to_string()));
    }
}

/// As [`apart`], of a walk from both ends by turns. Tells whether it came to its end, without a panic.
fn from_both_ends<'a, I: DoubleEndedIterator<Item = &'a mut Val>>(mut walk: I, of: &str) -> bool {
    let mut lent = Vec::new();
    let is_ended = silent(|| {
        while let Some(it) = walk.next() {
            lent.push(it);
            lent.extend(walk.next_back());
        }
    });
    apart(lent, of);
    is_ended
}

/// Plays a row with each of its steps as the one that is hostile. Tells how many there were.
fn played<T: Built>(row: &Row<T>, order: u32, mode: Mode) -> u32 {
    let is_short = std::env::var("ARTMAP_CALLS").is_ok_and(|it| it.parse().is_ok_and(|calls: u32| calls < 1_000_000));
    let (mut step, stride) = (0, if is_short { 4 } else { 1 });
    loop {
        step += stride;
        let at = format!("{} of order {order}, {mode:?} at {step}", row.0);
        let world: W = Rc::default();
        let mut built = T::new(&world, order);
        world.arm(step, mode);
        let is_ended = silent(|| row.1(&mut built, &world));
        let has_struck = world.disarm();
        assert_eq!(world.live(), built.objects(), "{at}: what lives");
        built.look(matches!(mode, Mode::Panic | Mode::Error));
        silent(|| built.grow(&world));
        built.look(matches!(mode, Mode::Panic | Mode::Error));
        assert_eq!(TWICE.take(), None, "{at}: lent twice");
        assert_eq!(world.live(), built.objects(), "{at}: what lives after a look");
        assert!(silent(|| drop(built)) && world.live() == 0, "{at}: what lives at the end");
        assert!(is_ended || has_struck, "{at}: a panic without cause");
        assert!(!is_ended || !has_struck || mode != Mode::Panic, "{at}: a panic was lost");
        if !has_struck {
            return step - stride;
        }
    }
}

/// Plays all rows in all ways.
fn all<T: Built>(rows: &[Row<T>], wanted: u32) {
    // (those that are wanted say nothing)
    set_hook(Box::new(|it| {
        if it.location().is_some_and(|at| at.file().ends_with("hostile/main.rs")) {
            eprintln!("{it}");
        }
    }));
    let mut steps = 0;
    for row in rows {
        for order in [0, 1] {
            steps += played(row, order, Mode::Panic);
            for lie in LIES {
                steps += played(row, order, lie);
            }
            if row.0.starts_with("try_") {
                steps += played(row, order, Mode::Error);
            }
        }
    }
    assert!(steps > wanted, "{steps} steps");
}

/// The rows of a part, where each has so many (they run beside one another).
fn part<T>(rows: &[Row<T>], which: usize) -> &[Row<T>] {
    rows.chunks(rows.len().div_ceil(4)).nth(which).unwrap_or_default()
}

#[test]
fn maps_hold_in_the_first_part() {
    all(part(maps::ROWS, 0), 1_000);
}

#[test]
fn maps_hold_in_the_second_part() {
    all(part(maps::ROWS, 1), 1_000);
}

#[test]
fn maps_hold_in_the_third_part() {
    all(part(maps::ROWS, 2), 1_000);
}

#[test]
fn maps_hold_in_the_last_part() {
    all(part(maps::ROWS, 3), 1_000);
}

#[test]
fn sets_hold() {
    all(sets::ROWS, 1_000);
}
