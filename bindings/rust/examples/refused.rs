//! Calls in which a runner refuses memory (`tests/bindings_rust.py`, tests/refuse.c).
//!
//!     refused N   makes a map, and then call N in a window; prints what it answers, and then whether the map is as it was
//!
//! Where memory was refused the call is made once more, outside the window, and must do what it does in a free run. Calls
//! that stop where they are (`try_retain` and its like) leave some of the pairs.
use artmap::{AllocError, ArtMap, Entry, Front, FrozenMap, TryInsertError};
use std::io::Write;
use std::ops::Bound;
use std::process::exit;

type Pairs = Vec<(String, Vec<u8>)>;
type Map = ArtMap<String, Vec<u8>>;
/// Keys whose bytes are put together, and have no room on the stack.
type Parts = (String, u32);

/// Below `a` there is a node for five, of which a loss makes one for four.
fn pairs() -> Pairs {
    let ends = ["aa", "ab", "ac", "ad", "ae", "b0", "b1", "c0", "c1", "d0", "d1"];
    ends.iter().map(|end| (format!("{}{end}", "k".repeat(50)), end.repeat(40).into_bytes())).collect()
}

fn ascending() -> Pairs {
    (0..600).map(|at| (format!("{}{at:03}", "l".repeat(50)), vec![7])).collect()
}

fn sparse() -> Map {
    let mut map: Map = ascending().into_iter().collect();
    map.retain(|key, _| key.ends_with('3'));
    map
}

fn nested() -> ArtMap<Vec<u8>, u32> {
    let key = |at: u8| [vec![7; 100], vec![at; 9]].concat();
    ArtMap::try_from_iter((0..60).map(|at| (key(at), 7)).chain([(vec![9], 9)])).unwrap_or_default()
}

/// What is given, where the pairs in its way are gone; or all as it was.
fn made_way(given: &mut Given) -> Result<usize, AllocError> {
    match given.nested.try_prefix_insert(given.begins.take().unwrap_or_default(), 8) {
        Ok(count) => Ok(100 * count + given.nested.len()),
        Err(why) => {
            given.begins = Some(why.into_pair().0);
            if given.nested == given.nested_was { Err(AllocError) } else { exit(4) }
        }
    }
}

/// What a call is given is made before the window opens.
struct Given {
    all: Pairs,
    new: Option<(String, Vec<u8>)>,
    old: Option<(String, Vec<u8>)>,
    /// For the first time and the second.
    many: [Pairs; 2],
    other: Map,
    large: Map,
    numbers: ArtMap<u32, u32>,
    long: ArtMap<String, u32>,
    /// With room that no pair uses.
    sparse: Map,
    /// Keys of which some begin with one that comes, and that key.
    nested: ArtMap<Vec<u8>, u32>,
    nested_was: ArtMap<Vec<u8>, u32>,
    begins: Option<Vec<u8>>,
    frozen: FrozenMap<String, Vec<u8>>,
    part: String,
    together: [ArtMap<Parts, u32>; 2],
    asked: Parts,
    query: Parts,
}

fn parts(number: u32) -> Parts {
    ("p".repeat(130), number)
}

fn given() -> Given {
    let all = pairs();
    let some: Map = all.iter().skip(3).cloned().collect();
    Given {
        new: Some((format!("{}af", "k".repeat(50)), vec![1; 90])),
        old: Some((all[0].0.clone(), vec![2; 90])),
        many: [ascending(), ascending()],
        other: ascending().into_iter().chain(all[..2].iter().cloned()).collect(),
        large: ascending().into_iter().collect(),
        numbers: (0..600).map(|it| (it, it)).collect(),
        long: (0..9).map(|it| ("m".repeat(100 * it), 7)).collect(),
        sparse: sparse(),
        nested: nested(),
        nested_was: nested(),
        begins: Some(vec![7; 100]),
        frozen: some.freeze(),
        part: all[2].0[..51].to_string(),
        together: [0, 30].map(|from| (from..from + 50).map(|it| (parts(it), it)).collect()),
        asked: parts(41),
        query: parts(3),
        all,
    }
}

/// Puts a pair back where it was not stored.
fn kept<T>(
    from: &mut Option<(String, Vec<u8>)>,
    call: impl FnOnce(String, Vec<u8>) -> Result<T, TryInsertError<String, Vec<u8>>>,
) -> Result<T, AllocError> {
    let (key, value) = from.take().unwrap_or_default();
    call(key, value).map_err(|why| {
        *from = Some(why.into_pair());
        AllocError
    })
}

fn entered(map: &mut Map, key: String, value: Vec<u8>) -> Result<usize, TryInsertError<String, Vec<u8>>> {
    match map.try_entry(key) {
        Ok(Entry::Vacant(entry)) => entry.try_insert_entry(value).map(|it| it.get().len()),
        _ => exit(3),
    }
}

/// Walks and look-ups that need memory for the bytes of keys.
fn put_together(which: usize, given: &mut Given) -> Result<usize, AllocError> {
    let ([map, other], asked) = (&mut given.together, &given.asked);
    match which {
        23 => {
            let mut found =
                usize::from(map.try_contains_key(asked)?) + map.try_get_mut(asked)?.map_or(0, |it| *it as usize);
            found += map.try_get_key_value(asked)?.map_or(0, |pair| pair.0.0.len());
            found += map.try_prefix_get(&Front(asked))?.map_or(0, |it| *it as usize);
            Ok(found + map.try_range(asked..)?.count() + map.try_prefix(&Front(given.query.0.as_str()))?.count())
        }
        24 => {
            map.try_retain(|key, _| key.1 % 5 != 0)?;
            Ok(map.len())
        }
        25 => map.try_split_off(asked).map(|it| it.len() + 100 * map.len()),
        26 => map.try_append(other).map(|()| map.len() + 100 * other.len()).map_err(|_| AllocError),
        27 => {
            for taken in map.try_extract_if(asked.., |key, _| key.1 % 2 == 0) {
                taken?;
            }
            Ok(map.len())
        }
        _ => map.try_remove_prefix(&Front(given.query.0.as_str())),
    }
}

fn size(pair: Option<(String, Vec<u8>)>) -> usize {
    pair.map_or(0, |(key, value)| key.len() + value.len())
}

/// What a call answers, as a number.
fn call(map: &mut Map, which: usize, given: &mut Given) -> Result<usize, AllocError> {
    let last = given.all[given.all.len() - 1].0.as_str();
    match which {
        0 => kept(&mut given.new, |key, value| map.try_insert(key, value)).map(|old| old.map_or(0, |it| it.len())),
        1 => kept(&mut given.old, |key, value| map.try_insert(key, value)).map(|old| old.map_or(0, |it| it.len())),
        2 => Ok(map.try_remove(given.all[1].0.as_str())?.map_or(0, |it| it.len())),
        3 => {
            map.try_remove_prefix(given.part.as_str())?;
            Ok(map.len())
        }
        4 => map.try_pop_first().map(size),
        5 => map.try_pop_last().map(size),
        // (clones of keys and values need no memory here)
        6 => given.numbers.try_clone().map(|it| it.len()),
        7 => {
            // (a map of its own, whose first pair makes it)
            let mut made = Map::new();
            kept(&mut given.new, |key, value| made.try_insert(key, value)).map(|_| made.len())
        }
        8 => {
            map.try_retain(|key, _| key != last && !key.ends_with('c'))?;
            Ok(map.len())
        }
        9 => {
            map.clear();
            Ok(map.len())
        }
        10 => {
            let [one, other] = std::mem::take(&mut given.many);
            given.many = [other, Vec::new()];
            map.try_extend(one).map_err(|_| AllocError)?;
            Ok(map.len())
        }
        11 => map.try_split_off(given.all[4].0.as_str()).map(|it| it.len()),
        12 => map.try_append(&mut given.other).map(|()| given.other.len()).map_err(|_| AllocError),
        13 => {
            for taken in map.try_extract_if(.., |key, _| key.ends_with('a') || key == last) {
                drop(taken?);
            }
            Ok(map.len())
        }
        14 => kept(&mut given.new, |key, value| entered(map, key, value)),
        15 => map.first_entry().map_or(Err(AllocError), artmap::OccupiedEntry::try_remove_entry).map(|it| it.1.len()),
        16 => {
            kept(&mut given.new, |key, value| map.try_prefix_insert(key, value))?;
            Ok(map.len())
        }
        17 => map.try_reserve(1000).map(|()| 0),
        18 => given.frozen.try_clone().map(|it| it.len()),
        19 => Ok(given.large.iter().count() + given.large.values_mut().map(|it| it.len()).sum::<usize>()),
        20 => Ok(map.get(last).map_or(0, Vec::len)
            + given.frozen.range::<str, _>((Bound::Included(last), Bound::Unbounded)).count()),
        21 => {
            // (texts that have no room on the stack)
            let text = given.long.last_key_value().map_or("", |it| it.0.as_str());
            let absent = text.strip_prefix('m').unwrap_or(text);
            Ok(usize::from(given.long.contains_key(text)) + usize::from(given.long.contains_key(absent)))
        }
        22 => kept(&mut given.new, |key, value| match map.try_entry(key) {
            Ok(entry) => entry.try_or_insert(value).map(|it| it.len()),
            Err(_) => exit(3),
        }),
        23..=28 => put_together(which, given),
        29 => kept(&mut given.new, |key, value| match map.try_prefix_entry(key) {
            Ok(entry) => entry.try_insert_entry(value).map(|it| it.get().len()),
            Err(_) => exit(3),
        }),
        30 => map.try_compact().map(|()| map.len()),
        31 => {
            given.sparse.shrink_to_fit();
            Ok(given.sparse.values().map(Vec::len).sum())
        }
        32 => made_way(given),
        33 => {
            // (no key but that of this text begins it)
            let text = given.long.last_key_value().map_or("", |it| it.0.as_str());
            given.long.try_prefix_get(text).map(|it| usize::from(it.is_some()))
        }
        _ => exit(3),
    }
}

/// Those that stop where they are.
fn leaves_some(which: usize) -> bool {
    [8, 10, 13].contains(&which)
}

fn window(is_open: bool) {
    let mark: &[u8] = if is_open { b"refuse\n" } else { b"done\n" };
    if std::io::stderr().write_all(mark).is_err() {
        exit(3);
    }
}

fn main() {
    let which = std::env::args().nth(1).and_then(|it| it.parse().ok()).unwrap_or(usize::MAX);
    let mut given = given();
    // (pair by pair, so that no room for nodes is left over, as it may be where many go in at once)
    let mut map = Map::new();
    for (key, value) in given.all.iter().cloned() {
        map.insert(key, value);
    }
    window(true);
    let mut answer = call(&mut map, which, &mut given);
    window(false);
    if answer.is_err() {
        let all = || given.all.iter().map(|it| (&it.0, &it.1));
        let is_kept = map.iter().eq(all()) && map.iter().rev().eq(all().rev());
        let is_whole =
            map.keys().rev().eq(map.keys().collect::<Vec<_>>().into_iter().rev()) && map.keys().count() == map.len();
        print!("refused {} ", if is_kept || is_whole && leaves_some(which) { "kept" } else { "CHANGED" });
        answer = call(&mut map, which, &mut given);
    }
    let sum = map.iter().fold(17u64, |sum, (key, value)| {
        key.bytes().chain(value.iter().copied()).fold(sum, |sum, it| sum.wrapping_mul(31).wrapping_add(u64::from(it)))
    });
    println!("{answer:?} {} {sum}", map.len());
}
