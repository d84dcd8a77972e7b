//! std's documented examples of `BTreeSet`, with the names of this crate.
#![allow(clippy::pedantic, clippy::bool_assert_comparison, unused, reason = "they stand as in the pages of std")]

#[test]
fn the_page() {
    use artmap::ArtSet;

    // Type inference lets us omit an explicit type signature (which
    // would be `ArtSet<&str>` in this example).
    let mut books = ArtSet::new();

    // Add some books.
    books.insert("A Dance With Dragons");
    books.insert("To Kill a Mockingbird");
    books.insert("The Odyssey");
    books.insert("The Great Gatsby");

    // Check for a specific one.
    if !books.contains("The Winds of Winter") {
        println!("We have {} books, but The Winds of Winter ain't one.", books.len());
    }

    // Remove a book.
    books.remove("The Odyssey");

    // Iterate over everything.
    for book in &books {
        println!("{book}");
    }
}

#[test]
fn the_page_2() {
    use artmap::ArtSet;

    let set = ArtSet::from([1, 2, 3]);
}

#[test]
fn new() {
    use artmap::ArtSet;

    let mut set: ArtSet<i32> = ArtSet::new();
}

#[test]
fn range() {
    use artmap::ArtSet;
    use std::ops::Bound::Included;

    let mut set = ArtSet::new();
    set.insert(3);
    set.insert(5);
    set.insert(8);
    for &elem in set.range((Included(&4), Included(&8))) {
        println!("{elem}");
    }
    assert_eq!(Some(&5), set.range(4..).next());
}

#[test]
fn difference() {
    use artmap::ArtSet;

    let mut a = ArtSet::new();
    a.insert(1);
    a.insert(2);

    let mut b = ArtSet::new();
    b.insert(2);
    b.insert(3);

    let diff: Vec<_> = a.difference(&b).cloned().collect();
    assert_eq!(diff, [1]);
}

#[test]
fn symmetric_difference() {
    use artmap::ArtSet;

    let mut a = ArtSet::new();
    a.insert(1);
    a.insert(2);

    let mut b = ArtSet::new();
    b.insert(2);
    b.insert(3);

    let sym_diff: Vec<_> = a.symmetric_difference(&b).cloned().collect();
    assert_eq!(sym_diff, [1, 3]);
}

#[test]
fn intersection() {
    use artmap::ArtSet;

    let mut a = ArtSet::new();
    a.insert(1);
    a.insert(2);

    let mut b = ArtSet::new();
    b.insert(2);
    b.insert(3);

    let intersection: Vec<_> = a.intersection(&b).cloned().collect();
    assert_eq!(intersection, [2]);
}

#[test]
fn union() {
    use artmap::ArtSet;

    let mut a = ArtSet::new();
    a.insert(1);

    let mut b = ArtSet::new();
    b.insert(2);

    let union: Vec<_> = a.union(&b).cloned().collect();
    assert_eq!(union, [1, 2]);
}

#[test]
fn clear() {
    use artmap::ArtSet;

    let mut v = ArtSet::new();
    v.insert(1);
    v.clear();
    assert!(v.is_empty());
}

#[test]
fn contains() {
    use artmap::ArtSet;

    let set = ArtSet::from([1, 2, 3]);
    assert_eq!(set.contains(&1), true);
    assert_eq!(set.contains(&4), false);
}

#[test]
fn get() {
    use artmap::ArtSet;

    let set = ArtSet::from([1, 2, 3]);
    assert_eq!(set.get(&2), Some(&2));
    assert_eq!(set.get(&4), None);
}

#[test]
fn is_disjoint() {
    use artmap::ArtSet;

    let a = ArtSet::from([1, 2, 3]);
    let mut b = ArtSet::new();

    assert_eq!(a.is_disjoint(&b), true);
    b.insert(4);
    assert_eq!(a.is_disjoint(&b), true);
    b.insert(1);
    assert_eq!(a.is_disjoint(&b), false);
}

#[test]
fn is_subset() {
    use artmap::ArtSet;

    let sup = ArtSet::from([1, 2, 3]);
    let mut set = ArtSet::new();

    assert_eq!(set.is_subset(&sup), true);
    set.insert(2);
    assert_eq!(set.is_subset(&sup), true);
    set.insert(4);
    assert_eq!(set.is_subset(&sup), false);
}

#[test]
fn is_superset() {
    use artmap::ArtSet;

    let sub = ArtSet::from([1, 2]);
    let mut set = ArtSet::new();

    assert_eq!(set.is_superset(&sub), false);

    set.insert(0);
    set.insert(1);
    assert_eq!(set.is_superset(&sub), false);

    set.insert(2);
    assert_eq!(set.is_superset(&sub), true);
}

#[test]
fn first() {
    use artmap::ArtSet;

    let mut set = ArtSet::new();
    assert_eq!(set.first(), None);
    set.insert(1);
    assert_eq!(set.first(), Some(&1));
    set.insert(2);
    assert_eq!(set.first(), Some(&1));
}

#[test]
fn last() {
    use artmap::ArtSet;

    let mut set = ArtSet::new();
    assert_eq!(set.last(), None);
    set.insert(1);
    assert_eq!(set.last(), Some(&1));
    set.insert(2);
    assert_eq!(set.last(), Some(&2));
}

#[test]
fn pop_first() {
    use artmap::ArtSet;

    let mut set = ArtSet::new();

    set.insert(1);
    while let Some(n) = set.pop_first() {
        assert_eq!(n, 1);
    }
    assert!(set.is_empty());
}

#[test]
fn pop_last() {
    use artmap::ArtSet;

    let mut set = ArtSet::new();

    set.insert(1);
    while let Some(n) = set.pop_last() {
        assert_eq!(n, 1);
    }
    assert!(set.is_empty());
}

#[test]
fn insert() {
    use artmap::ArtSet;

    let mut set = ArtSet::new();

    assert_eq!(set.insert(2), true);
    assert_eq!(set.insert(2), false);
    assert_eq!(set.len(), 1);
}

#[test]
fn replace() {
    use artmap::ArtSet;

    let mut set = ArtSet::new();
    set.insert(String::new());

    assert_eq!(set.get("").unwrap().capacity(), 0);
    set.replace(String::with_capacity(10));
    assert_eq!(set.get("").unwrap().capacity(), 10);
}

#[test]
fn remove() {
    use artmap::ArtSet;

    let mut set = ArtSet::new();

    set.insert(2);
    assert_eq!(set.remove(&2), true);
    assert_eq!(set.remove(&2), false);
}

#[test]
fn take() {
    use artmap::ArtSet;

    let mut set = ArtSet::from([1, 2, 3]);
    assert_eq!(set.take(&2), Some(2));
    assert_eq!(set.take(&2), None);
}

#[test]
fn retain() {
    use artmap::ArtSet;

    let mut set = ArtSet::from([1, 2, 3, 4, 5, 6]);
    // Keep only the even numbers.
    set.retain(|&k| k % 2 == 0);
    assert!(set.iter().eq([2, 4, 6].iter()));
}

#[test]
fn append() {
    use artmap::ArtSet;

    let mut a = ArtSet::new();
    a.insert(1);
    a.insert(2);
    a.insert(3);

    let mut b = ArtSet::new();
    b.insert(3);
    b.insert(4);
    b.insert(5);

    a.append(&mut b);

    assert_eq!(a.len(), 5);
    assert_eq!(b.len(), 0);

    assert!(a.contains(&1));
    assert!(a.contains(&2));
    assert!(a.contains(&3));
    assert!(a.contains(&4));
    assert!(a.contains(&5));
}

#[test]
fn split_off() {
    use artmap::ArtSet;

    let mut a = ArtSet::new();
    a.insert(1);
    a.insert(2);
    a.insert(3);
    a.insert(17);
    a.insert(41);

    let b = a.split_off(&3);

    assert_eq!(a.len(), 2);
    assert_eq!(b.len(), 3);

    assert!(a.contains(&1));
    assert!(a.contains(&2));

    assert!(b.contains(&3));
    assert!(b.contains(&17));
    assert!(b.contains(&41));
}

#[test]
fn extract_if() {
    use artmap::ArtSet;

    // Splitting a set into even and odd values, reusing the original set:
    let mut set: ArtSet<i32> = (0..8).collect();
    let evens: ArtSet<_> = set.extract_if(.., |v| v % 2 == 0).collect();
    let odds = set;
    assert_eq!(evens.into_iter().collect::<Vec<_>>(), vec![0, 2, 4, 6]);
    assert_eq!(odds.into_iter().collect::<Vec<_>>(), vec![1, 3, 5, 7]);

    // Splitting a set into low and high halves, reusing the original set:
    let mut set: ArtSet<i32> = (0..8).collect();
    let low: ArtSet<_> = set.extract_if(0..4, |_v| true).collect();
    let high = set;
    assert_eq!(low.into_iter().collect::<Vec<_>>(), [0, 1, 2, 3]);
    assert_eq!(high.into_iter().collect::<Vec<_>>(), [4, 5, 6, 7]);
}

#[test]
fn iter() {
    use artmap::ArtSet;

    let set = ArtSet::from([3, 1, 2]);
    let mut set_iter = set.iter();
    assert_eq!(set_iter.next(), Some(&1));
    assert_eq!(set_iter.next(), Some(&2));
    assert_eq!(set_iter.next(), Some(&3));
    assert_eq!(set_iter.next(), None);
}

#[test]
fn len() {
    use artmap::ArtSet;

    let mut v = ArtSet::new();
    assert_eq!(v.len(), 0);
    v.insert(1);
    assert_eq!(v.len(), 1);
}

#[test]
fn is_empty() {
    use artmap::ArtSet;

    let mut v = ArtSet::new();
    assert!(v.is_empty());
    v.insert(1);
    assert!(!v.is_empty());
}

#[test]
fn bitand() {
    use artmap::ArtSet;

    let a = ArtSet::from([1, 2, 3]);
    let b = ArtSet::from([2, 3, 4]);

    let result = &a & &b;
    assert_eq!(result, ArtSet::from([2, 3]));
}

#[test]
fn bitor() {
    use artmap::ArtSet;

    let a = ArtSet::from([1, 2, 3]);
    let b = ArtSet::from([3, 4, 5]);

    let result = &a | &b;
    assert_eq!(result, ArtSet::from([1, 2, 3, 4, 5]));
}

#[test]
fn bitxor() {
    use artmap::ArtSet;

    let a = ArtSet::from([1, 2, 3]);
    let b = ArtSet::from([2, 3, 4]);

    let result = &a ^ &b;
    assert_eq!(result, ArtSet::from([1, 4]));
}

#[test]
fn from() {
    use artmap::ArtSet;

    let set1 = ArtSet::from([1, 2, 3, 4]);
    let set2: ArtSet<_> = [1, 2, 3, 4].into();
    assert_eq!(set1, set2);
}

#[test]
fn into_iter() {
    use artmap::ArtSet;

    let set = ArtSet::from([1, 2, 3, 4]);

    let v: Vec<_> = set.into_iter().collect();
    assert_eq!(v, [1, 2, 3, 4]);
}

#[test]
fn sub() {
    use artmap::ArtSet;

    let a = ArtSet::from([1, 2, 3]);
    let b = ArtSet::from([3, 4, 5]);

    let result = &a - &b;
    assert_eq!(result, ArtSet::from([1, 2]));
}
