//! A path catalogue: each path of a file with its size. Folders are listed, counted and removed by their prefix.
use artmap::ArtMap;

type Paths = ArtMap<String, u64>;

/// Files a path, and says what it was before.
fn file(paths: &mut Paths, path: &str, size: u64) {
    match paths.insert(path.to_string(), size) {
        None => println!("file {path} {size}"),
        Some(old) => println!("file {path} {size}, was {old}"),
    }
}

/// Lists what is below a folder, and the sum of its sizes.
fn list(paths: &Paths, folder: &str) {
    println!("below {folder}:");
    for (path, size) in paths.prefix(folder) {
        println!("  {path} {size}");
    }
    println!("  {} in all", paths.prefix(folder).map(|it| it.1).sum::<u64>());
}

fn main() {
    let mut paths = Paths::new();
    for (path, size) in [
        ("usr/lib/libc", 2_030),
        ("usr/bin/cc", 912),
        ("usr/lib", 4),
        ("var/log/boot", 77),
        ("usr/bin/ld", 640),
        ("usr/bin/cc", 918),
    ] {
        file(&mut paths, path, size);
    }
    list(&paths, "usr/bin/");
    list(&paths, "usr/");
    println!("the last is {:?}", paths.keys().next_back());
    println!("after usr/bin/d comes {:?}", paths.range("usr/bin/d".to_string()..).next());
    println!("{} below usr/bin/ are gone", paths.remove_prefix("usr/bin/"));
    paths.retain(|_, size| *size > 50);
    println!("{paths:?}");
}
