//! Sizes of files by their paths: values of any type, a prefix, a range, readers in other threads.
use artmap::ArtMap;
use std::thread;

struct File {
    size: u64,
    names: Vec<String>,
}

fn main() {
    let mut files = ArtMap::<String, File>::new();
    for (path, size) in [("usr/bin/cc", 912), ("usr/lib", 4), ("usr/lib/libc", 2_030), ("var/log", 77)] {
        files.insert(path.to_string(), File { size, names: Vec::new() });
    }
    if let Some(file) = files.get_mut("usr/bin/cc") {
        file.names.push("gcc".to_string());
    }
    for (path, file) in files.prefix("usr/") {
        println!("{path}: {} {:?}", file.size, file.names);
    }
    println!("{} is past usr/lib", files.range("usr/lib0".to_string()..).map(|it| it.0.as_str()).collect::<String>());
    let frozen = files.freeze();
    let readers = ["usr/lib", "var/log"].map(|path| {
        let mine = frozen.clone();
        thread::spawn(move || mine[path].size)
    });
    println!("{:?}", readers.map(|it| it.join().expect("a reader")));
}
