//! A catalogue with a map and a set, written as JSON and read again.
use artmap::{ArtMap, ArtSet};
use serde::{Deserialize, Serialize};

#[derive(Serialize, Deserialize)]
struct Catalogue {
    sizes: ArtMap<String, u64>,
    seen: ArtSet<u32>,
}

fn main() -> Result<(), serde_json::Error> {
    let sizes = ArtMap::from([("var/log".to_string(), 64), ("usr/lib".to_string(), 2_030)]);
    let text = serde_json::to_string(&Catalogue { sizes, seen: ArtSet::from([7, 2]) })?;
    println!("{text}");
    let read: Catalogue = serde_json::from_str(&text)?;
    println!("{} below usr/, {} seen", read.sizes.prefix("usr/").count(), read.seen.len());
    Ok(())
}
