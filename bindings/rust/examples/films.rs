use artmap::ArtMap;
fn main() {
    let films = ArtMap::from([("Office Space", 4), ("Brazil", 5), ("Office", 2)]);
    for (title, stars) in films.prefix("Off") {
        println!("{title}: {stars}");
    }
    println!("{:?} is the first of {}", films.first_key_value(), films.len());
}
