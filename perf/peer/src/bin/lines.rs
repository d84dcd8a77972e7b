//! For ./bench --program alone: the line language's loads, `get` lines and dumps over the unproved tree with a `Vec` for
//! each key and each value, as the map here has them (`art-vec`), or with linked leaves too (`art-list`, feature `list`).
use peers::art::{Art, Insert};
use peers::lines::{serve, Put, Store};

#[cfg(feature = "list")]
mod leaf {
    use peers::art::Listed;

    pub type Record = Box<Listed<Vec<u8>, Vec<u8>>>;

    pub fn record(key: &[u8], value: &[u8]) -> Record {
        Box::new(Listed::new(key.to_vec(), value.to_vec()))
    }
    pub fn parts(record: &Record) -> (&[u8], &[u8]) {
        (&record.key, &record.value)
    }
}

#[cfg(not(feature = "list"))]
mod leaf {
    pub type Record = Box<(Vec<u8>, Vec<u8>)>;

    pub fn record(key: &[u8], value: &[u8]) -> Record {
        Box::new((key.to_vec(), value.to_vec()))
    }
    pub fn parts(record: &Record) -> (&[u8], &[u8]) {
        (&record.0, &record.1)
    }
}

use leaf::{parts, record, Record};

struct Records(Art<Record>);

struct Old(Record);

impl AsRef<[u8]> for Old {
    fn as_ref(&self) -> &[u8] {
        parts(&self.0).1
    }
}

/// What is not timed is not here.
impl Store for Records {
    type Value = Old;

    fn put(&mut self, full: &[u8], value: &[u8]) -> Put<Old> {
        match self.0.insert(record(full, value)) {
            Insert::New => Put::New,
            Insert::Old(old) => Put::Old(Old(old)),
            Insert::Conflict(_) => Put::Conflict,
        }
    }
    fn get(&self, full: &[u8]) -> Option<&[u8]> {
        self.0.get(full).map(|it| parts(it).1)
    }
    fn dump(&self, mut of_bytes: impl FnMut(&[u8], &[u8]), _of_numbers: impl FnMut(u32, i64, &[u8])) {
        self.0.for_each(&mut |it| of_bytes(parts(it).0, parts(it).1));
    }
    fn over(&mut self, _: &[u8], _: &[u8]) -> usize {
        unimplemented!()
    }
    fn find(&self, _: &[u8]) -> Option<(&[u8], &[u8])> {
        unimplemented!()
    }
    fn del(&mut self, _: &[u8]) -> Option<Old> {
        unimplemented!()
    }
    fn list(&self, _: &[u8], _: impl FnMut(&[u8], &[u8])) {
        unimplemented!()
    }
    fn span(&self, _: &[u8], _: &[u8], _: impl FnMut(&[u8], &[u8])) {
        unimplemented!()
    }
    fn nput(&mut self, _: u32, _: i64, _: &[u8]) -> Option<Old> {
        unimplemented!()
    }
    fn nget(&self, _: u32, _: i64) -> Option<&[u8]> {
        unimplemented!()
    }
    fn ndel(&mut self, _: u32, _: i64) -> Option<Old> {
        unimplemented!()
    }
    fn nspan(&self, _: u32, _: i64, _: i64, _: impl FnMut(i64, &[u8])) {
        unimplemented!()
    }
}

fn main() {
    serve(Records(Art::new()))
}
