//! What `perf/drop.py` times of Rust's B-tree: one tenant's full keys cut out of all. Standard input is the number of the
//! tenant, then a line for each full key in hexadecimal.
use std::collections::BTreeMap;
use std::io::Read;

#[repr(C)]
struct Time {
    seconds: i64,
    nanos: i64,
}

extern "C" {
    fn clock_gettime(clock: i32, time: *mut Time) -> i32;
}

/// Nanoseconds of processor time that the process has used.
fn now() -> u64 {
    let mut time = Time { seconds: 0, nanos: 0 };
    unsafe { clock_gettime(2, &mut time) };
    time.seconds as u64 * 1_000_000_000 + time.nanos as u64
}

fn bytes_of(line: &str) -> Vec<u8> {
    (0..line.len() / 2).map(|at| u8::from_str_radix(&line[2 * at..2 * at + 2], 16).unwrap()).collect()
}

fn main() {
    let mut text = String::new();
    std::io::stdin().read_to_string(&mut text).unwrap();
    let mut lines = text.lines();
    let tenant: u32 = lines.next().unwrap().parse().unwrap();
    let mut map: BTreeMap<Vec<u8>, Vec<u8>> = BTreeMap::new();
    for line in lines {
        map.insert(bytes_of(line), b"abcdefgh".to_vec());
    }
    let all = map.len();
    let start = now();
    let mut cut = map.split_off(&tenant.to_be_bytes().to_vec());
    let mut after = cut.split_off(&(tenant + 1).to_be_bytes().to_vec());
    map.append(&mut after);
    drop(cut);
    println!("{} {}", now() - start, all - map.len());
}
