//! Times: the seconds, and then the nanoseconds of a second.
use super::fixed;
use std::time::{Duration, SystemTime, UNIX_EPOCH};

const SECOND: u32 = 1_000_000_000;

fixed! {
    Duration, 12, self, time(self.as_secs(), self.subsec_nanos());
    SystemTime, 12, self, instant(self);
}

fn time(seconds: u64, nanos: u32) -> [u8; 12] {
    let mut bytes = [0; 12];
    bytes[..8].copy_from_slice(&seconds.to_be_bytes());
    bytes[8..].copy_from_slice(&nanos.to_be_bytes());
    bytes
}

/// Seconds since 1970, as a signed number is coded. (A system's time is at most `i64::MAX` seconds away.)
fn instant(of: &SystemTime) -> [u8; 12] {
    const EPOCH: u64 = 1 << 63;
    match of.duration_since(UNIX_EPOCH) {
        Ok(after) => time(EPOCH + after.as_secs(), after.subsec_nanos()),
        Err(before) => {
            let before = before.duration();
            match before.subsec_nanos() {
                0 => time(EPOCH - before.as_secs(), 0),
                nanos => time(EPOCH - before.as_secs() - 1, SECOND - nanos),
            }
        }
    }
}
