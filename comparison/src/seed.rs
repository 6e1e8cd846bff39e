//! The seed of all random inputs.

use std::sync::Mutex;
use std::time::{SystemTime, UNIX_EPOCH};

/// The seed of this run: `QORSHUDAN_SEED`, or fresh from the clock.
pub fn seed() -> u64 {
    static SEED: Mutex<Option<u64>> = Mutex::new(None);
    let mut seed = SEED.lock().expect("no other test failed to read it");
    *seed.get_or_insert_with(|| match std::env::var("QORSHUDAN_SEED") {
        Ok(text) => text.trim().parse().unwrap_or_else(|_| {
            panic!("QORSHUDAN_SEED is {text:?}, which is no whole number below 2^64")
        }),
        Err(_) => {
            let now = SystemTime::now().duration_since(UNIX_EPOCH);
            now.map_or(1, |since| since.as_nanos() as u64)
        }
    })
}
