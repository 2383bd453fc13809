// Prints how many nanoseconds std takes to copy a map of so many pvalues by row and cell key, as
// the median of some runs. Only the standard library is used.
//
//     copy PAIRS

use std::collections::BTreeMap;
use std::hint::black_box;
use std::time::Instant;

const KEYS: u32 = 256;
const RUNS: usize = 101;

fn main() {
    let pairs: u32 = std::env::args()
        .nth(1)
        .and_then(|word| word.parse().ok())
        .expect("usage: copy PAIRS");
    let places = (0..pairs).map(|place| ((place / KEYS + 1) as u16, (place % KEYS) as u16));
    let pvalues: BTreeMap<(u16, u16), i16> = places.map(|place| (place, 1)).collect();
    let mut times: Vec<u128> = (0..RUNS)
        .map(|_| {
            let start = Instant::now();
            black_box(black_box(&pvalues).clone());
            start.elapsed().as_nanos()
        })
        .collect();
    times.sort();
    println!("{}", times[RUNS / 2]);
}
