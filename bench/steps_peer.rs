//! The peer of the bench of steps: the same number of additions on a plain atomic word.

use std::sync::atomic::{AtomicU64, Ordering};
fn main() {
    let times: u64 = std::env::args().nth(1).unwrap().parse().unwrap();
    let n = AtomicU64::new(0);
    let n = std::hint::black_box(&n);
    for _ in 0..times {
        n.fetch_add(1, Ordering::SeqCst);
    }
    println!("{}", n.load(Ordering::SeqCst));
}
