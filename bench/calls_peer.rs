//! The peers of the bench of calls: calls_peer PEER CALL THREADS TIMES. `std` makes the calls on std's atomics, `hand` the
//! steps of the sequence lock on two words, as the arena's plan has them, and `libatomic` the calls of GCC's library.

use std::sync::atomic::{AtomicU64, AtomicU8, Ordering::SeqCst};

#[link(name = "atomic")]
extern "C" {
    fn __atomic_load_16(at: *const u128, order: i32) -> u128;
    fn __atomic_store_16(at: *mut u128, value: u128, order: i32);
    fn __atomic_fetch_add_16(at: *mut u128, value: u128, order: i32) -> u128;
}

/// `memory_order_seq_cst`.
const ORDER: i32 = 5;

#[repr(align(64))]
struct Apart<T>(T);

/// The objects: each kind of peer has its own u128.
struct Objects {
    wide: Apart<AtomicU64>,
    small: Apart<AtomicU8>,
    stamp: Apart<AtomicU64>,
    parts: [AtomicU64; 2],
    pair: Apart<std::cell::UnsafeCell<u128>>,
}

unsafe impl Sync for Objects {}

impl Objects {
    /// The lock's stamp, once it is taken: 1 stands for held.
    fn take(&self) -> u64 {
        loop {
            let stamp = self.stamp.0.swap(1, SeqCst);
            if stamp != 1 {
                return stamp;
            }
            std::hint::spin_loop();
        }
    }

    fn read(&self) -> u128 {
        let low = self.parts[0].load(SeqCst) as u128;
        (self.parts[1].load(SeqCst) as u128) << 64 | low
    }

    /// Under the lock: both parts are read, and those of the new value are written.
    fn change(&self, to: impl Fn(u128) -> u128) -> u128 {
        let stamp = self.take();
        let old = self.read();
        let new = to(old);
        self.parts[0].store(new as u64, SeqCst);
        self.parts[1].store((new >> 64) as u64, SeqCst);
        self.stamp.0.store(stamp + 2, SeqCst);
        old
    }

    /// A load looks first, and takes the lock where the stamp moved.
    fn load(&self) -> u128 {
        let stamp = self.stamp.0.load(SeqCst);
        if stamp != 1 {
            let value = self.read();
            if self.stamp.0.load(SeqCst) == stamp {
                return value;
            }
        }
        let stamp = self.take();
        let value = self.read();
        self.stamp.0.store(stamp, SeqCst);
        value
    }
}

fn once(on: &Objects, peer: &str, call: &str) {
    let pair = on.pair.0.get();
    match (peer, call) {
        ("std", "served_add" | "typed_add") => {
            on.wide.0.fetch_add(1, SeqCst);
        }
        ("std", "typed_nand") => {
            on.small.0.fetch_nand(170, SeqCst);
        }
        ("std", "typed_update") => {
            let _ = on.wide.0.fetch_update(SeqCst, SeqCst, |v| Some(v.wrapping_add(1)));
        }
        ("std", "raise_update") => {
            let _ = on.wide.0.fetch_update(SeqCst, SeqCst, |v| v.checked_add(1));
        }
        ("hand", "wide_load") => {
            std::hint::black_box(on.load());
        }
        ("hand", "wide_store") => {
            on.change(|_| 1);
        }
        ("hand", "wide_add") => {
            std::hint::black_box(on.change(|old| old.wrapping_add(1)));
        }
        ("libatomic", "wide_load") => {
            std::hint::black_box(unsafe { __atomic_load_16(pair, ORDER) });
        }
        ("libatomic", "wide_store") => unsafe { __atomic_store_16(pair, 1, ORDER) },
        ("libatomic", "wide_add") => {
            std::hint::black_box(unsafe { __atomic_fetch_add_16(pair, 1, ORDER) });
        }
        _ => panic!("no such call"),
    }
}

macro_rules! turns {
    ($on:expr, $times:expr, $peer:expr, $call:expr, $(($p:literal, $c:literal)),*) => {
        match ($peer, $call) {
            $(($p, $c) => for _ in 0..$times { once($on, $p, $c) },)*
            _ => panic!("no such call"),
        }
    };
}

fn turns(on: &Objects, times: u64, peer: &str, call: &str) {
    turns!(
        on, times, peer, call,
        ("std", "served_add"), ("std", "typed_add"), ("std", "typed_nand"),
        ("std", "typed_update"), ("std", "raise_update"),
        ("hand", "wide_load"), ("hand", "wide_store"), ("hand", "wide_add"),
        ("libatomic", "wide_load"), ("libatomic", "wide_store"), ("libatomic", "wide_add")
    )
}

fn main() {
    let words: Vec<String> = std::env::args().collect();
    let (peer, call) = (words[1].as_str(), words[2].as_str());
    let (threads, times): (u64, u64) = (words[3].parse().unwrap(), words[4].parse().unwrap());
    let on = Objects {
        wide: Apart(AtomicU64::new(0)),
        small: Apart(AtomicU8::new(0)),
        stamp: Apart(AtomicU64::new(0)),
        parts: [AtomicU64::new(0), AtomicU64::new(0)],
        pair: Apart(std::cell::UnsafeCell::new(0)),
    };
    std::thread::scope(|all| {
        for _ in 0..threads {
            all.spawn(|| turns(std::hint::black_box(&on), times, peer, call));
        }
    });
    let pair = if peer == "libatomic" { unsafe { *on.pair.0.get() } } else { on.load() };
    println!("{} {} {}", on.wide.0.load(SeqCst), on.small.0.load(SeqCst), pair);
}
