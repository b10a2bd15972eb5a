//! The peer of the bench of waits: waits_peer TASK TIMES. What `wait_times` does on an arena it does with std's Mutex and
//! Condvar, and looks with std's AtomicU32.

use std::sync::atomic::{AtomicU32, Ordering::SeqCst};
use std::sync::{Condvar, Mutex};
use std::thread;
use std::time::Duration;

struct Shared {
    number: Mutex<u32>,
    changed: Condvar,
}

/// Waits so many times until the number isn't the one that this thread left, stores the next, and wakes.
fn hand_on(on: &Shared, first: u32, times: u64) {
    let mut left = first;
    for _ in 0..times {
        let mut number = on.number.lock().unwrap();
        while *number == left {
            number = on.changed.wait(number).unwrap();
        }
        left = number.wrapping_add(1);
        *number = left;
        drop(number);
        on.changed.notify_all();
    }
}

/// Takes a permit and gives it back, so many times.
fn lend(on: &Shared, times: u64) {
    for _ in 0..times {
        let mut permits = on.number.lock().unwrap();
        while *permits == 0 {
            permits = on.changed.wait(permits).unwrap();
        }
        *permits -= 1;
        drop(permits);
        *on.number.lock().unwrap() += 1;
        on.changed.notify_all();
    }
}

fn looks(times: u64) -> u64 {
    let number = AtomicU32::new(1);
    let number = std::hint::black_box(&number);
    let mut found = 0u64;
    for _ in 0..times {
        if number.load(SeqCst) != 0 {
            found = found.wrapping_add(1);
        }
    }
    found
}

fn main() {
    let words: Vec<String> = std::env::args().collect();
    let times: u64 = words[2].parse().unwrap();
    let start = match words[1].as_str() {
        "permits" => 2,
        _ => 1,
    };
    let on = Shared { number: Mutex::new(start), changed: Condvar::new() };
    let on = &on;
    match words[1].as_str() {
        "to_and_fro" => thread::scope(|s| {
            s.spawn(move || hand_on(on, 0, times));
            hand_on(on, 1, times);
        }),
        "permits" => thread::scope(|s| {
            for _ in 0..3 {
                s.spawn(move || lend(on, times));
            }
            lend(on, times);
        }),
        "look" => {
            println!("{}", looks(times));
            return;
        }
        "sleep" => {
            *on.number.lock().unwrap() = 0;
            thread::scope(|s| {
                s.spawn(move || {
                    let mut number = on.number.lock().unwrap();
                    while *number == 0 {
                        number = on.changed.wait(number).unwrap();
                    }
                });
                thread::sleep(Duration::from_millis(times));
                *on.number.lock().unwrap() = 1;
                on.changed.notify_all();
            });
        }
        _ => panic!("no such task"),
    }
    println!("{}", on.number.lock().unwrap());
}
