//! All calls at once on threads, and all calls with the least stack.

use crate::limits::largest;
use oracle::Oracle;
use std::sync::{Arc, Barrier};
use std::thread;

/// The stack that Rust gives a thread.
const DEFAULT: usize = 2 * 1024 * 1024;
/// The stack that docs/TRUST.md asks of a host's thread.
const LEAST: usize = 256 * 1024;

/// Threads with this stack make all calls, at 512 vertices and with the largest plans among them, each from
/// another one on.
fn agree_on(threads: usize, stack: usize) {
    let (cases, start) = (largest(), Arc::new(Barrier::new(threads)));
    let spawn = |first: usize| {
        let start = start.clone();
        let work = move || {
            start.wait();
            for i in 0..cases.len() {
                let (case, expected) = &cases[(first + i) % cases.len()];
                assert!(case.actual() == *expected, "{:?} differs on a thread", case.call);
                assert_eq!(raskjomi::exports::kind(i as u32), Oracle::exact().kind(i as u32));
            }
        };
        thread::Builder::new().stack_size(stack).spawn(work).expect("a thread starts")
    };
    let threads: Vec<_> = (0..threads).map(|i| spawn(i * 5)).collect();
    for thread in threads {
        thread.join().expect("all calls agree");
    }
}

#[test]
fn eight_threads_with_default_stacks_agree() {
    agree_on(8, DEFAULT);
}

#[test]
fn a_thread_with_the_least_stack_agrees() {
    agree_on(1, LEAST);
}
