//! What the source draws by chance, or computes by `erf`, given from outside, and what its walk
//! does, told to the outside. One set for each thread: the source draws in the calling thread only.
#![forbid(unsafe_code)]

use std::cell::RefCell;

#[derive(Default)]
struct Given {
    words: Vec<u128>,
    words_used: usize,
    number_buckets: usize,
    hash_keys: [[u8; 16]; 3],
    turns: Vec<u64>,
    evictions: u64,
}

thread_local! {
    static GIVEN: RefCell<Given> = RefCell::new(Given::default());
}

fn with<T>(f: impl FnOnce(&mut Given) -> T) -> T {
    GIVEN.with(|given| f(&mut given.borrow_mut()))
}

/// Gives the random words that are drawn from now on.
pub fn give_words(words: &[u128]) {
    with(|given| {
        given.words = words.to_vec();
        given.words_used = 0;
    });
}

/// Gives the bucket count and the three hash keys.
pub fn give_buckets(number_buckets: usize, hash_keys: [[u8; 16]; 3]) {
    with(|given| {
        given.number_buckets = number_buckets;
        given.hash_keys = hash_keys;
    });
}

/// The next random word. Panics where none is left.
pub fn word() -> u128 {
    with(|given| {
        let word = *given.words.get(given.words_used).expect("no random word is left");
        given.words_used += 1;
        word
    })
}

/// How many random words were drawn since they were given.
pub fn words_used() -> usize {
    with(|given| given.words_used)
}

/// The bucket count.
pub fn number_buckets() -> usize {
    with(|given| given.number_buckets)
}

/// The hash key of function `i`.
pub fn hash_key(i: usize) -> [u8; 16] {
    with(|given| given.hash_keys[i])
}

/// Starts the account of a walk.
pub fn clear_walk() {
    with(|given| {
        given.turns.clear();
        given.evictions = 0;
    });
}

/// The walk gives input `index` a turn.
pub fn turn(index: usize) {
    with(|given| {
        if given.turns.len() <= index {
            given.turns.resize(index + 1, 0);
        }
        given.turns[index] += 1;
    });
}

/// The walk evicts a holder.
pub fn evicted() {
    with(|given| given.evictions += 1);
}

/// The turns of each of `inputs` inputs, and all evictions, since the account was started.
pub fn walk(inputs: usize) -> (Vec<u64>, u64) {
    with(|given| {
        let mut turns = given.turns.clone();
        turns.resize(inputs, 0);
        (turns, given.evictions)
    })
}
