//! The words and the step orders of `hd_custody` in plain Rust, as the ceiling of its speed:
//! `ceiling T N B` does what `hd_pairs T N B` does, and prints the pairs.
use std::env;
use std::process::exit;
use std::sync::atomic::{AtomicU64, Ordering::SeqCst};
use std::thread;

const BLOCKS: usize = 256;
const ROWS: usize = 64;
const FIRST_MASK: usize = BLOCKS + 1;
const FIRST_QUICK: usize = FIRST_MASK + BLOCKS;
const BANK: usize = ROWS - 1;
const CACHE: usize = 1 + 2 * BANK;
const WORDS: usize = FIRST_QUICK + 7 * CACHE;
const KIND: usize = 2;
const QUICK: usize = FIRST_QUICK + CACHE * KIND;

fn allocate(words: &[AtomicU64]) -> Option<u64> {
    for n in 0..CACHE {
        let place = if n == 0 {
            QUICK
        } else if n <= BANK {
            QUICK + BANK + 1 - n
        } else {
            QUICK + CACHE + BANK - n
        };
        let slot = words[place].swap(0, SeqCst);
        if slot != 0 {
            return Some(slot);
        }
    }
    for block in 1..=BLOCKS {
        if words[block].load(SeqCst) != KIND as u64 + 1 {
            continue;
        }
        let mask = words[BLOCKS + block].swap(0, SeqCst);
        if mask == 0 {
            continue;
        }
        if words[block].load(SeqCst) != KIND as u64 + 1 {
            words[BLOCKS + block].fetch_or(mask, SeqCst);
            continue;
        }
        let row = u64::from(mask.trailing_zeros());
        share_out(words, block, mask & (mask - 1));
        return Some((ROWS * block) as u64 + row);
    }
    None
}

// The other rows go into the empty reserve cells, and what is left back into the mask.
fn share_out(words: &[AtomicU64], block: usize, mut left: u64) {
    for i in 0..BANK {
        if left == 0 {
            return;
        }
        let slot = (ROWS * block) as u64 + u64::from(left.trailing_zeros());
        let cell = &words[QUICK + 1 + i];
        if cell.compare_exchange(0, slot, SeqCst, SeqCst).is_ok() {
            left &= left - 1;
        }
    }
    if left != 0 {
        words[BLOCKS + block].fetch_or(left, SeqCst);
    }
}

fn release(words: &[AtomicU64], mut slot: u64) {
    slot = words[QUICK].swap(slot, SeqCst);
    for n in 1..=BANK {
        if slot == 0 {
            return;
        }
        slot = words[QUICK + BANK + n].swap(slot, SeqCst);
    }
    if slot != 0 {
        let block = slot as usize / ROWS;
        words[BLOCKS + block].fetch_or(1 << (slot as usize % ROWS), SeqCst);
    }
}

fn hold(words: &[AtomicU64], n: usize) -> u64 {
    if n == 0 {
        return 0;
    }
    let Some(slot) = allocate(words) else {
        return 0;
    };
    let more = hold(words, n - 1);
    release(words, slot);
    more + 1
}

fn main() {
    let numbers: Vec<usize> = env::args().skip(1).filter_map(|w| w.parse().ok()).collect();
    let [callers, times, batch] = numbers[..] else {
        exit(2);
    };
    if callers == 0 || batch == 0 || batch > 256 {
        exit(2);
    }
    let words: Vec<AtomicU64> = (0..WORDS).map(|_| AtomicU64::new(0)).collect();
    for block in 1..=BLOCKS {
        words[block].store(KIND as u64 + 1, SeqCst);
        words[BLOCKS + block].store(u64::MAX - 1, SeqCst);
    }
    let made: u64 = thread::scope(|scope| {
        let churn = || (0..times / batch).map(|_| hold(&words, batch)).sum::<u64>();
        let all: Vec<_> = (0..callers).map(|_| scope.spawn(churn)).collect();
        all.into_iter().map(|one| one.join().expect("a caller ends")).sum()
    });
    println!("{made}");
}
