//! The published Rust, built twice: with overflow checks and debug assertions, and without.
use std::cell::RefCell;
use std::panic::{AssertUnwindSafe, catch_unwind};

/// How a run ended. Bytes and counts mean something only after `Done`.
#[derive(Clone, Debug, PartialEq, Eq)]
pub enum Ended<T> {
    Done(T),
    Failed(String),
    Panicked(String),
}

/// `call` on one pair: overlap or not, and the growth of the counts.
pub type PairRun = fn(&mut [u8], &mut [u8], u32, u32) -> Ended<(bool, [u64; 4])>;

thread_local!(static MESSAGE: RefCell<String> = const { RefCell::new(String::new()) });

/// Keeps panics quiet and their message at hand.
pub fn listen() {
    std::panic::set_hook(Box::new(|info| {
        let text = info.payload().downcast_ref::<String>().cloned();
        let text = text.or_else(|| info.payload().downcast_ref::<&str>().map(|s| s.to_string()));
        let file = info.location().map_or("?", |l| l.file().rsplit('/').next().unwrap());
        let line = info.location().map_or(0, |l| l.line());
        MESSAGE.set(format!("{} ({file}:{line})", text.unwrap_or_default()));
    }));
}

fn guarded<T, E: std::fmt::Debug>(run: impl FnOnce() -> Result<T, E>) -> Ended<T> {
    match catch_unwind(AssertUnwindSafe(run)) {
        Ok(Ok(value)) => Ended::Done(value),
        Ok(Err(e)) => Ended::Failed(format!("{e:?}")),
        Err(_) => Ended::Panicked(MESSAGE.with_borrow(String::clone)),
    }
}

macro_rules! build {
    ($name:ident, $published:ident) => {
        pub mod $name {
            use super::{Ended, guarded};
            use $published::entry;

            pub fn pair(
                first: &mut [u8],
                second: &mut [u8],
                agreement: u32,
                disagreement: u32,
            ) -> Ended<(bool, [u64; 4])> {
                guarded(|| entry::pair(first, second, agreement, disagreement))
            }
            pub fn group(records: &mut [Vec<u8>], agreement: u32, disagreement: u32) -> Ended<[u64; 4]> {
                guarded(|| entry::group(records, agreement, disagreement))
            }
            pub fn merge(one: u64, other: u64) -> Ended<u64> {
                guarded(|| entry::merge(one, other))
            }
        }
    };
}

build!(checked, published_checked);
build!(plain, published_plain);
