//! A case that differs, made smaller while it still differs, so that what is kept shows what matters.
use crate::cases::Case;
use crate::compare;
use crate::opinion::Wrong;

/// Larger ones, full packs and storages, would take minutes.
const LARGEST: usize = 100_000;

pub fn smaller(case: &Case, wrong: Option<Wrong>) -> Case {
    let differs = |case: &Case| compare::run(case, wrong, &mut Vec::new()).is_err();
    let mut small = case.clone();
    if case.cells.len() + case.storage.len() > LARGEST {
        return small;
    }
    for at in (0..small.calls.len()).rev() {
        let mut tried = small.clone();
        tried.calls.remove(at);
        if differs(&tried) {
            small = tried;
        }
    }
    for chunk in [4096, 256, 16, 4] {
        clear(&mut small, |case| &mut case.cells, chunk, &differs);
        clear(&mut small, |case| &mut case.storage, chunk, &differs);
    }
    small
}

/// Zeros in every chunk that the difference does not need.
fn clear<T: Copy + Default + PartialEq>(
    small: &mut Case,
    part: impl Fn(&mut Case) -> &mut Vec<T>,
    chunk: usize,
    differs: &impl Fn(&Case) -> bool,
) {
    let zero = T::default();
    for first in (0..part(small).len()).step_by(chunk) {
        let mut tried = small.clone();
        let lent = part(&mut tried);
        let end = lent.len().min(first + chunk);
        if lent[first..end].iter().all(|&value| value == zero) {
            continue;
        }
        lent[first..end].fill(zero);
        if differs(&tried) {
            *small = tried;
        }
    }
}
