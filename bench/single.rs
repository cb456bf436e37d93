// Single command words, each on a track of its own, where they have the most to do: what each leaves, and its time.
use crate::common::{in_turn, status, storage_with, word, Started, FIRST, ONE, STATUS};
use crate::library::NOW;
use crate::pack::{same, same_cells, Left};
use poplar::HELD_SIZE;

const AREA: usize = FIRST + 8;
const ROUNDS: usize = 501;

// One command word, from a held state on, and what it leaves.
pub struct Single {
    name: &'static str,
    begun: Started,
    cells: Vec<u16>,
    should: Left,
    should_cells: Vec<u16>,
}

// A word: its code, its count, and what lies in its area before and after, from the front on.
pub struct Moves<'a> {
    pub code: u8,
    pub count: usize,
    pub sent: &'a [u8],
    pub stored: &'a [u8],
}

// How it ends.
pub struct Ends {
    pub unit: u8,
    pub left: usize,
    pub held: [u8; HELD_SIZE],
    pub cells: Vec<u16>,
}

// The chain of the one word is started, and then the held state is changed.
pub fn single(
    name: &'static str,
    moves: Moves,
    mut cells: Vec<u16>,
    change: impl FnOnce(&mut [u8; HELD_SIZE]),
    ends: Ends,
) -> Result<Single, String> {
    let one = word(moves.code, AREA as u32, 0, moves.count as u16);
    let mut storage = storage_with(AREA + moves.count, std::iter::once(one));
    storage[AREA..][..moves.sent.len()].copy_from_slice(moves.sent);
    let mut begun = NOW.started(storage, &mut cells, ONE)?;
    change(&mut begun.held);
    let mut storage = begun.storage.clone();
    storage[AREA..][..moves.stored.len()].copy_from_slice(moves.stored);
    storage[STATUS].copy_from_slice(&status(1, ends.unit, ends.left as u16));
    Ok(Single { name, begun, cells, should: (storage, ends.held), should_cells: ends.cells })
}

impl Single {
    // Milliseconds of the word alone. What it leaves is compared.
    pub fn timed(&self) -> Result<f64, String> {
        let mut begun = self.begun.clone();
        let mut cells = self.cells.clone();
        let (ms, answer) = begun.timed(&mut cells, ONE, 1);
        same(self.name, &begun, answer, &self.should)?;
        same_cells(self.name, &cells, &self.should_cells)?;
        Ok(ms)
    }
}

pub fn print(words: &[Single]) -> Result<(), String> {
    let medians = in_turn(ROUNDS, words, Single::timed)?;
    println!("single words, microseconds, medians of {ROUNDS} rounds in turn");
    for (word, ms) in words.iter().zip(medians) {
        println!("    {:<30} {:>7.2}", word.name, ms * 1e3);
    }
    Ok(())
}
