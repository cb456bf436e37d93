//! Both boxes on the same case: answer, held bytes, storage and every cell after every call.
use crate::cases::{Call, Case};
use crate::library;
use crate::opinion::events::Event;
use crate::opinion::{self, Lent, Wrong};
use crate::text::{hex, lay, print_held};

struct Memory {
    held: Vec<u8>,
    storage: Vec<u8>,
    cells: Vec<u16>,
}

impl Memory {
    fn of(case: &Case) -> Memory {
        Memory { held: case.held.clone(), storage: case.storage.clone(), cells: case.cells.clone() }
    }

    fn lent(&mut self, case: &Case) -> Lent<'_> {
        let Memory { held, storage, cells } = self;
        Lent { held, storage, cells, cylinders: case.cylinders, heads: case.heads }
    }
}

/// The first difference: after which call, and what.
pub struct Difference {
    pub call: usize,
    pub what: String,
}

/// Runs the case on both. What the opinion noted is added to `notes`.
pub fn run(case: &Case, wrong: Option<Wrong>, notes: &mut Vec<Event>) -> Result<(), Difference> {
    let (mut ours, mut theirs) = (Memory::of(case), Memory::of(case));
    for (call, action) in case.calls.iter().enumerate() {
        let (opinion, library) = match action {
            Call::Start => (opinion::start(&mut ours.lent(case), notes), library::start(&mut theirs.lent(case))),
            Call::Go(allowance) => (
                opinion::go(&mut ours.lent(case), *allowance, wrong, notes),
                library::go(&mut theirs.lent(case), *allowance),
            ),
            Call::Bytes(at, bytes) => {
                lay(&mut ours.storage, *at, bytes);
                lay(&mut theirs.storage, *at, bytes);
                continue;
            }
            Call::Cells(at, cells) => {
                lay(&mut ours.cells, *at, cells);
                lay(&mut theirs.cells, *at, cells);
                continue;
            }
        };
        if let Some(what) = difference((opinion, &ours), (library, &theirs)) {
            return Err(Difference { call, what });
        }
    }
    Ok(())
}

fn difference(opinion: (u8, &Memory), library: (u8, &Memory)) -> Option<String> {
    let ((our_answer, ours), (their_answer, theirs)) = (opinion, library);
    let mut what = Vec::new();
    if our_answer != their_answer {
        what.push(format!("answer: opinion {our_answer}, library {their_answer}"));
    }
    if ours.held != theirs.held {
        what.push(format!("held: opinion {}\n      library {}", print_held(&ours.held), print_held(&theirs.held)));
    }
    if ours.storage != theirs.storage {
        let at = (0..ours.storage.len()).find(|&at| ours.storage[at] != theirs.storage[at]).unwrap_or(0);
        what.push(format!("storage at {at}: opinion {:02X}, library {:02X}", ours.storage[at], theirs.storage[at]));
        what.push(format!("status: opinion {}, library {}", hex(&ours.storage[64..72]), hex(&theirs.storage[64..72])));
    }
    if ours.cells != theirs.cells {
        let at = (0..ours.cells.len()).find(|&at| ours.cells[at] != theirs.cells[at]).unwrap_or(0);
        what.push(format!("cell {at}: opinion {:04X}, library {:04X}", ours.cells[at], theirs.cells[at]));
    }
    (!what.is_empty()).then(|| what.join("\n"))
}

/// A fresh box is the same in both, and no other length is written.
pub fn fresh_agrees() -> bool {
    [0, 63, 64, 65].iter().all(|&len| {
        let mut held = vec![0xA5; len];
        let wanted = if len == 64 { opinion::held::Held::fresh().bytes().to_vec() } else { held.clone() };
        library::fresh(&mut held) == u8::from(len == 64) && held == wanted
    })
}
