// The stack that a go uses.
use crate::common::{thousands, Lent, WORDS};
use crate::library::NOW;
use crate::part::Part;
use poplar::{Answer, Held};
use std::arch::asm;
use std::thread;

// It must be under so many bytes.
const WANTED: usize = 4096;

const PAINTED: usize = 64 * 1024;
const STACK: usize = 256 * 1024;

#[inline(always)]
fn stack_pointer() -> usize {
    let here: usize;
    // It only reads the register.
    unsafe { asm!("mov {}, rsp", out(reg) here, options(nomem, nostack, preserves_flags)) };
    here
}

// Painting ends so far under `top`: under the frame of `paint` and the 128 bytes below it that a function may use.
const MARGIN: usize = 256;

#[inline(never)]
fn paint(top: usize, pattern: u8) {
    assert!(top - MARGIN + 128 <= stack_pointer());
    for at in top - PAINTED..top - MARGIN {
        // It is of this thread's stack, which is longer, and no frame in use reaches so low.
        unsafe { (at as *mut u8).write_volatile(pattern) };
    }
}

// How far under `top` the lowest byte is that is painted no more, or MARGIN if all are.
#[inline(never)]
fn deepest(top: usize, pattern: u8) -> usize {
    // Written by `paint`, and still of this thread's stack.
    let kept = |at: usize| unsafe { (at as *const u8).read_volatile() } == pattern;
    let changed = (top - PAINTED..top - MARGIN).find(|&at| !kept(at));
    top - changed.unwrap_or(top - MARGIN)
}

// The stack that one go takes under its caller, the wrapper's with it.
fn stack_over(pattern: u8, lent: &mut Lent) -> Result<usize, String> {
    let Lent { storage, cells, shape } = lent;
    let mut begun = NOW.started(storage.clone(), cells, *shape)?;
    let mut held = Held::from_bytes(begun.held);
    let top = stack_pointer();
    paint(top, pattern);
    let answer = poplar::go(&mut held, &mut begun.storage, cells, *shape, WORDS as u16);
    let deep = deepest(top, pattern);
    if !matches!(answer, Answer::Ended | Answer::NotEnded) {
        return Err(format!("the stack's go answers {answer:?}"));
    }
    if deep == PAINTED {
        return Err(format!("a go uses {PAINTED} bytes of stack or more"));
    }
    if deep <= MARGIN {
        return Err("the stack of a go was not seen".to_string());
    }
    Ok(deep)
}

// The most of several chains, each over two patterns: a byte that is stored may be the one that was painted.
fn stack(chains: Vec<Lent>) -> Result<usize, String> {
    let measured = thread::Builder::new().stack_size(STACK).spawn(|| {
        let mut most = 0;
        for mut lent in chains {
            for pattern in [0xA5, 0x5A] {
                most = most.max(stack_over(pattern, &mut lent)?);
            }
        }
        Ok(most)
    });
    let thread = measured.map_err(|error| format!("no thread: {error}"))?;
    thread.join().map_err(|_| "the thread of the stack ended")?
}

pub fn print(part: &Part) -> Result<(), String> {
    let chains = (part.chains)();
    if !chains.is_empty() {
        let (most, wanted) = (thousands(stack(chains)?), thousands(WANTED));
        println!("{}: stack used by go: {most} bytes; it must be under {wanted}", part.name);
    }
    Ok(())
}

// The most of all parts is under what is wanted.
pub fn compare(parts: &[&Part]) -> Result<(), String> {
    let chains: Vec<Lent> = parts.iter().flat_map(|part| (part.chains)()).collect();
    let (count, most) = (chains.len(), stack(chains)?);
    if most >= WANTED {
        return Err(format!("a go uses {} bytes of stack, not under {}", thousands(most), thousands(WANTED)));
    }
    println!("stack: a go uses {} bytes at most over {count} chains, under {}", thousands(most), thousands(WANTED));
    Ok(())
}
