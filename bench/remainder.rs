// The check's remainder in plain Rust, for the loops that the proved one is held against.

pub const fn shifted(mut r: u16) -> u16 {
    let mut k = 0;
    while k < 8 {
        r = if r & 0x8000 != 0 { (r << 1) ^ 0x1021 } else { r << 1 };
        k += 1;
    }
    r
}

pub const TABLE: [u16; 256] = table();

const fn table() -> [u16; 256] {
    let mut t = [0; 256];
    let mut b = 0;
    while b < 256 {
        t[b] = shifted((b as u16) << 8);
        b += 1;
    }
    t
}

// The next remainder, by eight shifts and by the table. Of the cell only the low byte counts.
#[inline(always)]
pub fn next_by_bits(r: u16, cell: u16) -> u16 {
    shifted(r ^ ((cell & 0xff) << 8))
}

#[inline(always)]
pub fn next_by_table(r: u16, cell: u16) -> u16 {
    (r << 8) ^ TABLE[usize::from((r >> 8) ^ (cell & 0xff))]
}

// ---- slicing by 8

// What a byte gives with so many zero bytes behind it.
static TABLES: [[u16; 256]; 8] = tables();

const fn tables() -> [[u16; 256]; 8] {
    let mut t = [TABLE; 8];
    let mut k = 1;
    while k < 8 {
        let mut b = 0;
        while b < 256 {
            t[k][b] = shifted(t[k - 1][b]);
            b += 1;
        }
        k += 1;
    }
    t
}

// Eight cells a turn: the remainder so far is two bytes, which join the first two of the eight, and what each gives is added up.
// Those two wait for the turn before, so they come last; what the other six give does not, and is added up meanwhile.
#[inline(always)]
fn next_eight(r: u16, cells: &[u16; 8]) -> u16 {
    let by = |i: usize, joined: u16| TABLES[7 - i][usize::from((cells[i] ^ joined) & 0xff)];
    let behind = by(2, 0) ^ by(3, 0) ^ by(4, 0) ^ by(5, 0) ^ by(6, 0) ^ by(7, 0);
    behind ^ (by(0, r >> 8) ^ by(1, r))
}

// The remainder over these cells, the last few of them one by one.
#[inline(always)]
pub fn sliced(cells: &[u16]) -> u16 {
    let mut r = 0;
    let eights = cells.chunks_exact(8);
    let rest = eights.remainder();
    for eight in eights {
        r = next_eight(r, eight.try_into().expect("eight cells"));
    }
    for &cell in rest {
        r = next_by_table(r, cell);
    }
    r
}
