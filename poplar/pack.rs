//! A pack file: its cells, two bytes each, high byte first.
use crate::args::Args;
use crate::files;
use crate::refusal::{refuse, Result};
use poplar::{Shape, TRACK_CELLS};
use std::path::Path;

const TRACK_BYTES: usize = 2 * TRACK_CELLS;
const MOST_CYLINDERS: usize = 203;
const MOST_HEADS: u32 = 10;

#[derive(Clone)]
pub struct Pack {
    pub cells: Vec<u16>,
    pub shape: Shape,
}

impl Pack {
    /// A pack of cells 0, as large as it says.
    pub fn empty(shape: Shape) -> Pack {
        let tracks = shape.cylinders as usize * shape.heads as usize;
        Pack { cells: vec![0; tracks * TRACK_CELLS], shape }
    }

    /// The file of the words, with as many heads as they say.
    pub fn given(args: &Args) -> Result<Pack> {
        let heads = args.number("--heads", 1..=MOST_HEADS, Some(MOST_HEADS))?;
        Pack::open(args.file("a pack file")?, heads)
    }

    /// A file of whole cylinders.
    pub fn open(path: &Path, heads: u32) -> Result<Pack> {
        let cylinder = heads as usize * TRACK_BYTES;
        let most = MOST_CYLINDERS * cylinder;
        let bytes = files::read_up_to(path, "a pack file", most + 1)?;
        if bytes.is_empty() || bytes.len() > most || bytes.len() % cylinder != 0 {
            let over = if bytes.len() > most { "over " } else { "" };
            let found = bytes.len().min(most);
            return refuse(format!(
                "{}: {over}{found} bytes; expected 1 to {MOST_CYLINDERS} cylinders of {cylinder} bytes each \
                 ({heads} heads, {TRACK_CELLS} cells a track, 2 bytes a cell). The first {} bytes are whole cylinders. \
                 --heads says how many heads a cylinder has",
                path.display(),
                found / cylinder * cylinder
            ));
        }
        let cells = bytes.chunks_exact(2).map(|pair| u16::from_be_bytes([pair[0], pair[1]])).collect();
        Ok(Pack { cells, shape: Shape { cylinders: (bytes.len() / cylinder) as u32, heads } })
    }

    /// The bytes of its file.
    pub fn bytes(&self) -> Vec<u8> {
        self.cells.iter().flat_map(|cell| cell.to_be_bytes()).collect()
    }

    /// Its tracks with their cylinders and heads, in the order of the file.
    pub fn tracks(&self) -> impl Iterator<Item = (u32, u32, &[u16])> {
        let heads = self.shape.heads;
        let numbered = (0u32..).zip(self.cells.chunks_exact(TRACK_CELLS));
        numbered.map(move |(number, track)| (number / heads, number % heads, track))
    }

    /// The cells of one track that is on it.
    pub fn track(&self, cylinder: u32, head: u32) -> &[u16] {
        let first = (cylinder * self.shape.heads + head) as usize * TRACK_CELLS;
        &self.cells[first..first + TRACK_CELLS]
    }
}
