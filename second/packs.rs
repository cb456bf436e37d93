//! A pack to lend: its shape and the tracks that are not empty.
use crate::opinion::areas::TRACK;
use crate::random::Random;
use crate::tracks::{self, Track};

pub struct Pack {
    pub cylinders: u16,
    pub heads: u16,
    pub tracks: Vec<((u16, u16), Track)>,
}

impl Pack {
    /// Mostly a track or a few; once in a while a full one, where only some tracks are written.
    pub fn new(random: &mut Random) -> Pack {
        let (cylinders, heads) = if random.one_in(500) {
            random.pick(&[(203, 10), (203, 1), (1, 10)])
        } else {
            random.pick(&[(1, 1), (1, 1), (1, 2), (2, 1), (2, 2), (3, 1), (1, 3)])
        };
        let mut pack = Pack { cylinders, heads, tracks: Vec::new() };
        let mut stands: Vec<(u16, u16)> =
            (0..cylinders).flat_map(|cylinder| (0..heads).map(move |head| (cylinder, head))).collect();
        while stands.len() > 4 {
            stands.swap_remove(random.below(stands.len()));
        }
        for stand in stands {
            let track = tracks::track(random, stand);
            pack.tracks.push((stand, track));
        }
        pack
    }

    pub fn track(&self, stand: (u16, u16)) -> Option<&Track> {
        self.tracks.iter().find(|(at, _)| *at == stand).map(|(_, track)| track)
    }

    /// Where a written track is.
    pub fn stand(&self, random: &mut Random) -> (u16, u16) {
        self.tracks[random.below(self.tracks.len())].0
    }

    pub fn first_cell(&self, stand: (u16, u16)) -> usize {
        (usize::from(stand.0) * usize::from(self.heads) + usize::from(stand.1)) * TRACK
    }

    pub fn cells(&self) -> Vec<u16> {
        let mut cells = vec![0; usize::from(self.cylinders) * usize::from(self.heads) * TRACK];
        for (stand, track) in &self.tracks {
            let first = self.first_cell(*stand);
            cells[first..first + TRACK].copy_from_slice(&track.cells);
        }
        cells
    }
}
