// A look at a track without a box: its markers, its areas, damage to one of them, and calls that are wrong.
use crate::lent::*;
use crate::track::*;
use poplar::{area_raw, Area, Look, Part, WrongCall, TRACK_CELLS};
use std::ops::Range;

const PARTS: [Part; 4] = [Part::Home, Part::Count, Part::Key, Part::Data];

// The records of `four`, each by the first cell of its count area.
const RECORDS: [usize; 4] = [7, M1 + 1, M2 + 1, M3 + 1];

// Where the areas of these records lie, each with its check.
const AREAS: [(usize, Part, Range<usize>); 11] = [
    (7, Part::Home, HOME_AREA),
    (7, Part::Count, COUNT_0),
    (7, Part::Data, DATA_0),
    (M1 + 1, Part::Count, COUNT_1),
    (M1 + 1, Part::Key, KEY_1),
    (M1 + 1, Part::Data, DATA_1),
    (M2 + 1, Part::Count, COUNT_2),
    (M2 + 1, Part::Data, DATA_2),
    (M3 + 1, Part::Count, COUNT_3),
    (M3 + 1, Part::Key, KEY_3),
    (M3 + 1, Part::Data, DATA_3),
];

fn at(cells: &Range<usize>) -> Area {
    Area { first: cells.start as u32, bytes: cells.len() as u32 - 2 }
}

fn look(track: &[u16], record: usize, part: Part) -> Look {
    poplar::area(track, record as u16, part).expect("the call is right")
}

pub fn look_markers(tally: &mut Tally) {
    let track = four();
    let next = |track: &[u16], place: usize| poplar::marker(track, place as u16);
    for place in 0..=TRACK_CELLS + 10 {
        let should = [M1, M2, M3].into_iter().find(|&cell| place <= cell).map(|cell| cell as u16);
        tally.same(&format!("from {place}"), next(&track, place), Ok(should));
    }
    for place in [65534, 65535] {
        tally.same(&format!("from {place}"), next(&track, place), Ok(None));
    }
    // Below cell 7 there is none, and the last cell can hold one.
    for cell in [0, 6, 7, 8, 4094, 4095] {
        let mut track = vec![0; TRACK_CELLS];
        track[cell] = MARKER;
        let found = (cell >= 7).then_some(cell as u16);
        tally.same(&format!("one in cell {cell}"), next(&track, 0), Ok(found));
        tally.same(&format!("from its cell {cell}"), next(&track, cell), Ok(found));
        tally.same(&format!("from behind cell {cell}"), next(&track, cell + 1), Ok(None));
    }
    // No value but 512.
    for value in [0, 2, 256, 511, 513, 767, 1024, 65535] {
        tally.same(&format!("cells of {value}"), next(&[value; TRACK_CELLS], 0), Ok(None));
    }
    for len in [0, 1, 7, 4095, 4097, 8192] {
        for place in [0, 7, 4095, 65535] {
            let cells = vec![MARKER; len];
            tally.same(&format!("{len} cells"), next(&cells, place), Err(WrongCall));
        }
    }
}

pub fn look_areas(tally: &mut Tally) {
    let track = four();
    for (record, part, cells) in &AREAS {
        let what = format!("{part:?} of {record}");
        tally.same(&what, look(&track, *record, *part), Look::Readable(at(cells)));
    }
    for record in [7, M2 + 1] {
        tally.same(&format!("no key of {record}"), look(&track, record, Part::Key), Look::Absent);
    }
    // The home address is of no record.
    for record in [0, 1, 4096, 4097, 65535] {
        let what = format!("home address with record {record}");
        tally.same(&what, look(&track, record, Part::Home), Look::Readable(at(&HOME_AREA)));
    }
}

// A walk by the library alone finds every record. Where none begins, what stands there is no readable count.
pub fn look_walk(tally: &mut Tally) {
    let track = four();
    let mut records = vec![7];
    let mut place = 7;
    while let Ok(Some(cell)) = poplar::marker(&track, place) {
        place = cell + 1;
        records.push(usize::from(place));
    }
    tally.same("the records", records, RECORDS.to_vec());
    for record in (0..=TRACK_CELLS).filter(|record| !RECORDS.contains(record)) {
        let what = format!("no record at {record}");
        let count = Area { first: record as u32, bytes: 9 };
        tally.same(&what, look(&track, record, Part::Count), Look::Unreadable(count));
        tally.same(&what, look(&track, record, Part::Key), Look::NotKnown);
        tally.same(&what, look(&track, record, Part::Data), Look::NotKnown);
    }
}

// A count that is readable may name areas that reach past the track; an empty track has no areas.
pub fn look_edges(tally: &mut Tally) {
    let long = area(&[0x81, 0, 1, 0, 1, 1, 0xFF, 0xFF, 0xFF]);
    for first in [29, TRACK_CELLS - 11] {
        let mut track = sound(&[R0]);
        track[first..first + 11].copy_from_slice(&long);
        let what = format!("KL 255 and DL 65,535 at {first}");
        let key = Area { first: first as u32 + 11, bytes: 255 };
        let data = Area { first: first as u32 + 11 + 257, bytes: 65535 };
        tally.same(&what, look(&track, first, Part::Count), Look::Readable(Area { first: first as u32, bytes: 9 }));
        tally.same(&what, look(&track, first, Part::Key), Look::Unreadable(key));
        tally.same(&what, look(&track, first, Part::Data), Look::Unreadable(data));
    }
    let empty = vec![0; TRACK_CELLS];
    tally.same("no home address", look(&empty, 7, Part::Home), Look::Unreadable(at(&HOME_AREA)));
    tally.same("no R0", look(&empty, 7, Part::Count), Look::Unreadable(at(&COUNT_0)));
    tally.same("no data of R0", look(&empty, 7, Part::Data), Look::NotKnown);
}

// One cell of one area changed: that area is not readable, and behind a count nothing is known; all else is as it was.
pub fn look_damage(tally: &mut Tally) {
    let sound = four();
    for (hurt_record, hurt_part, hurt) in &AREAS {
        for cell in hurt.clone() {
            for value in [0, sound[cell] ^ 1, sound[cell] ^ 0x80, sound[cell] + 0x100, MARKER, 0xFFFF] {
                let mut track = sound.clone();
                track[cell] = value;
                for (record, part, cells) in &AREAS {
                    let of_it = record == hurt_record && *part != Part::Home && *hurt_part != Part::Home;
                    let should = if cells == hurt {
                        Look::Unreadable(at(cells))
                    } else if of_it && *hurt_part == Part::Count {
                        Look::NotKnown
                    } else {
                        Look::Readable(at(cells))
                    };
                    let what = format!("{part:?} of {record} with {value:04X} in cell {cell}");
                    tally.same(&what, look(&track, *record, *part), should);
                }
            }
        }
    }
    (12..=40).for_each(|bytes| damage_of_data(tally, bytes));
}

// Data of so many bytes, on both sides of where the check begins to fold: each cell changed and mended in turn.
fn damage_of_data(tally: &mut Tally, bytes: usize) {
    let data: Vec<u8> = (0..bytes).map(|i| (89 * i + 31 * bytes) as u8).collect();
    let mut track = sound(&[R0, Record { number: 1, key: &[], data: &data }]);
    let cells = M1 + 12..M1 + 12 + bytes + 2;
    let seen = |track: &[u16]| look(track, M1 + 1, Part::Data);
    tally.same(&format!("{bytes} bytes"), seen(&track), Look::Readable(at(&cells)));
    for cell in cells.clone() {
        let was = track[cell];
        // One bit of the byte; a gap; a marker; and what keeps the byte and is none.
        for value in [was ^ 1 << (cell % 8), 0, MARKER, was - 0x100, was + 0x100, was | 0x8000] {
            let what = format!("{bytes} bytes with {value:04X} in cell {cell}");
            track[cell] = value;
            tally.same(&what, seen(&track), Look::Unreadable(at(&cells)));
            track[cell] = was;
            tally.same(&format!("{what}, mended"), seen(&track), Look::Readable(at(&cells)));
        }
    }
}

pub fn look_wrong_calls(tally: &mut Tally) {
    let track = four();
    for record in [0, 7, 4095, 4096, 4097, 65535] {
        for part in PARTS {
            let wrong = record > 4096 && part != Part::Home;
            let what = format!("{part:?} of {record}");
            tally.same(&what, poplar::area(&track, record, part).is_err(), wrong);
        }
    }
    // Each by itself, over numbers that must stay.
    for (cells, part, numbers) in [(4095, 0, 2), (4097, 1, 2), (0, 2, 2), (4096, 4, 2), (4096, 255, 2), (4096, 1, 0)] {
        refuses(tally, &vec![0x0101; cells], part, numbers);
    }
    for numbers in [1, 3, 4] {
        for part in 0..=4 {
            refuses(tally, &track, part, numbers);
        }
    }
    refuses(tally, &[], 0, 0);
    // By number, and what is written.
    for (record, part, answer, area) in [
        (7, 0, 1, [0, 5]),
        (7, 1, 1, [7, 9]),
        (7, 2, 3, [9, 9]),
        (7, 3, 1, [18, 8]),
        (8, 1, 2, [8, 9]),
        (8, 2, 4, [9, 9]),
        (8, 3, 4, [9, 9]),
        (4096, 1, 2, [4096, 9]),
    ] {
        let mut found = [9, 9];
        tally.same(&format!("part {part} of {record}"), area_raw(&track, record, part, &mut found), answer);
        tally.same(&format!("part {part} of {record}, written"), found, area);
    }
}

fn refuses(tally: &mut Tally, track: &[u16], part: u8, numbers: usize) {
    let what = format!("{} cells, part {part}, {numbers} numbers", track.len());
    let mut area = vec![77; numbers];
    tally.same(&what, area_raw(track, 7, part, &mut area), 0);
    tally.same(&what, area, vec![77; numbers]);
}
