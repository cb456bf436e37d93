//! A picture of one track: eight strips of 512 cells, a scale, a legend.
use crate::survey::{area_name, cells, Lies, Piece, Survey};
use crate::words::counted;
use poplar::{Part, TRACK_CELLS};
use std::fmt::Write;

const STRIP: usize = 512;
const STRIPS: usize = TRACK_CELLS / STRIP;
/// Width of a cell, and where the strips begin.
const CELL: usize = 2;
const LEFT: usize = 60;
const TOP: usize = 84;
const HEIGHT: usize = 34;
const STEP: usize = 68;
const WIDTH: usize = LEFT + STRIP * CELL + 40;
/// Height of the band that names the part of an area that is not readable.
const BAND: usize = 7;
/// The colour of gap cells that are not 0.
const NOT_ZERO: &str = "#8a8a80";
const LEGEND: usize = TOP + STRIPS * STEP + 14;

const STYLE: &str = "\
<style>
text { font-family: Helvetica, Arial, sans-serif; fill: #222; font-size: 11px }
.title { font-size: 20px; font-weight: bold }
.small { font-size: 9px; fill: #666 }
.record { font-size: 11px; font-weight: bold }
.bad { fill: #b00020; font-weight: bold }
</style>
";

const PATTERNS: &str = "\
<defs>
<pattern id='unreadable' width='8' height='8' patternUnits='userSpaceOnUse'>
<rect width='8' height='8' fill='#ffe3e3'/>
<path d='M0 8 L8 0 M-2 2 L2 -2 M6 10 L10 6 M0 0 L8 8 M-2 6 L2 10 M6 -2 L10 2' stroke='#b00020' stroke-width='1.6'/>
</pattern>
<pattern id='key' width='6' height='6' patternUnits='userSpaceOnUse'>
<rect width='6' height='6' fill='#f2b134'/><circle cx='3' cy='3' r='1.1' fill='#7a5200'/>
</pattern>
<pattern id='count' width='5' height='5' patternUnits='userSpaceOnUse'>
<rect width='5' height='5' fill='#5b8def'/><path d='M0 2.5 H5' stroke='#24509e' stroke-width='0.8'/>
</pattern>
<pattern id='home' width='5' height='5' patternUnits='userSpaceOnUse'>
<rect width='5' height='5' fill='#8e6bbf'/><path d='M2.5 0 V5' stroke='#4d2e80' stroke-width='0.8'/>
</pattern>
</defs>
";

/// The filling of an area, its edge, and its name in the legend.
fn look(lies: Lies) -> (&'static str, &'static str, &'static str) {
    match lies {
        Lies::Area(_, _, _, false) => ("url(#unreadable)", "#b00020", "not readable"),
        Lies::Area(Part::Home, ..) => ("url(#home)", "#4d2e80", "home address"),
        Lies::Area(Part::Count, ..) => ("url(#count)", "#24509e", "count"),
        Lies::Area(Part::Key, ..) => ("url(#key)", "#7a5200", "key"),
        Lies::Area(Part::Data, ..) => ("#9ccc9c", "#3b7a3b", "data"),
        Lies::Marker(_) => ("#111111", "#111111", "marker"),
        Lies::Gap => ("#f1f1ee", "#d5d5d0", "gap"),
    }
}

fn tip(piece: &Piece, track: &[u16]) -> String {
    let at = cells(piece.first, piece.end);
    match piece.lies {
        Lies::Marker(record) => format!("{record} marker, {at}"),
        Lies::Gap => {
            let not_zero = track[piece.first..piece.end].iter().filter(|&&cell| cell != 0).count();
            format!("gap, {at}, {not_zero} not 0")
        }
        Lies::Area(part, record, area, readable) => {
            let state = if readable { "readable" } else { "not readable" };
            format!("{}, {}, {at}, {state}", area_name(part, record), counted(area.bytes as usize, "byte"))
        }
    }
}

fn rectangle(x: usize, y: usize, width: usize, height: usize, lies: Lies) -> String {
    let (fill, edge, _) = look(lies);
    format!("<rect x='{x}' y='{y}' width='{width}' height='{height}' fill='{fill}' stroke='{edge}' stroke-width='0.7'>")
}

/// A piece, in each strip that it reaches.
fn piece(piece: &Piece, track: &[u16], picture: &mut String) {
    let tip = tip(piece, track);
    let mut first = piece.first;
    while first < piece.end {
        let strip = first / STRIP;
        let end = piece.end.min((strip + 1) * STRIP);
        let (x, y) = (LEFT + first % STRIP * CELL, TOP + strip * STEP);
        // A marker is one cell; it stands out over the strip, so that it is seen.
        let (y, height) = if matches!(piece.lies, Lies::Marker(_)) { (y - 6, HEIGHT + 6) } else { (y, HEIGHT) };
        let width = (end - first) * CELL;
        let _ = writeln!(picture, "{}<title>{tip}</title></rect>", rectangle(x, y, width, height, piece.lies));
        // What is not readable still shows, by a band, which part it is.
        if let Lies::Area(part, record, area, false) = piece.lies {
            let _ = writeln!(picture, "{}</rect>", rectangle(x, y, width, BAND, Lies::Area(part, record, area, true)));
        }
        first = end;
    }
}

/// The cells of a gap that are not 0, run by run.
fn not_zero(gap: &Piece, track: &[u16], picture: &mut String) {
    let mut first = gap.first;
    for run in track[gap.first..gap.end].chunk_by(|one, next| (*one == 0) == (*next == 0)) {
        let end = first + run.len();
        if run[0] != 0 {
            let strips = first / STRIP..=(end - 1) / STRIP;
            for strip in strips {
                let (from, to) = (first.max(strip * STRIP), end.min((strip + 1) * STRIP));
                let (x, y, width) = (LEFT + from % STRIP * CELL, TOP + strip * STEP + HEIGHT / 4, (to - from) * CELL);
                let _ = writeln!(
                    picture,
                    "<rect x='{x}' y='{y}' width='{width}' height='{}' fill='{NOT_ZERO}'/>",
                    HEIGHT / 2
                );
            }
        }
        first = end;
    }
}

/// The names of the home address and the records over their first cells, but for those that would lie over the name before.
fn record_names(survey: &Survey, picture: &mut String) {
    let mut free = (0, 0);
    for piece in &survey.pieces {
        let (name, left) = match piece.lies {
            Lies::Marker(record) => (record.to_string(), 0),
            Lies::Area(Part::Home, ..) => ("HA".to_string(), 6),
            Lies::Area(Part::Count, Some(record), ..) if record.marker.is_none() => (record.to_string(), 0),
            _ => continue,
        };
        let (strip, x) = (piece.first / STRIP, LEFT + piece.first % STRIP * CELL - left);
        if strip > free.0 || x >= free.1 {
            let y = TOP + strip * STEP - 9;
            let _ = writeln!(picture, "<text class='record' x='{x}' y='{y}'>{name}</text>");
            free = (strip, x + 3 + 7 * name.len());
        }
    }
}

/// Cell numbers under a strip, every 64 cells.
fn scale(strip: usize, picture: &mut String) {
    const TICK: usize = 64;
    let y = TOP + strip * STEP + HEIGHT;
    let _ = writeln!(
        picture,
        "<text x='{}' y='{}' text-anchor='end'>{}</text>",
        LEFT - 8,
        y - HEIGHT / 2 + 4,
        strip * STRIP
    );
    for tick in 0..=STRIP / TICK {
        let x = LEFT + tick * TICK * CELL;
        let _ = writeln!(picture, "<path d='M{x} {y} v5' stroke='#666' stroke-width='0.8'/>");
        if tick < STRIP / TICK {
            let cell = strip * STRIP + tick * TICK;
            let _ = writeln!(picture, "<text class='small' x='{}' y='{}'>{cell}</text>", x + 3, y + 10);
        }
    }
}

fn legend(survey: &Survey, picture: &mut String) {
    let area = poplar::Area { first: 0, bytes: 0 };
    let record = crate::survey::Record { number: 0, marker: None };
    let parts = [Part::Home, Part::Count, Part::Key, Part::Data];
    let mut kinds: Vec<Lies> = parts.iter().map(|&part| Lies::Area(part, None, area, true)).collect();
    kinds.extend([Lies::Marker(record), Lies::Gap, Lies::Area(Part::Data, None, area, false)]);
    for (number, &lies) in kinds.iter().enumerate() {
        let (x, (_, _, name)) = (LEFT + number * 125, look(lies));
        let width = if matches!(lies, Lies::Marker(_)) { CELL } else { 24 };
        let _ = writeln!(picture, "{}</rect>", rectangle(x, LEGEND, width, 16, lies));
        let _ = writeln!(picture, "<text x='{}' y='{}'>{name}</text>", x + 30, LEGEND + 12);
    }
    let x = LEFT + kinds.len() * 125;
    let _ = writeln!(picture, "<rect x='{x}' y='{}' width='24' height='8' fill='{NOT_ZERO}'/>", LEGEND + 4);
    let _ = writeln!(picture, "<text x='{}' y='{}'>gap cells not 0</text>", x + 30, LEGEND + 12);
    name_faults(survey, picture);
}

fn name_faults(survey: &Survey, picture: &mut String) {
    for (number, fault) in survey.faults.iter().take(FAULTS).enumerate() {
        let y = LEGEND + 40 + number * 16;
        let _ = writeln!(picture, "<text class='bad' x='{LEFT}' y='{y}'>{fault}</text>");
    }
    if survey.faults.len() > FAULTS {
        let more = survey.faults.len() - FAULTS;
        let y = LEGEND + 40 + FAULTS * 16;
        let _ = writeln!(picture, "<text class='bad' x='{LEFT}' y='{y}'>and {more} more; see poplar check</text>");
    }
}

/// So many areas that are not readable are named under the picture.
const FAULTS: usize = 8;

pub fn draw(title: &str, track: &[u16], survey: &Survey) -> String {
    let height = LEGEND + 40 + (survey.faults.len().min(FAULTS + 1)) * 16;
    let mut picture = String::new();
    let _ = writeln!(
        picture,
        "<svg xmlns='http://www.w3.org/2000/svg' width='{WIDTH}' height='{height}' viewBox='0 0 {WIDTH} {height}'>\n\
         {STYLE}{PATTERNS}<rect width='{WIDTH}' height='{height}' fill='white'/>\n\
         <text class='title' x='{LEFT}' y='34'>{title}</text>"
    );
    let _ = writeln!(
        picture,
        "<text x='{LEFT}' y='54'>{survey}; R1, R2, .. are counted along the track; {STRIP} cells a strip</text>"
    );
    for number in survey.layers() {
        piece(&survey.pieces[number], track, &mut picture);
    }
    for gap in survey.pieces.iter().filter(|lies| lies.lies == Lies::Gap) {
        not_zero(gap, track, &mut picture);
    }
    record_names(survey, &mut picture);
    (0..STRIPS).for_each(|strip| scale(strip, &mut picture));
    legend(survey, &mut picture);
    picture += "</svg>\n";
    picture
}
