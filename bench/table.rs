// The two tables, on the screen and in Markdown, and the machine's name.
use crate::growth::{self, Growth};
use crate::part::Row;
use std::thread;

pub fn machine() -> String {
    let info = std::fs::read_to_string("/proc/cpuinfo").unwrap_or_default();
    let model = info.lines().find_map(|line| line.strip_prefix("model name")?.split_once(':'));
    let model = model.map_or("a processor without a name", |(_, name)| name.trim());
    let cores = thread::available_parallelism().map_or(1, usize::from);
    format!("{model}, {cores} cores, {}", env!("BENCH_RUSTC"))
}

// A bar, where one is set.
pub fn at_most(wanted: Option<f64>) -> String {
    wanted.map_or("-".to_string(), |ratio| format!("{ratio:.2}"))
}

// The time of the loop by slices and the ratio to it, or a dash each.
fn sliced(row: &Row) -> [String; 2] {
    row.sliced().map_or(["-", "-"].map(str::to_string), |(ms, ratio)| [ms, ratio].map(|n| format!("{n:.2}")))
}

pub fn print_rows(rows: &[Row]) {
    println!("milliseconds, medians of rounds in turn, results all the same; ratio: proved to the faster of shifts and table,");
    println!("which go byte by byte, and to plain Rust by slicing by 8; at most: in the best of four placements, see --placed");
    print!("{:<8}{:>6}{:>9}{:>9}{:>9}", "", "rounds", "proved", "shifts", "table");
    println!("{:>7}{:>9}{:>9}{:>7}", "ratio", "at most", "slicing", "ratio");
    for row in rows {
        let Row { part, proved, plain } = row;
        let table = plain.get(1).map_or("-".to_string(), |ms| format!("{ms:.2}"));
        let (first, ratio, most) = (plain[0], row.ratio(), at_most(part.wanted));
        let [slicing, to_slicing] = sliced(row);
        print!("{:<8}{:>6}{proved:>9.2}{first:>9.2}{table:>9}{ratio:>7.2}{most:>9}", part.name, part.rounds);
        println!("{slicing:>9}{to_slicing:>7}   {}", (part.what)());
    }
    println!();
}

pub fn print_growths(growths: &[Growth]) {
    println!("milliseconds of the box at n, 2n and 4n, medians of {} rounds in turn", growth::ROUNDS);
    println!("{:<44}{:>8}{:>8}{:>8}{:>8}{:>8}{:>9}", "n", "at n", "2n", "4n", "step", "step", "at most");
    for growth in growths {
        let ([n, n2, n4], [first, second]) = (growth.times, growth.steps());
        let (what, wanted) = (&growth.what, growth::WANTED);
        println!("{what:<44}{n:>8.2}{n2:>8.2}{n4:>8.2}{first:>8.2}{second:>8.2}{wanted:>9.1}");
    }
    println!();
}

// The README's tables.
pub fn markdown(rows: &[Row], growths: &[Growth]) {
    println!("On {}. Milliseconds, each the median of rounds in turn.\n", machine());
    println!("| | Rounds | Box | Plain Rust | Ratio | At most | Slicing by 8 | Ratio to it |");
    println!("|---|---:|---:|---:|---:|---:|---:|---:|");
    for row in rows {
        let Row { part, proved, .. } = row;
        print!("| {} | {} | {proved:.2} | {:.2} ", (part.what)(), part.rounds, row.fastest());
        println!("| {:.2} | {} | {} |", row.ratio(), at_most(part.wanted), sliced(row).join(" | "));
    }
    println!("\nHow the box's time grows, {} rounds; a step may take at most {:.1}:\n", growth::ROUNDS, growth::WANTED);
    println!("| n | At n | At 2n | At 4n | Steps |\n|---|---:|---:|---:|---:|");
    for growth in growths {
        let ([n, n2, n4], [first, second]) = (growth.times, growth.steps());
        println!("| {} | {n:.2} | {n2:.2} | {n4:.2} | {first:.2}, {second:.2} |", growth.what);
    }
}

// A line a part, of which the script makes a table: its name, the bar, and milliseconds of the box, of the faster loop that goes byte by
// byte, and of the one by slices, where there is one.
pub fn times(rows: &[Row]) {
    for row in rows {
        let slicing = row.sliced().map_or("-".to_string(), |(ms, _)| format!("{ms:.6}"));
        println!("{} {} {:.6} {:.6} {slicing}", row.part.name, at_most(row.part.wanted), row.proved, row.fastest());
    }
}
