// Ratios of time: the proved library against the Rust original, each answering the same question from the
// same bytes into memory treated alike. Every answer is compared before it is timed.
//
//     ours.rs      the proved library's calls          theirs.rs    the Rust's
//     packets.rs   what is read                        agree.rs     the comparison
//     timing.rs    turns and the table                 rows.rs      the rows and the growth
//     writing.rs   what is written, as job lists and as builders
//     marks.rs     marks, and their words by plain Rust
//     portions.rs  a packet in portions, and the whole reading of it

mod agree;
mod marks;
mod ours;
mod packets;
mod portions;
mod rows;
mod theirs;
mod timing;
mod writing;

use timing::Table;

const USAGE: &str = "bench/run [GROUP ..]: times the named groups of rows, or all of them
groups: packet numbers others longest refusals growth writing careful marks portions judging
exit status: 0 every row is at or below its bar; 1 a row is above it; 2 bad usage; 101 an answer differs from the Rust's";

const GROUPS: [(&str, fn(&mut Table)); 11] = [
    ("packet", rows::packet),
    ("numbers", rows::numbers),
    ("others", rows::others),
    ("longest", rows::longest),
    ("refusals", rows::refusals),
    ("growth", rows::growth),
    ("writing", rows::writing),
    ("careful", rows::careful_writing),
    ("marks", rows::from_marks),
    ("portions", rows::in_portions),
    ("judging", rows::judging),
];

fn main() {
    let asked: Vec<String> = std::env::args().skip(1).collect();
    if asked.iter().any(|a| a == "--help" || a == "-h") {
        println!("{USAGE}");
        return;
    }
    if let Some(other) = asked.iter().find(|a| !GROUPS.iter().any(|g| g.0 == a.as_str())) {
        eprintln!("bench: no group of rows is called {other}\n{USAGE}");
        std::process::exit(2);
    }
    compare();
    let mut t = Table { above: Vec::new() };
    for (name, rows) in GROUPS {
        if asked.is_empty() || asked.iter().any(|a| a == name) {
            rows(&mut t);
        }
    }
    println!();
    if t.above.is_empty() {
        println!("bench: every row is at or below its bar");
        return;
    }
    println!("bench: {} rows above their bar", t.above.len());
    for row in &t.above {
        println!("  {row}");
    }
    std::process::exit(1);
}

/// Random packets, every question about each; and random marks at rooms from none to enough.
fn compare() {
    let mut seed = packets::Seed(0x0DDB1A5E5BAD5EED);
    let mut room = agree::Room::new(70_000);
    agree::chunks();
    let n = 4_000;
    for _ in 0..n {
        agree::everything(&packets::random(&mut seed), &mut room);
    }
    println!("bench: {n} random packets, every question of every block: the crate reading answers what the Rust answers");
    for i in 0..n {
        let m = marks::any(&mut seed, if i % 100 == 0 { 66_000 } else { 200 });
        let a = agree::from_marks(&m, m.len() / 15 + 2);
        if a.code == 0 {
            let need = a.first as usize;
            for room in [0, need / 2, need.saturating_sub(1), need] {
                agree::from_marks(&m, room);
            }
        }
    }
    println!("bench: {n} random lists of marks: the words that plain Rust makes");
}
