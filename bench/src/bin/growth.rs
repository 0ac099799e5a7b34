//! How the time of a whole job grows with its marks, its edges and its pillars, for every arrangement with an automatic
//! radius.
use bench::floors::{job, one, pillars, rectangle, round};
use bench::{ARRANGEMENTS, Lent};

fn hall(count: u16, columns: usize, rows: usize) -> Vec<u8> {
    job(&pillars(columns, rows, 80.0, 60.0), &one("hall", count, vec![rectangle(0.0, 0.0, 80.0, 60.0)]))
}

fn main() {
    let mut lent = Lent::new();
    let mut floors: Vec<(String, Vec<u8>)> = Vec::new();
    floors.extend([125, 250, 500, 1_000, 2_000].map(|n| (format!("{n} marks"), hall(n, 0, 0))));
    floors.extend(
        [4, 16, 64, 256]
            .map(|n| (format!("{n} edges, 500 marks"), job(&[], &one("round", 500, vec![round(n, 40.0, 0.0)])))),
    );
    floors.extend(
        [(1, 1), (2, 2), (4, 4), (8, 8)]
            .map(|(columns, rows)| (format!("{} pillars, 500 marks", columns * rows), hall(500, columns, rows))),
    );
    print!("{:<24}", "milliseconds a job");
    println!("{}", ARRANGEMENTS.map(|name| format!("{name:>16}")).concat());
    for (name, mut bytes) in floors {
        print!("{name:<24}");
        for byte in 0..ARRANGEMENTS.len() {
            bytes[5] = byte as u8;
            print!("{:>16.2}", lent.time(&bytes) / 1e6);
        }
        println!();
    }
}
