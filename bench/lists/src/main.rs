//! Times the proved console beside the second implementation, the peer in C, memset, memmove and pixman, in one
//! process, and prints a table for each kind of work. What is drawn is compared, and the program fails if it differs.

mod commands;
mod consoles;
mod contests;
mod copies;
mod growth;
mod judged;
mod lists;
mod pixman;
mod runs;
mod shapes;

type Table = (&'static str, fn());

const TABLES: [Table; 5] = [
    ("lists", lists::print_table),
    ("judged", judged::print_table),
    ("runs", runs::print_table),
    ("copies", copies::print_table),
    ("shapes", shapes::print_table),
];

fn main() {
    let asked: Vec<String> = std::env::args().skip(1).collect();
    if asked == ["growth"] {
        return growth::print_points();
    }
    if let Some(unknown) = asked.iter().find(|name| TABLES.iter().all(|(known, _)| known != name)) {
        eprintln!("no table is named {unknown}: lists, judged, runs, copies, shapes, or growth alone");
        std::process::exit(2);
    }
    for (name, print) in TABLES {
        if asked.is_empty() || asked.iter().any(|wanted| wanted == name) {
            print();
            println!();
        }
    }
}
