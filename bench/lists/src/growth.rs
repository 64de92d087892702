//! How cost grows: with the length of a run and of a line, the side of a copied block and the radius of a circle, at
//! depth 8, as comma-separated values for growth.py.

use crate::copies::{self, EQUAL, SHIFTED};
use crate::runs::{self, Clip, FILLS};
use crate::shapes::{circle, line};

const DEPTH: u32 = 8;

fn print(kind: &str, size: u16, columns: &[(&str, Option<f64>)]) {
    for (column, time) in columns {
        if let Some(time) = time {
            println!("{kind},{size},{column},{time:.2}");
        }
    }
}

fn print_runs() {
    for length in [1, 2, 4, 8, 16, 31, 64, 128, 256, 512, 1024, 2048, 4000] {
        let case = runs::Case { depth: DEPTH, length, clip: Clip::Inside, fill: &FILLS[0] };
        let times = case.times();
        let columns = [("proved", Some(times.proved)), ("C peer", Some(times.peer)), ("memset", times.memset)];
        print("run", length, &columns);
    }
}

fn print_copies() {
    for (name, kind) in [("copy of equal phase", EQUAL), ("shifted copy", SHIFTED)] {
        for side in [1, 2, 4, 8, 16, 31, 64, 128, 256, 400] {
            let times = copies::Case { kind: &kind, depth: DEPTH, size: [side, side] }.times();
            let block = |row: f64| row * f64::from(side);
            let columns = [
                ("proved", Some(block(times.proved))),
                ("C peer", Some(block(times.peer))),
                ("memmove", times.memmove.map(block)),
            ];
            print(name, side, &columns);
        }
    }
}

fn print_shapes() {
    for length in [2, 4, 8, 16, 31, 64, 128, 256, 512, 900] {
        let far = length - 1;
        let times = line("growing", [60, 60], [far, far / 3]).times(DEPTH);
        print("line", length as u16, &[("proved", Some(times.proved)), ("C peer", Some(times.peer))]);
    }
    for radius in [1, 2, 4, 8, 16, 32, 64, 128, 250, 490] {
        let times = circle(radius).times(DEPTH);
        print("circle", radius, &[("proved", Some(times.proved)), ("C peer", Some(times.peer))]);
    }
}

pub fn print_points() {
    println!("kind,size,column,ns");
    print_runs();
    print_copies();
    print_shapes();
}
