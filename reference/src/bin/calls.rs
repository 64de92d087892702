//! `calls`: the script program with letters for peek, clear, the judge and the
//! trap switch.

use reference::script::{run_program, Language};

fn main() {
    run_program(Language::Calls);
}
