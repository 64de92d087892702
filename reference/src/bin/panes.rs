//! "`panes` reads lines from standard input": the script program.

use reference::script::{run_program, Language};

fn main() {
    run_program(Language::Panes);
}
