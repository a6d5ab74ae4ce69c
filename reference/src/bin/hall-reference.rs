//! `hall-reference`: runs a script from standard input as 01's program `hall` does.

use std::io::{self, BufWriter};

fn main() -> io::Result<()> {
    let mut output = BufWriter::new(io::stdout().lock());
    reference::script::run_script(&mut io::stdin().lock(), &mut output)
}
