//! The line program `bench` over the second implementation: standard input to standard output.

use std::io::{self, BufWriter};

fn main() -> io::Result<()> {
    let mut output = BufWriter::new(io::stdout().lock());
    reference::lines::run(&mut io::stdin().lock(), &mut output)
}
