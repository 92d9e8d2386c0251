//! Reads a tape from standard input and prints its lines.

use std::io::{self, BufWriter, Read, Write};

fn main() -> io::Result<()> {
    let mut tape = Vec::new();
    io::stdin().lock().read_to_end(&mut tape)?;
    let mut out = BufWriter::new(io::stdout().lock());
    for line in second::tape::play(&tape) {
        writeln!(out, "{line}")?;
    }
    out.flush()
}
