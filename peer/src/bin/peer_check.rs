//! Reads an image from standard input and prints the answer, and for an
//! accepted image every lane's entries.

use std::io::{self, BufWriter, Read, Write};

fn main() -> io::Result<()> {
    let mut image = Vec::new();
    io::stdin().lock().read_to_end(&mut image)?;
    let mut out = BufWriter::new(io::stdout().lock());
    write!(out, "{}", peer::report(&image))?;
    out.flush()
}
