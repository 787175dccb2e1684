//! Plays a sheet from standard input, in pieces, as `play` does.
use std::io::{self, BufReader, BufWriter, Write};

fn main() -> io::Result<()> {
    let input = BufReader::with_capacity(1 << 16, io::stdin().lock());
    // standard output itself would be written line by line
    let mut out = BufWriter::with_capacity(1 << 16, io::stdout().lock());
    bench::sheet::run(input, &mut out)?;
    out.flush()
}
