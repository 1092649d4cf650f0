//! The drill of document 01, from standard input to standard output.

use std::io::{self, Write};

fn main() -> io::Result<()> {
    let mut output = io::stdout().lock();
    pack_reference::drill::drill(io::stdin().lock(), &mut output)?;
    output.flush()
}
