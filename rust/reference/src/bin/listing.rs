//! Prints the second listing of the set text that comes on standard input.

use reference::listing;
use reference::read::MAX_TEXT;
use std::io::{self, Read, Write};

fn main() -> io::Result<()> {
    // One byte more than a text may have is enough to see that it is too long.
    let mut text = Vec::new();
    io::stdin()
        .take(MAX_TEXT as u64 + 1)
        .read_to_end(&mut text)?;
    io::stdout().write_all(&listing(&text))
}
