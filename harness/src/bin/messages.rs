//! Writes the table of test messages.

use harness::messages::table;
use std::io::{self, Write};

fn main() -> io::Result<()> {
    io::stdout().lock().write_all(table().text().as_bytes())
}
