//! The console: a script on standard input, its answers on standard output.

use std::io::{self, BufWriter, IsTerminal};

fn main() -> io::Result<()> {
    let eager = io::stdin().is_terminal();
    desk::script::run(&mut io::stdin().lock(), &mut BufWriter::new(io::stdout().lock()), eager)
}
