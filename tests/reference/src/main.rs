//! The reference as a listing program: settings and a book on standard input, the listing on
//! standard output; with `--steps`, every sheet after every step.

use std::io::{Read, Write};

fn main() -> std::io::Result<()> {
    let mut input = Vec::new();
    std::io::stdin().read_to_end(&mut input)?;
    let text = match std::env::args().nth(1).as_deref() {
        None => reference::listing::listing(&input),
        Some("--steps") => reference::listing::states(&input),
        Some(other) => {
            eprintln!("unknown argument {other}; known: --steps");
            std::process::exit(2);
        }
    };
    std::io::stdout().write_all(text.as_bytes())
}
