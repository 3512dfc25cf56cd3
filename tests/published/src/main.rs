//! The published Rust as a listing program: settings and a book on standard input, the listing
//! on standard output; with `--steps`, every sheet after every step; with `--prints`, the names
//! and short prints of the published files.

use published::show;
use std::io::{Read, Write};

fn main() -> std::io::Result<()> {
    let argument = std::env::args().nth(1);
    let mut input = Vec::new();
    let text = match argument.as_deref() {
        None | Some("--steps") => {
            std::io::stdin().read_to_end(&mut input)?;
            show::text(&input, argument.is_some()).unwrap_or_else(|text| {
                eprintln!("{text}");
                std::process::exit(3)
            })
        }
        Some("--prints") => {
            let line = |(file, print): &(&str, u64)| format!("{print:016x} {file}\n");
            published::PRINTS.iter().map(line).collect()
        }
        Some(other) => {
            eprintln!("unknown argument {other}; known: --steps, --prints");
            std::process::exit(2);
        }
    };
    std::io::stdout().write_all(text.as_bytes())
}
