//! Makes what `crates/replaylistings` is run on: the recorded inputs of the listing program, with the
//! recorded texts, which are the published Rust's where it has an answer.
//!
//! `listings FOLDER RECORDED` writes FOLDER/stdin (for each input its length in four bytes and its
//! bytes) and FOLDER/stdout (its text and a line `--`; last how many inputs there were).

use compare::recorded::listings;
use std::path::Path;

/// The longest input that the program takes.
const MOST: usize = 32_777;

fn make(folder: &Path, recorded: &Path) -> Result<String, String> {
    let (mut input, mut printed, mut count) = (Vec::new(), String::new(), 0);
    for (bytes, text) in listings(recorded)? {
        if bytes.len() > MOST {
            return Err(format!("listing {count}: an input of {} bytes", bytes.len()));
        }
        input.extend_from_slice(&(bytes.len() as u32).to_le_bytes());
        input.extend_from_slice(&bytes);
        printed += &text;
        printed += "--\n";
        count += 1;
    }
    printed += &format!("end after {count}\n");
    let write = |name: &str, bytes: &[u8]| {
        std::fs::write(folder.join(name), bytes).map_err(|error| format!("{name}: {error}"))
    };
    write("stdin", &input)?;
    write("stdout", printed.as_bytes())?;
    Ok(format!("listings {count}; bytes: stdin {}, stdout {}", input.len(), printed.len()))
}

fn main() {
    let words: Vec<String> = std::env::args().skip(1).collect();
    let [folder, recorded] = words.as_slice() else {
        eprintln!("usage: listings FOLDER RECORDED");
        std::process::exit(2);
    };
    match make(Path::new(folder), Path::new(recorded)) {
        Ok(told) => println!("{told}"),
        Err(text) => {
            eprintln!("listings: {text}");
            std::process::exit(1);
        }
    }
}
