//! Makes what `crates/checkbooks` is run on: books with the answers of the reference's check. They are short books, three
//! good ones with every truncation and every single number changed to values at the edges of ranges, and books of 32,767
//! to 32,769 bytes.
//!
//! `books FOLDER` writes FOLDER/stdin (for each book its length in four bytes and its bytes) and FOLDER/stdout.

use std::io::Write;
use std::path::Path;

/// Values at the edges of the ranges that numbers of a book have.
const EDGES: [u16; 19] =
    [0, 1, 2, 3, 4, 5, 8, 9, 16, 17, 63, 64, 65, 128, 129, 255, 256, 32768, 65535];

fn book(numbers: &[u16]) -> Vec<u8> {
    let mut bytes = b"RUL".to_vec();
    for number in numbers {
        bytes.extend_from_slice(&number.to_le_bytes());
    }
    bytes
}

/// The listing's example; a term of eight levels; a book with every construct.
fn good() -> [Vec<u8>; 3] {
    [
        book(&[1, 0, 0, 1, 1, 0, 1, 1, 0, 0, 1, 1, 0, 0, 0, 1, 0, 0, 0, 0]),
        book(&[
            1, 1, 2, 1, 0, 0, 1, 0, 1, 1, 0, 1, 0, 0, 2, 0, 2, 0, 2, 0, 2, 0, 2, 0, 2, 0, 2, 0, 2, 1, 0,
        ]),
        book(&[
            1, 1, 1, 2, 1, 1, 1, 1, 2, 2, 2, 2, 2, 0, 0, 0, 0, 1, 0, 1, 2, 0, 0, 1, 2, 2, 0, 0, 0, 1, 0,
            2, 0, 1, 1, 0, 1, 0, 2, 0, 3, 0, 1, 1, 0, 0, 1, 0, 0, 0, 0,
        ]),
    ]
}

fn short(books: &mut Vec<Vec<u8>>) {
    for length in 0..9 {
        for fill in [0, 82, 1] {
            let plain = vec![fill; length];
            let mut marked = plain.clone();
            for (byte, mark) in marked.iter_mut().zip(b"RUL\x01\0") {
                *byte = *mark;
            }
            books.push(plain);
            books.push(marked);
        }
    }
}

fn changed(books: &mut Vec<Vec<u8>>, good: &[u8]) {
    books.extend((0..=good.len()).map(|length| good[..length].to_vec()));
    books.push([good, &[0]].concat());
    for at in (3..good.len()).step_by(2) {
        for value in EDGES {
            let mut book = good.to_vec();
            book[at..at + 2].copy_from_slice(&value.to_le_bytes());
            books.push(book);
        }
    }
}

fn main() -> std::io::Result<()> {
    let Some(folder) = std::env::args().nth(1) else {
        eprintln!("usage: books FOLDER");
        std::process::exit(2);
    };
    let mut books = Vec::new();
    short(&mut books);
    for good in good() {
        changed(&mut books, &good);
    }
    for length in [32_767, 32_768, 32_769] {
        let mut book = good()[0].clone();
        book.resize(length, 0);
        books.push(book);
    }
    let mut input = std::fs::File::create(Path::new(&folder).join("stdin"))?;
    let mut lines = std::fs::File::create(Path::new(&folder).join("stdout"))?;
    for book in &books {
        input.write_all(&(book.len() as u32).to_le_bytes())?;
        input.write_all(book)?;
        match reference::check::check(book) {
            Ok(_) => writeln!(lines, "ends at {}", book.len())?,
            Err(fault) => writeln!(lines, "refused {} at {}", fault.number, fault.place)?,
        }
    }
    println!("{} books", books.len());
    Ok(())
}
