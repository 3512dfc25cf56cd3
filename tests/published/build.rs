//! Reads the published files from the folder that `NIDRAGHERA_PUBLISHED` names, appends what
//! stands in `appended/`, and puts them where the library takes them in. The text itself is not
//! changed, and no copy of it is kept in the repository.

use std::{env, fs, path::Path};

const VARIABLE: &str = "NIDRAGHERA_PUBLISHED";

/// The published path, where it is put, and what is appended to it.
const FILES: [(&str, &str, &str); 9] = [
    ("razor-chase/src/chase.rs", "chase/mod.rs", "chase.rs"),
    ("razor-chase/src/chase/bounder.rs", "chase/bounder.rs", ""),
    ("razor-chase/src/chase/witness.rs", "chase/witness.rs", "witness.rs"),
    ("razor-chase/src/chase/strategy.rs", "chase/strategy.rs", "strategy.rs"),
    ("razor-chase/src/chase/scheduler.rs", "chase/scheduler.rs", "scheduler.rs"),
    ("razor-chase/src/chase/impl/basic.rs", "chase/impl/basic.rs", "basic.rs"),
    ("razor-fol/src/syntax/symbol.rs", "syntax/symbol.rs", ""),
    ("razor-fol/src/syntax/term.rs", "syntax/term.rs", ""),
    ("razor-fol/src/syntax/formula/clause.rs", "syntax/formula/clause.rs", ""),
];

fn fail(message: &str) -> ! {
    eprintln!("error: {message}");
    eprintln!("Set {VARIABLE} to the folder that holds razor-chase/ and razor-fol/.");
    std::process::exit(1)
}

/// A short number that tells whether a file is the same text (FNV-1a, 64 bits).
fn print(text: &str) -> u64 {
    let step = |hash: u64, byte: u8| (hash ^ byte as u64).wrapping_mul(0x0100_0000_01b3);
    text.bytes().fold(0xcbf2_9ce4_8422_2325, step)
}

fn write(path: &Path, text: &str) {
    fs::create_dir_all(path.parent().unwrap()).unwrap();
    fs::write(path, text).unwrap();
}

fn main() {
    println!("cargo:rerun-if-env-changed={VARIABLE}");
    println!("cargo:rerun-if-changed=appended");
    println!("cargo:rerun-if-changed=build.rs");
    let Ok(folder) = env::var(VARIABLE) else {
        fail(&format!("the folder of the published files is not given ({VARIABLE} is not set)"))
    };
    let out = env::var("OUT_DIR").unwrap();
    let out = Path::new(&out);
    let mut prints = String::new();
    for (from, to, appended) in FILES {
        let path = Path::new(&folder).join(from);
        println!("cargo:rerun-if-changed={}", path.display());
        let Ok(mut text) = fs::read_to_string(&path) else {
            fail(&format!("the published file {from} is not in the folder that was given"))
        };
        prints.push_str(&format!("    (\"{from}\", {:#x}),\n", print(&text)));
        if !appended.is_empty() {
            text.push('\n');
            text.push_str(&fs::read_to_string(Path::new("appended").join(appended)).unwrap());
        }
        write(&out.join(to), &text);
    }
    // The file that names the one module of chase/impl is not among the published ones.
    write(&out.join("chase/impl/mod.rs"), "pub mod basic;\n");
    let at = |file: &str| format!("#[path = {:?}]\n", out.join(file));
    write(&out.join("root.rs"), &format!("{}pub mod chase;\n", at("chase/mod.rs")));
    let syntax =
        ["symbol", "term"].map(|m| format!("{}pub mod {m};\n", at(&format!("syntax/{m}.rs"))));
    write(&out.join("syntax.rs"), &syntax.concat());
    write(&out.join("formula.rs"), &format!("{}pub mod clause;\n", at("syntax/formula/clause.rs")));
    write(&out.join("prints.rs"), &format!("[\n{prints}]\n"));
}
