//! Writes the database that a file shows with its logs, page by page, to another file. The file may have writers
//! meanwhile.
//!
//! usage: pages FILE OUT
use sqrescue::View;
use std::fs::File;
use std::io::Write;
use std::{env, error, process};

fn copy(path: &str, out: &str) -> Result<(), Box<dyn error::Error>> {
    let view = View::open(path)?;
    let mut file = File::options().write(true).create_new(true).open(out)?;
    for number in 1..=view.pages() {
        file.write_all(&view.page(number)?)?;
    }
    println!("{} pages of {} bytes", view.pages(), view.page_size());
    Ok(())
}

fn main() {
    let words: Vec<String> = env::args().collect();
    let [_, path, out] = &words[..] else {
        eprintln!("usage: pages FILE OUT");
        process::exit(2);
    };
    if let Err(error) = copy(path, out) {
        eprintln!("pages: {error}");
        process::exit(3);
    }
}
