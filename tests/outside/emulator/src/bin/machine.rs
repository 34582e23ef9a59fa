//! The emulator's own form of the program: reads before.pic, run.lst and in.itm from the current
//! directory, prints, and writes after.pic if the run is done.

use std::io::ErrorKind;

fn file(name: &str) -> Option<Vec<u8>> {
    match std::fs::read(name) {
        Ok(bytes) => Some(bytes),
        Err(error) if error.kind() == ErrorKind::NotFound => None,
        // Reading E6: there, but not to be read, is refused as an empty file is.
        Err(error) => {
            eprintln!("{}: {}", name, error);
            Some(Vec::new())
        }
    }
}

fn main() {
    let (before, list, items) = (file("before.pic"), file("run.lst"), file("in.itm"));
    let (text, after) = emulator::program::program(before.as_deref(), list.as_deref(), items.as_deref());
    if let Some(bytes) = after {
        std::fs::write("after.new", bytes).and_then(|_| std::fs::rename("after.new", "after.pic")).expect("after.pic");
    }
    print!("{}", text);
}
