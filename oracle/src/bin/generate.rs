//! `generate SEED COUNT DIR` writes that many request files to a folder, and answers.txt with a line for each: name,
//! answer, place, steps, column.

use oracle::{gate, generate};
use std::path::Path;

fn main() -> std::io::Result<()> {
    let arguments: Vec<String> = std::env::args().skip(1).collect();
    let [seed, count, folder] = &arguments[..] else {
        eprintln!("usage: generate SEED COUNT DIR");
        std::process::exit(2);
    };
    let (Ok(seed), Ok(count)) = (seed.parse(), count.parse()) else {
        eprintln!("SEED and COUNT are numbers");
        std::process::exit(2);
    };
    let folder = Path::new(folder);
    std::fs::create_dir_all(folder)?;
    let mut answers = String::new();
    for text in generate::texts(seed, count) {
        let name = format!("{}.req", text.name);
        let answer = gate(&text.bytes);
        answers += &format!("{name} {} {} {} {}\n", answer.answer, answer.place, answer.steps, answer.column);
        std::fs::write(folder.join(name), text.bytes)?;
    }
    std::fs::write(folder.join("answers.txt"), answers)
}
