// Rifflerleek in a Rust program: which records of a table grown out of an old design still feed what is wanted?
//   rustc --edition 2021 -L target/staticlib examples/prune.rs

#[allow(dead_code)] // the other programs have calls of their own
mod rifflerleek; // rifflerleek.rs: the calls and constants
#[macro_use]
mod table; // table.rs: a table, read, run and written

use table::{Refusal, Table};

const DESIGN: &str = "examples/old_design.txt";
const TEXT: &str = include_str!("old_design.txt");
const LAMP: usize = 8;

impl Table {
    // How many records stay: those that feed a marked row. A refusal leaves them as they were.
    fn prune(&mut self, marks: &[u8]) -> Result<usize, Refusal> {
        let (words, length) = (self.words.as_mut_ptr(), self.words.len());
        let (records, _) = call!(rifflerleek_prune, self, words, length, marks.as_ptr(), marks.len())?;
        self.words.truncate(rifflerleek::RECORD_WORDS * records); // the words after them are 0
        Ok(records)
    }

    // The letters of a row, which are the third field of its line.
    fn letters(&mut self, row: usize) -> Result<String, Refusal> {
        let text = self.text()?;
        Ok(text.lines().nth(row + 1).and_then(|line| line.split('\t').nth(2)).unwrap_or("").to_string())
    }
}

fn all() -> Result<(), Refusal> {
    let mut old = Table::read(TEXT.as_bytes())?;
    let mut new = old.clone();
    let mut marks = vec![0; new.width.len()];
    marks[LAMP] = 1; // the lamp is wanted, and nothing else

    let records = new.words.len() / rifflerleek::RECORD_WORDS;
    println!("{DESIGN}: {records} records, of which {} stay", new.prune(&marks)?);
    print!("{}", new.text()?);
    old.run()?;
    new.run()?;
    for row in (0..marks.len()).filter(|&i| marks[i] == 1) {
        print!("row {row} ends as {}, ", new.letters(row)?); // 1XX1
        let same = new.mask[row] == old.mask[row] && new.value[row] == old.value[row];
        println!("{}", if same { "by the records that stay as by all" } else { "and ended otherwise by all records" });
    }

    marks[LAMP] = 2; // a mark is 0 or 1
    new.prune(&marks).map(|_| ())
}

fn main() {
    if let Err(r) = all() {
        println!("prune: refusal {} at {}", r.number, r.place);
    }
}
