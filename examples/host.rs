// Rifflerleek in a Rust program: does an index that is partly unknown stay inside its array?
//   rustc --edition 2021 -L target/staticlib examples/host.rs

#[allow(dead_code)] // the other programs have calls of their own
mod rifflerleek; // rifflerleek.rs: the calls and constants
#[macro_use]
mod table; // table.rs: a table, read, run and written
mod vectors; // vectors.rs: the calls on vectors that stand in no table

use table::{Refusal, Table};
use vectors::Bare;

impl Table {
    fn count(&mut self, row: usize) -> Result<(usize, u64), Refusal> {
        call!(rifflerleek_count, self, row)
    }

    // The value of a bit after a run of all records; the rows become the start rows that it rests on.
    fn reset_bits(&mut self, row: usize, bit: u32) -> Result<usize, Refusal> {
        let (words, length) = (self.words.as_ptr(), self.words.len());
        Ok(call!(rifflerleek_reset_bits, self, words, length, row, bit)?.0)
    }
}

/// The field itself, as a part of the text.
fn field(text: &str, line: usize, field: usize) -> &str {
    let a = unsafe { rifflerleek::rifflerleek_field(text.as_ptr(), text.len(), line, field) };
    &text[a.result..a.second_result as usize]
}

const TEXT: &str = "edition\t3
row\tlocked\t0000XXXX
row\tlocked\t01000000
row\tlocked\t10000000
row\topen\t00000000
row\topen\t0
op\tshl\t3\t0\t0\t2\t0
op\tadd\t3\t3\t1\t0\t0
op\tult\t4\t3\t2\t0\t0
";

fn run_and_print(t: &mut Table, row: usize) -> Result<(), Refusal> {
    t.run()?;
    print!("{}", t.text()?);
    let (unknown, numbers) = t.count(row)?;
    println!("row {row}: {unknown} unknown bits, {numbers} numbers");
    Ok(())
}

// Loads the table, and runs it with an index of 0 to 15, with one that is wholly unknown, and with a record that run refuses.
fn evaluate() -> Result<(), Refusal> {
    let mut t = Table::read(TEXT.as_bytes())?;
    run_and_print(&mut t, 3)?; // row 4 is 1: every index that row 0 covers stays inside
    t.mask[0] = 0xff;
    t.value[0] = 0;
    run_and_print(&mut t, 4)?; // row 4 is X: some stay inside, some do not
    t.words[rifflerleek::RECORD_WORDS + 1] = 1; // add, into the locked row 1
    run_and_print(&mut t, 4)
}

// Calls on vectors that stand in no table.
fn ask() -> Result<(), Refusal> {
    let letters = vectors::product(4, &Bare { mask: 0, value: 3 }, &Bare { mask: 2, value: 1 })?;
    println!("0011 times 00X1: {letters}"); // 3 or 9
    let [(a, b), (c, d)] = vectors::explain(3, &Bare { mask: 2, value: 0 }, &Bare { mask: 0, value: 3 }, 2)?;
    println!("bit 2 of 0X0 + 011: 0 from {a} + {b}, 1 from {c} + {d}"); // 3 or 5
    let (v, least, most) = vectors::range(8, &Bare { mask: 0xfe, value: 0 }, 37, 47)?; // a fader's converter, whose lowest bit is 0
    println!("XXXXXXX0 between 37 and 47: mask {:02x}, value {:02x}, smallest {least}, largest {most}", v.mask, v.value); // 0010XXX0
    Ok(())
}

const RESET: &str = "edition\t3
row\topen\t00010000
row\topen\t00000001
row\tlocked\t00000100
row\topen\t00000000
op\tmul\t3\t1\t2\t0\t0
op\tadd\t3\t0\t3\t0\t0
";

// Which resets of base (row 0) and index (row 1) the top bit of the address (row 3) needs: the others become X.
fn resets() -> Result<(), Refusal> {
    let mut t = Table::read(RESET.as_bytes())?;
    println!("bit 7 of row 3 is {} by these start bits:", t.reset_bits(3, 7)?);
    print!("{}", t.text()?); // 00XXXXXX and XX00XXXX: four resets of twenty-four
    Ok(())
}

fn main() {
    if let Err(r) = evaluate() {
        println!("run: refusal {} at {}", r.number, r.place);
    }
    let bad = "edition\t3\nrow\topen\t0X\nop\tadd\t0\t0\t00\t0\t0\n"; // 0 is written with one digit
    if let Err(r) = Table::read(bad.as_bytes()) {
        println!("read: refusal {} at {}", r.number, r.place);
        println!("its second field: {}", field(bad, r.place, 2));
    }
    if let Err(r) = ask().and_then(|()| resets()) {
        println!("ask: refusal {} at {}", r.number, r.place);
    }
}
