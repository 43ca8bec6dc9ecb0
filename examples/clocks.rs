// Rifflerleek in a Rust program: what do three designs reach in all clocks, whatever their inputs are?
//   rustc --edition 2021 -L target/staticlib examples/clocks.rs

#[allow(dead_code)] // the other programs have calls of their own
mod rifflerleek; // rifflerleek.rs: the calls and constants
#[macro_use]
mod table; // table.rs: a table, read, run and written

use table::{result, Refusal, Table};

// A design: its first rows are its state, and next[i] is the row whose vector row i takes over at the clock.
struct Design {
    file: &'static str,
    text: &'static str,
    next: &'static [u32],
}

const COUNTER: Design = Design { file: "examples/counter.txt", text: include_str!("counter.txt"), next: &[1] };
const SHIFT_REGISTER: Design =
    Design { file: "examples/shift_register.txt", text: include_str!("shift_register.txt"), next: &[4, 0, 5, 2] };
const STATE_MACHINE: Design = Design { file: "examples/state_machine.txt", text: include_str!("state_machine.txt"), next: &[1] };

impl Table {
    // The number of rounds; the rows become those of the last round. A refusal leaves them as they were.
    fn settle(&mut self, next: &[u32]) -> Result<usize, Refusal> {
        let (words, length) = (self.words.as_ptr(), self.words.len());
        let state: Vec<u32> = (0..next.len() as u32).collect();
        Ok(call!(rifflerleek_settle, self, words, length, state.as_ptr(), state.len(), next.as_ptr(), next.len())?.0)
    }

    // How the first rows of this table, so many, lie to those of another, row by row.
    fn order(&self, other: &Table, rows: usize) -> Result<&'static str, Refusal> {
        let (number, _) = result(unsafe {
            rifflerleek::rifflerleek_compare_states(
                self.width.as_ptr(), rows, self.mask.as_ptr(), rows, self.value.as_ptr(), rows,
                other.mask.as_ptr(), rows, other.value.as_ptr(), rows,
            )
        })?;
        Ok(match number {
            rifflerleek::ORDER_EQUAL => "equal to",
            rifflerleek::ORDER_INSIDE => "inside",
            rifflerleek::ORDER_AROUND => "around",
            _ => "neither inside nor around",
        })
    }
}

// Settles a design, and prints the rows of the last round.
fn show(d: &Design) -> Result<(), Refusal> {
    let start = Table::read(d.text.as_bytes())?;
    let mut settled = start.clone();
    println!("{}: {} rounds", d.file, settled.settle(d.next)?);
    print!("{}", settled.text()?);
    println!("the start is {} the settled state", start.order(&settled, d.next.len())?);
    Ok(())
}

// The counter by 2 instead of 4: can it reach more?
fn change() -> Result<(), Refusal> {
    let mut before = Table::read(COUNTER.text.as_bytes())?;
    let mut after = before.clone();
    after.value[2] = 2;
    println!("counting by 4: {} rounds", before.settle(COUNTER.next)?);
    println!("counting by 2: {} rounds", after.settle(COUNTER.next)?);
    println!("the settled state by 2 is {} that by 4", after.order(&before, COUNTER.next.len())?);
    Ok(())
}

fn all() -> Result<(), Refusal> {
    show(&COUNTER)?; // XXXXXX00: the count stays a multiple of 4
    show(&SHIFT_REGISTER)?; // XXX0 and XXX0, 10 and 10: the keys come through, the panel's number stays
    show(&STATE_MACHINE)?; // 0X: two codes of four
    change()?; // XXXXXXX0
    show(&Design { next: &[3], ..COUNTER }) // a next row of another width
}

fn main() {
    if let Err(r) = all() {
        println!("settle: refusal {} at {}", r.number, r.place);
    }
}
