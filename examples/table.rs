// A table as a Rust program lends it to Rifflerleek, read from a text, run and written as one.

use crate::rifflerleek;

pub(crate) struct Refusal {
    pub(crate) number: u32,
    pub(crate) place: usize,
}

// Every call answers, on every input: there is nothing to catch.
pub(crate) fn given<T>(refusal: u32, place: usize, what: T) -> Result<T, Refusal> {
    if refusal == rifflerleek::DONE { Ok(what) } else { Err(Refusal { number: refusal, place }) }
}

pub(crate) fn result(a: rifflerleek::Answer) -> Result<(usize, u64), Refusal> {
    given(a.refusal, a.place, (a.result, a.second_result))
}

#[derive(Clone)]
pub(crate) struct Table {
    pub(crate) width: Vec<u8>,
    pub(crate) lock: Vec<u8>,
    pub(crate) mask: Vec<u32>,
    pub(crate) value: Vec<u32>,
    pub(crate) words: Vec<u32>,
}

// A call on the four row slices, each as a pointer and a length.
macro_rules! call {
    ($name:ident, $t:expr, $($more:expr),*) => {
        $crate::table::result(unsafe {
            $crate::rifflerleek::$name(
                $t.width.as_ptr(), $t.width.len(), $t.lock.as_ptr(), $t.lock.len(),
                $t.mask.as_mut_ptr(), $t.mask.len(), $t.value.as_mut_ptr(), $t.value.len(), $($more),*
            )
        })
    };
}

impl Table {
    pub(crate) fn read(text: &[u8]) -> Result<Table, Refusal> {
        let (most, words) = (rifflerleek::ROW_LIMIT, rifflerleek::RECORD_WORDS * rifflerleek::RECORD_LIMIT);
        let mut t = Table { width: vec![0; most], lock: vec![0; most], mask: vec![0; most], value: vec![0; most], words: vec![0; words] };
        let (rows, records) = result(unsafe {
            rifflerleek::rifflerleek_read(
                text.as_ptr(), text.len(), t.width.as_mut_ptr(), most, t.lock.as_mut_ptr(), most,
                t.mask.as_mut_ptr(), most, t.value.as_mut_ptr(), most, t.words.as_mut_ptr(), words,
            )
        })?;
        t.width.truncate(rows);
        t.lock.truncate(rows);
        t.mask.truncate(rows);
        t.value.truncate(rows);
        t.words.truncate(rifflerleek::RECORD_WORDS * records as usize);
        Ok(t)
    }

    // All records; a refusal leaves the rows as they were.
    #[allow(dead_code)] // clocks.rs settles instead
    pub(crate) fn run(&mut self) -> Result<usize, Refusal> {
        let (words, length) = (self.words.as_ptr(), self.words.len());
        Ok(call!(rifflerleek_run, self, words, length, 0, length / rifflerleek::RECORD_WORDS)?.0)
    }

    pub(crate) fn text(&mut self) -> Result<String, Refusal> {
        let (words, length) = (self.words.as_ptr(), self.words.len());
        let mut out = vec![0; call!(rifflerleek_size, self, words, length)?.0];
        call!(rifflerleek_write, self, words, length, out.as_mut_ptr(), out.len())?;
        Ok(String::from_utf8(out).unwrap())
    }
}
