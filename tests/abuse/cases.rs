//! Files of cases for the boards: calls, with what the second program says of them. `tests/board/calls.h`
//! says how they are written.

use second::calls::blocks;
use second::harness::{Call, Given, Outcome};
use std::fs;
use std::io;
use std::path::Path;

/// The most bytes of a file: the smallest board has 256 KiB for it and the program.
const FILE: usize = 200_000;

/// The byte behind the last case of a file.
const END: u8 = 0xFF;

#[derive(Default)]
pub struct Cases {
    full: Vec<Vec<u8>>,
    last: Vec<u8>,
    count: u64,
}

impl Cases {
    /// The paper's vectors.
    pub fn new() -> Self {
        let mut cases = Self::default();
        for (call, meant) in blocks::paper_vectors() {
            cases.add(&call, meant.written.len(), &meant);
        }
        cases
    }

    pub fn add(&mut self, call: &impl Call, room: usize, meant: &Outcome) {
        let case = case(&call.given(), room, meant);
        if self.last.len() + case.len() >= FILE {
            self.close();
        }
        self.last.extend(case);
        self.count += 1;
    }

    fn close(&mut self) {
        self.last.push(END);
        self.full.push(std::mem::take(&mut self.last));
    }

    /// Writes them to `FOLDER/0`, `FOLDER/1` and so on.
    pub fn write(mut self, folder: &Path) -> io::Result<()> {
        self.close();
        fs::create_dir_all(folder)?;
        for (number, file) in self.full.iter().enumerate() {
            fs::write(folder.join(number.to_string()), file)?;
        }
        println!("abuse: {} cases in {} files", self.count, self.full.len());
        Ok(())
    }
}

fn case(given: &Given, room: usize, meant: &Outcome) -> Vec<u8> {
    let mut case = vec![given.function];
    for number in &given.numbers {
        case.extend(number.to_be_bytes());
    }
    for slice in &given.slices {
        case.extend(length(slice.len()));
        case.extend(*slice);
    }
    case.extend(length(room));
    case.extend(meant.answer.to_be_bytes());
    case.extend(&meant.written);
    case
}

fn length(length: usize) -> [u8; 4] {
    u32::try_from(length).expect("a short slice").to_be_bytes()
}
