//! Counts the calls on traces, on restored cards and on no card by the number they answered.

/// Each call, with the numbers that it must have given.
const CALLS: [(&str, &[u32]); 11] = [
    ("trace start", &[0, 1, 11]),
    ("trace append", &[0, 2, 10, 11]),
    ("trace extend", &[0, 2, 10, 11]),
    ("trace extend, where append sees a pad byte", &[0, 2]),
    ("trace check", &[0, 10]),
    ("trace run", &[0, 1, 2, 3, 4, 5, 6, 7, 8, 9, 10, 12, 13]),
    ("read of a restored card", &[0, 4]),
    ("write on a restored card", &[0, 5, 6]),
    ("write on a restored card of a bad mode", &[5]),
    ("write on a restored card of a bad operation", &[6]),
    ("read-back", &[0, 1, 8]),
];

#[derive(Clone, Copy)]
pub enum Call {
    Start,
    Append,
    Extend,
    ExtendOverPad,
    Check,
    Run,
    Read,
    Write,
    WriteBadMode,
    WriteBadOperation,
    ReadBack,
}

/// For each call, how often it gave each number.
pub struct Calls([[u64; 14]; CALLS.len()]);

impl Calls {
    pub fn new() -> Calls {
        Calls([[0; 14]; CALLS.len()])
    }

    pub fn add(&mut self, call: Call, number: u32) {
        self.0[call as usize][number as usize] += 1;
    }

    pub fn print(&self) {
        for ((name, _), counts) in CALLS.iter().zip(&self.0) {
            let cells: Vec<String> = counts
                .iter()
                .enumerate()
                .filter(|(_, &count)| count > 0)
                .map(|(n, count)| format!("{n}: {count}"))
                .collect();
            println!("{name}: {}", cells.join(", "));
        }
    }

    /// What should have been reached and was not.
    pub fn missing(&self) -> Vec<String> {
        let mut missing = Vec::new();
        for ((name, numbers), counts) in CALLS.iter().zip(&self.0) {
            for &number in numbers
                .iter()
                .filter(|&&number| counts[number as usize] == 0)
            {
                missing.push(format!("{name}, number {number}"));
            }
        }
        missing
    }
}
