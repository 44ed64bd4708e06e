//! One case: its fields, its bytes and its expected answer.

use reference::compare::{compare, compare_ready};
use reference::convert::{to_named, to_plain};
use reference::game::hand_play;
use reference::grid::{end_start, ready_start, test_simulation};
use reference::join::join;
use reference::plans::{check_plan, write_plan};
use reference::refusal::Refusal;
use reference::report::flowcheck;
use reference::sheet::{self, normalise};
use reference::turns::coarsest;

/// A case: an operation and its fields.
#[derive(Clone)]
pub struct Case {
    /// The number of the operation.
    pub op: u8,
    /// The fields, in order.
    pub fields: Vec<Vec<u8>>,
}

/// What a call comes to.
pub struct Answer {
    /// The refusal, if the call gives one.
    pub refusal: Option<Refusal>,
    /// The call's values, all 0 on a refusal.
    pub values: Vec<usize>,
    /// The lent mutable buffers after the call, as bytes.
    pub buffers: Vec<Vec<u8>>,
}

impl Case {
    /// Normalise.
    pub fn normalise(sheet: &[u8], out: &[u8]) -> Case {
        Case::new(1, &[sheet, out])
    }

    /// End start.
    pub fn end_start(sheet: &[u8], grid: &[u64]) -> Case {
        Case::new(2, &[sheet, &word_bytes(grid)])
    }

    /// Test simulation.
    pub fn test_simulation(sheet: &[u8], start: &[u64], claim: &[u64]) -> Case {
        Case::new(3, &[sheet, &word_bytes(start), &word_bytes(claim)])
    }

    /// Coarsest.
    pub fn coarsest(
        sheet: &[u8],
        start: &[u64],
        turns: &[u16],
        grid: &[u64],
        names: &[u16],
    ) -> Case {
        let (start, turns) = (word_bytes(start), number_bytes(turns));
        let (grid, names) = (word_bytes(grid), number_bytes(names));
        Case::new(4, &[sheet, &start, &turns, &grid, &names])
    }

    /// Check plan, on numbers.
    pub fn check_plan(sheet: &[u8], start: &[u64], plan: &[u16]) -> Case {
        Case::new(5, &[sheet, &word_bytes(start), &number_bytes(plan)])
    }

    /// Write plan, on numbers.
    pub fn write_plan(sheet: &[u8], start: &[u64], plan: &[u16], p: u16, q: u16) -> Case {
        let (start, plan) = (word_bytes(start), number_bytes(plan));
        Case::new(6, &[sheet, &start, &plan, &number_bytes(&[p, q])])
    }

    /// Hand play.
    pub fn hand_play(sheet: &[u8], start: &[u64], p: u16, q: u16, rounds: u16) -> Case {
        let numbers = number_bytes(&[p, q, rounds]);
        Case::new(7, &[sheet, &word_bytes(start), &numbers])
    }

    /// Compare.
    pub fn compare(first: &[u8], second: &[u8]) -> Case {
        Case::new(8, &[first, second])
    }

    /// Read.
    pub fn read(sheet: &[u8]) -> Case {
        Case::new(9, &[sheet])
    }

    /// Join.
    pub fn join(first: &[u8], second: &[u8], out: &[u8]) -> Case {
        Case::new(15, &[first, second, out])
    }

    /// The text of flowcheck.
    pub fn text(sheet: &[u8]) -> Case {
        Case::new(16, &[sheet])
    }

    /// To named.
    pub fn to_named(sheet: &[u8], out: &[u8]) -> Case {
        Case::new(17, &[sheet, out])
    }

    /// To plain.
    pub fn to_plain(sheet: &[u8], out: &[u8]) -> Case {
        Case::new(18, &[sheet, out])
    }

    /// Ready start.
    pub fn ready_start(sheet: &[u8], grid: &[u64]) -> Case {
        Case::new(19, &[sheet, &word_bytes(grid)])
    }

    /// Compare ready.
    pub fn compare_ready(first: &[u8], second: &[u8]) -> Case {
        Case::new(20, &[first, second])
    }

    /// Another operation on the same fields, of which field `at` has these
    /// bytes more.
    pub fn on(&self, op: u8, at: usize, more: &[u8]) -> Case {
        let mut fields = self.fields.clone();
        fields[at].extend(more);
        Case { op, fields }
    }

    /// A case of the operation with these fields.
    fn new(op: u8, fields: &[&[u8]]) -> Case {
        let fields = fields.iter().map(|field| field.to_vec()).collect();
        Case { op, fields }
    }

    /// The bytes of the case in a case file.
    pub fn encode(&self) -> Vec<u8> {
        let mut bytes = vec![self.op];
        for field in &self.fields {
            bytes.extend((field.len() as u32).to_le_bytes());
            bytes.extend(field);
        }
        bytes
    }

    /// Stops the program if a field is longer than the reader's buffers.
    pub fn assert_limits(&self) {
        const SHEET: (usize, usize) = (8_200, 1);
        const WORDS: (usize, usize) = (8_200, 8);
        const BYTES: (usize, usize) = (8_208, 1);
        const PLAN: usize = 8_192;
        // Per field: its most bytes and the number that divides its length.
        let limits: &[(usize, usize)] = match self.op {
            1 => &[SHEET, (8_204, 1)],
            2 | 19 => &[SHEET, WORDS],
            3 => &[SHEET, WORDS, WORDS],
            4 => &[SHEET, WORDS, (4_096, 2), WORDS, (520, 2)],
            5 => &[SHEET, WORDS, (PLAN, 2)],
            6 => &[SHEET, WORDS, (PLAN, 2), (4, 4)],
            7 => &[SHEET, WORDS, (6, 6)],
            8 | 20 => &[SHEET, SHEET],
            9 | 16 => &[SHEET],
            10 => &[SHEET, WORDS, (PLAN, 8)],
            11 => &[SHEET, WORDS, (PLAN, 8), (4, 4)],
            12 => &[SHEET, WORDS, BYTES],
            13 => &[SHEET, WORDS, BYTES, (4, 4)],
            14 => &[SHEET, BYTES, (4_104, 1), BYTES, (520, 1)],
            15 => &[SHEET, SHEET, SHEET],
            17 | 18 => &[SHEET, BYTES],
            _ => panic!("no such op"),
        };
        assert_eq!(self.fields.len(), limits.len(), "op {}", self.op);
        for (field, &(most, unit)) in self.fields.iter().zip(limits) {
            assert!(
                field.len() <= most && field.len() % unit == 0,
                "op {}",
                self.op
            );
        }
    }

    /// Makes the call.
    pub fn run(&self) -> Answer {
        let f = &self.fields;
        match self.op {
            1 => self.run_rewriting(normalise),
            2 => self.run_start(end_start),
            3 => {
                let result = test_simulation(&f[0], &words(&f[1]), &words(&f[2]));
                Answer::of(result.map(|yes| vec![usize::from(yes)]), 1, vec![])
            }
            4 | 14 => self.run_coarsest(),
            5 | 10 | 12 => {
                let result = check_plan(&f[0], &words(&f[1]), &numbers(&f[2]));
                let values = result.map(|c| vec![c.p.into(), c.q.into(), c.depth]);
                Answer::of(values, 3, vec![])
            }
            6 | 11 | 13 => {
                let mut plan = numbers(&f[2]);
                let pair = numbers(&f[3]);
                let result = write_plan(&f[0], &words(&f[1]), pair[0], pair[1], &mut plan);
                let buffer = over(&f[2], number_bytes(&plan));
                Answer::of(result.map(|count| vec![count]), 1, vec![buffer])
            }
            7 => {
                let a = numbers(&f[2]);
                let result = hand_play(&f[0], &words(&f[1]), a[0], a[1], a[2]);
                Answer::of(result.map(|won| vec![usize::from(won)]), 1, vec![])
            }
            8 => Answer::of_compare(compare(&f[0], &f[1])),
            9 => {
                let result = sheet::read(&f[0]);
                let counts =
                    result.map(|lts| vec![lts.states(), lts.actions(), lts.transitions().len()]);
                Answer::of(counts, 3, vec![])
            }
            15 => {
                let mut out = f[2].clone();
                let result = join(&f[0], &f[1], &mut out);
                Answer::of(result.map(|length| vec![length]), 1, vec![out])
            }
            16 => {
                let text = flowcheck(&f[0]).into_bytes();
                Answer::of(Ok(vec![text.len()]), 1, vec![text])
            }
            17 => self.run_rewriting(to_named),
            18 => self.run_rewriting(to_plain),
            19 => self.run_start(ready_start),
            20 => Answer::of_compare(compare_ready(&f[0], &f[1])),
            _ => panic!("no such op"),
        }
    }

    /// A call that writes the sheet in another form.
    fn run_rewriting(&self, call: fn(&[u8], &mut [u8]) -> Result<(), Refusal>) -> Answer {
        let mut out = self.fields[1].clone();
        let result = call(&self.fields[0], &mut out).map(|()| vec![]);
        Answer::of(result, 0, vec![out])
    }

    /// A call that writes a start of the sheet's flow.
    fn run_start(&self, call: fn(&[u8], &mut [u64]) -> Result<(), Refusal>) -> Answer {
        let mut grid = words(&self.fields[1]);
        let result = call(&self.fields[0], &mut grid).map(|()| vec![]);
        Answer::of(result, 0, vec![word_bytes(&grid)])
    }

    /// Coarsest. A grid or a list of names that its bytes do not carry whole
    /// has a wrong length, whatever the flow is.
    fn run_coarsest(&self) -> Answer {
        let f = &self.fields;
        let start = whole(&f[1], 8, words);
        let (mut grid, mut names) = (whole(&f[3], 8, words), whole(&f[4], 2, numbers));
        let result = coarsest(&f[0], &start, &numbers(&f[2]), &mut grid, &mut names);
        let values = result.map(|(turns, kept, blocks)| vec![turns, kept, blocks]);
        let buffers = vec![
            over(&f[3], word_bytes(&grid)),
            over(&f[4], number_bytes(&names)),
        ];
        Answer::of(values, 3, buffers)
    }
}

impl Answer {
    /// The answer for a result with the given number of values.
    fn of(result: Result<Vec<usize>, Refusal>, count: usize, buffers: Vec<Vec<u8>>) -> Answer {
        match result {
            Ok(values) => Answer {
                refusal: None,
                values,
                buffers,
            },
            Err(refusal) => Answer {
                refusal: Some(refusal),
                values: vec![0; count],
                buffers,
            },
        }
    }

    /// The answer of compare, in either form.
    fn of_compare(result: Result<(bool, usize), Refusal>) -> Answer {
        let values = result.map(|(yes, turns)| vec![usize::from(yes), turns]);
        Answer::of(values, 2, vec![])
    }

    /// The refusal number and the record number, both 0 without a refusal.
    pub fn numbers(&self) -> (u8, u16) {
        self.refusal.map_or((0, 0), |r| (r.number, r.record))
    }

    /// The line expected for the case of this number and op: the two, the
    /// refusal and the record number, the values, the buffers' checksums.
    pub fn line(&self, number: usize, op: u8) -> String {
        let mut items = vec![number, usize::from(op)];
        // The text of flowcheck has its refusals in it.
        if op != 16 {
            let (refusal, record) = self.numbers();
            items.extend([usize::from(refusal), usize::from(record)]);
        }
        items.extend(&self.values);
        items.extend(self.buffers.iter().map(|buffer| checksum(buffer)));
        let texts: Vec<String> = items.iter().map(usize::to_string).collect();
        texts.join(" ") + "\n"
    }
}

/// The checksum of a buffer's bytes.
fn checksum(bytes: &[u8]) -> usize {
    bytes
        .iter()
        .fold(0, |h, &b| (h * 257 + usize::from(b) + 1) % 1_000_000_007)
}

/// 64-bit words as bytes, low byte first.
fn word_bytes(words: &[u64]) -> Vec<u8> {
    words.iter().flat_map(|word| word.to_le_bytes()).collect()
}

/// 16-bit numbers as bytes, low byte first.
fn number_bytes(numbers: &[u16]) -> Vec<u8> {
    numbers
        .iter()
        .flat_map(|number| number.to_le_bytes())
        .collect()
}

/// Bytes as 64-bit words.
fn words(bytes: &[u8]) -> Vec<u64> {
    bytes
        .chunks_exact(8)
        .map(|c| u64::from_le_bytes(c.try_into().unwrap()))
        .collect()
}

/// Bytes as 16-bit numbers.
fn numbers(bytes: &[u8]) -> Vec<u16> {
    bytes
        .chunks_exact(2)
        .map(|c| u16::from_le_bytes(c.try_into().unwrap()))
        .collect()
}

/// What bytes carry, nothing if they are not a multiple of the unit.
fn whole<T>(bytes: &[u8], unit: usize, carried: fn(&[u8]) -> Vec<T>) -> Vec<T> {
    if bytes.len().is_multiple_of(unit) {
        carried(bytes)
    } else {
        Vec::new()
    }
}

/// A buffer with other bytes in front.
fn over(buffer: &[u8], front: Vec<u8>) -> Vec<u8> {
    [&front[..], &buffer[front.len()..]].concat()
}
