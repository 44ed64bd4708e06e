//! A result as the archive packs it: the low 8 bits are a refusal's number or
//! 0. Above them stand the answer's numbers, or in bits 8 to 23 the number of
//! the record that a refusal is about, 0 where it is about none.

use crate::Refusal;

/// The part of a result that is not yet taken apart.
pub struct Packed {
    symbol: &'static str,
    result: u64,
    rest: u64,
}

impl Packed {
    /// The answer in a result, or its refusal.
    pub fn new(symbol: &'static str, result: u64) -> Result<Packed, Refusal> {
        let packed = Packed {
            symbol,
            result,
            rest: result >> 8,
        };
        let number = result as u8;
        if number == 0 {
            return Ok(packed);
        }
        let record = u16::try_from(packed.rest).ok();
        match record.and_then(|record| Refusal::from_numbers(number, record)) {
            Some(refusal) => Err(refusal),
            None => packed.impossible(),
        }
    }

    /// The number in the next bits.
    pub fn number(&mut self, bits: u32) -> u64 {
        let number = self.rest & ((1 << bits) - 1);
        self.rest >>= bits;
        number
    }

    /// The yes or no in the next byte.
    pub fn yes(&mut self) -> bool {
        match self.number(8) {
            0 => false,
            1 => true,
            _ => self.impossible(),
        }
    }

    /// The answer, now that nothing is left.
    pub fn end<T>(self, answer: T) -> Result<T, Refusal> {
        if self.rest != 0 {
            self.impossible()
        }
        Ok(answer)
    }

    /// No call of document 01 gives this.
    fn impossible(&self) -> ! {
        panic!(
            "{} gave {:#x}, which stands for no answer: is librelease.a another version's?",
            self.symbol, self.result
        )
    }
}

#[cfg(test)]
mod tests {
    use super::Packed;
    use crate::Refusal;

    fn yes_of(result: u64) -> Result<bool, Refusal> {
        let mut packed = Packed::new("test", result)?;
        let yes = packed.yes();
        packed.end(yes)
    }

    /// A result that stands for no answer.
    fn impossible(result: u64) {
        let outcome = std::panic::catch_unwind(|| yes_of(result));
        assert!(outcome.is_err(), "{result:#x}");
    }

    #[test]
    fn answers() {
        assert_eq!(yes_of(0x100), Ok(true));
        assert_eq!(yes_of(0), Ok(false));
        for result in [0x200, 0x1_0000, 0x1_0100, 1 << 63] {
            impossible(result);
        }
    }

    /// Three numbers of 16 bits, from bit 8 on, and nothing above bit 55.
    #[test]
    fn three_numbers() {
        let numbers_of = |result| {
            let mut packed = Packed::new("test", result)?;
            let numbers = [16, 16, 16].map(|bits| packed.number(bits));
            packed.end(numbers)
        };
        let packed = |[p, q, depth]: [u64; 3]| (p << 8) + (q << 24) + (depth << 40);
        for numbers in [[0; 3], [3, 2, 65_281], [256, 1, 0], [0xffff; 3]] {
            assert_eq!(numbers_of(packed(numbers)), Ok(numbers));
        }
        for above in [1 << 56, 1 << 63] {
            let outcome = std::panic::catch_unwind(|| numbers_of(above + 0x300));
            assert!(outcome.is_err(), "{above:#x}");
        }
    }

    #[test]
    fn refusals_about_no_record() {
        for &number in Refusal::NUMBERS {
            let result = u64::from(number);
            if [5, 16].contains(&number) {
                continue;
            }
            assert_eq!(yes_of(result).map_err(Refusal::number), Err(number));
            for rest in [0x100, 0x700, 0x100_0000, 1 << 63] {
                impossible(rest + result);
            }
        }
        for number in [20, 255, u64::MAX] {
            impossible(number);
        }
    }

    #[test]
    fn refusals_about_a_record() {
        for record in [1, 2, 7, 255, 256, 257, 1_023, 1_024] {
            let rest = u64::from(record) << 8;
            assert_eq!(yes_of(rest + 5), Err(Refusal::Unreached { record }));
            assert_eq!(yes_of(rest + 16), Err(Refusal::ReachedTwice { record }));
            // Nothing stands above bit 23.
            for above in [1 << 24, 1 << 32, 1 << 63] {
                impossible(above + rest + 5);
                impossible(above + rest + 16);
            }
        }
        for record in [0, 1_025, 0xffff, 0x1_0000] {
            impossible((record << 8) + 5);
            impossible((record << 8) + 16);
        }
    }
}
