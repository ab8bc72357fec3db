//! An answer of the library, taken apart: 65,536 times the number, and the value.

use crate::refusal::Refusal;

#[derive(Clone, Copy, Debug)]
pub(crate) struct Answer {
    /// None, if the operation was accepted.
    pub refusal: Option<Refusal>,
    /// The register read, or the rows redrawn. An answer has room for 16 bits; both are bytes.
    pub value: u8,
}

impl Answer {
    /// Fails where the library answers what the rules do not know: so no part of an answer is
    /// dropped unseen.
    pub fn of(answered: u32) -> Answer {
        let [value, past_a_byte, number, past_the_numbers] = answered.to_le_bytes();
        let refusal = Refusal::of_number(number);
        let answer = Answer { refusal, value };
        let known = past_the_numbers == 0 && (number == 0 || refusal.is_some());
        let fits = past_a_byte == 0 && (value == 0 || answer.may_have_value());
        assert!(
            known && fits,
            "the library answered {answered}, which the rules do not know"
        );
        answer
    }

    /// Whether a register may have been read, or rows redrawn.
    fn may_have_value(self) -> bool {
        match self.refusal {
            None => true,
            Some(refusal) => refusal.is_after_access(),
        }
    }

    /// The value, if the operation was accepted.
    pub fn accepted(self) -> Result<u8, Refusal> {
        self.refusal.map_or(Ok(self.value), Err)
    }

    /// Of a power-up, a write, a step or a phase change, whose value is always 0.
    pub fn done(self) -> Result<(), Refusal> {
        assert_eq!(self.value, 0, "the library answered a value to no question");
        self.refusal.map_or(Ok(()), Err)
    }
}
