//! What calls answered in a test, so that one in which a refusal never came up is found.

use std::fmt::Debug;

/// 0 and the refusals, 20 of rounds among them.
const NUMBERS: usize = 21;

/// How often each call answered each number.
pub struct Seen<Call>(Vec<(Call, [u32; NUMBERS])>);

impl<Call: Copy + Debug + PartialEq> Seen<Call> {
    pub fn new(calls: &[Call]) -> Seen<Call> {
        Seen(calls.iter().map(|&call| (call, [0; NUMBERS])).collect())
    }

    pub fn count(&mut self, call: Call, number: u32) {
        let row = self.0.iter_mut().find(|(other, _)| *other == call).expect("a call");
        row.1[number as usize] += 1;
    }

    pub fn of(&self, call: Call) -> &[u32; NUMBERS] {
        &self.0.iter().find(|(other, _)| *other == call).expect("a call").1
    }

    /// The call answered each of these numbers, and no other.
    pub fn expect(&self, call: Call, numbers: &[u32]) {
        let seen = self.of(call);
        for (number, &often) in (0..).zip(seen) {
            assert_eq!(often > 0, numbers.contains(&number), "{call:?}: {number} of {seen:?}");
        }
    }

    /// Every call was accepted, gave each refusal that it can give, and no other.
    pub fn expect_all(&self, refusals: impl Fn(Call) -> Vec<u32>) {
        for &(call, _) in &self.0 {
            self.expect(call, &[vec![0], refusals(call)].concat());
        }
    }
}
