//! Rounds of marks from today's mesh to a wanted one.

use crate::{overwritten, raw, Lent, Tables};
use model::rounds::{rounds, Rounds};
use model::REFINED;
use wallmirror::ffi;

/// All that the call is handed. The plan is that of today's tables, whatever that of the wanted ones.
#[derive(Clone, Debug, PartialEq, Eq)]
pub struct Input {
    pub today: Tables,
    pub wanted: Tables,
    pub marks: Vec<u32>,
    pub lengths: Vec<u32>,
}

impl Input {
    /// With lists that are just long enough: an entry for each cell that is refined in the wanted mesh
    /// and not today, and one for each level but the last.
    pub fn new(today: &Tables, wanted: &Tables) -> Input {
        let both = today.cells.iter().zip(&wanted.cells);
        let marks = both.filter(|(&today, &then)| today != REFINED && then == REFINED).count();
        let lengths = today.plan.levels as usize - 1;
        Input {
            today: today.clone(),
            wanted: wanted.clone(),
            marks: vec![0xdead_beef; marks],
            lengths: vec![0xfeed_f00d; lengths],
        }
    }

    /// Makes the call. The lists are then as it left them.
    pub fn make(&mut self) -> Result<Rounds, u32> {
        let mut lent = Lending::new(self);
        let rooms = (self.marks.len(), self.lengths.len());
        let plan = self.today.plan;
        let said = || format!("rounds {plan:?}, lists of {rooms:?}");
        let answer = lent.run();
        let expected = rounds(plan, self.today.slices(), self.wanted.slices(), rooms);
        let (marks, lengths) = match &expected {
            Err(_) => (vec![], vec![]),
            Ok(rounds) => (rounds.marks(), rounds.lengths()),
        };
        let number = *expected.as_ref().err().unwrap_or(&0);
        let answered = (number, marks.len() as u32, lengths.len() as u32);
        assert_eq!((answer.number, answer.marks, answer.rounds), answered, "{}", said());
        self.marks = overwritten(&self.marks, &marks);
        self.lengths = overwritten(&self.lengths, &lengths);
        lent.expect(self, &said);
        expected
    }
}

/// The call on buffers of its own, ready to run.
pub struct Lending {
    plan: ffi::Plan,
    today: (Lent<u8>, Lent<u8>),
    wanted: (Lent<u8>, Lent<u8>),
    marks: Lent<u32>,
    lengths: Lent<u32>,
}

impl Lending {
    pub fn new(input: &Input) -> Lending {
        Lending {
            plan: raw(input.today.plan),
            today: input.today.lend(),
            wanted: input.wanted.lend(),
            marks: Lent::new(&input.marks, 0x8765_4321),
            lengths: Lent::new(&input.lengths, 0x1357_9bdf),
        }
    }

    pub fn run(&mut self) -> ffi::Rounds {
        let Lending { plan, today, wanted, marks, lengths } = self;
        let ((c, c_len), (f, f_len)) = (today.0.slice(), today.1.slice());
        let ((w, w_len), (g, g_len)) = (wanted.0.slice(), wanted.1.slice());
        let ((m, m_len), (l, l_len)) = (marks.slice(), lengths.slice());
        // SAFETY: separate buffers of these lengths.
        unsafe {
            ffi::wallmirror_rounds(
                *plan, c, c_len, f, f_len, w, w_len, g, g_len, m, m_len, l, l_len,
            )
        }
    }

    /// Everything is as in the input.
    fn expect(&self, input: &Input, said: &dyn Fn() -> String) {
        let Input { today, wanted, marks, lengths } = input;
        self.today.0.expect(&today.cells, "cell table", said);
        self.today.1.expect(&today.functions, "function table", said);
        self.wanted.0.expect(&wanted.cells, "wanted cell table", said);
        self.wanted.1.expect(&wanted.functions, "wanted function table", said);
        self.marks.expect(marks, "marks", said);
        self.lengths.expect(lengths, "lengths of rounds", said);
    }
}

impl Tables {
    /// Cells and functions.
    fn slices(&self) -> (&[u8], &[u8]) {
        (&self.cells, &self.functions)
    }

    /// The rounds to the wanted mesh, in lists that are just long enough.
    pub fn rounds_to(&self, wanted: &Tables) -> Result<Rounds, u32> {
        Input::new(self, wanted).make()
    }
}
