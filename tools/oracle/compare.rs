//! One call, and those that its outcome says something about: ours held against what is owed.

use crate::lend::Lender;
use crate::operation::{Call, Outcome, Owed, Side};
use crate::tally::Tally;

pub struct Comparison {
    lender: Lender,
    side: Side,
    /// Which of the calls that follow have their turn, where not all do.
    turn: usize,
}

/// A call on which the sides differ, and how.
pub struct Difference {
    pub call: Call<'static>,
    pub why: String,
}

impl Default for Comparison {
    fn default() -> Self {
        Comparison { lender: Lender::new(), side: Side::High, turn: 0 }
    }
}

impl Comparison {
    /// The call, and of those that follow from it one in `every`, by turns.
    pub fn look(
        &mut self,
        call: &Call,
        every: usize,
        tally: &mut Tally,
    ) -> Result<Outcome, Difference> {
        let (first, owed) = self.one(call)?;
        tally.case(call, &first, &owed);
        self.turn += 1;
        let following = (call.operation.next)(call, &first);
        for next in following.into_iter().skip(self.turn % every).step_by(every) {
            let (second, owed) = self.one(&next.call)?;
            tally.call(&next.call, &second, &owed);
            if !next.must.holds(&first, &second) {
                let lines = [&first, &second].map(|came| came.line(call.operation));
                let why =
                    format!("  {}\n  first     {}\n  then      {}\n", next.law, lines[0], lines[1]);
                return Err(Difference { call: next.call.owned(), why });
            }
        }
        Ok(first)
    }

    /// One call by itself, by turns against a page behind what is lent and against one before it.
    pub fn one(&mut self, call: &Call) -> Result<(Outcome, Owed), Difference> {
        self.side = if self.side == Side::High { Side::Low } else { Side::High };
        let differs = |why: String| Difference { call: call.owned(), why };
        let came = self.lender.perform(call, self.side).map_err(differs)?;
        let owed = (call.operation.owed)(call)
            .map_err(|why| differs(format!("  ours      {}\n{why}", came.line(call.operation))))?;
        if came != owed.outcome {
            let [ours, rule] = [&came, &owed.outcome].map(|one| one.line(call.operation));
            let rust = if owed.rust { "as the rule" } else { "has no word here" };
            return Err(differs(format!(
                "  ours      {ours}\n  the rule  {rule}\n  the Rust  {rust}\n"
            )));
        }
        Ok((came, owed))
    }

    /// The same call on both sides gives the same.
    pub fn both_sides(&mut self, call: &Call) -> Result<(), Difference> {
        let [high, low] = [Side::High, Side::Low].map(|side| self.lender.perform(call, side));
        if high != low {
            let why = "  the same call twice gives two answers\n".into();
            return Err(Difference { call: call.owned(), why });
        }
        Ok(())
    }
}
