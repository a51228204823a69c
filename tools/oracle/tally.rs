//! How often each operation gave each answer, for each reason that it tells, what the accepted charstrings had in them, and where
//! those were refused that are explained.

use crate::operation::{Call, Kind, Operation, Outcome, Owed, NO_WIDTH};
use crate::operations::flatten::{self, stops};
use crate::operations::OPERATIONS;
use std::collections::BTreeMap;

#[derive(Default)]
pub struct Tally {
    /// First calls and all calls, by operation and kind of outcome.
    cases: Counts,
    calls: Counts,
    /// Calls that the Rust had a word about.
    rust: u64,
    /// Accepted charstrings with each of these in them.
    called: u64,
    fixed: u64,
    nearly: u64,
    masked: u64,
    /// With a width, by its kind, and without; and of the widths, those that an operator of an entry settled.
    widths: [u64; 3],
    inner_widths: u64,
    /// Those with rows, by whether globals, locals or both are marked.
    marked: [u64; 3],
    /// Refused runs that are explained, by whether no call is open, one or more.
    open: [u64; 3],
    /// Calls that those followed, and how deep.
    followed: u64,
    deepest: u32,
}

type Counts = BTreeMap<(u8, Kind), u64>;

impl Tally {
    pub fn case(&mut self, call: &Call, outcome: &Outcome, owed: &Owed) {
        *self.cases.entry((call.operation.number, call.operation.kind(outcome))).or_default() += 1;
        self.call(call, outcome, owed);
        if let (0 | 13, Some(met)) = (outcome.answer, owed.met) {
            self.called += u64::from(met.calls > 0);
            self.fixed += u64::from(met.fixed > 0);
            self.nearly += u64::from(met.nearly > 0);
            self.masked += u64::from(met.masks > 0);
            self.followed += met.calls;
            self.deepest = self.deepest.max(met.deepest);
        }
        if let (0, Some(met), Some((kind, _))) = (outcome.answer, owed.met, call.operation.width) {
            let kind = outcome.values[kind].unwrap_or(NO_WIDTH) as usize;
            self.widths[kind] += 1;
            self.inner_widths += u64::from(met.inner_width);
            if call.operation.takes_rows() {
                let (globals, locals) = (met.globals > 0, met.calls > met.globals);
                let marked = [globals, locals, globals && locals].map(u64::from);
                self.marked.iter_mut().zip(marked).for_each(|(all, one)| *all += one);
            }
        }
        if let (true, Some(place)) = (stops(outcome.answer), call.operation.calls) {
            self.open[outcome.values[place].map_or(0, |open| open.clamp(0, 2) as usize)] += 1;
        }
    }

    pub fn call(&mut self, call: &Call, outcome: &Outcome, owed: &Owed) {
        *self.calls.entry((call.operation.number, call.operation.kind(outcome))).or_default() += 1;
        self.rust += u64::from(owed.rust);
    }

    pub fn add(&mut self, other: &Tally) {
        for (ours, theirs) in [(&mut self.cases, &other.cases), (&mut self.calls, &other.calls)] {
            theirs.iter().for_each(|(key, n)| *ours.entry(*key).or_default() += n);
        }
        self.rust += other.rust;
        self.called += other.called;
        self.fixed += other.fixed;
        self.nearly += other.nearly;
        self.masked += other.masked;
        self.widths.iter_mut().zip(other.widths).for_each(|(ours, theirs)| *ours += theirs);
        self.inner_widths += other.inner_widths;
        self.marked.iter_mut().zip(other.marked).for_each(|(ours, theirs)| *ours += theirs);
        self.open.iter_mut().zip(other.open).for_each(|(ours, theirs)| *ours += theirs);
        self.followed += other.followed;
        self.deepest = self.deepest.max(other.deepest);
    }

    pub fn report(&self, name: &str) {
        let (cases, calls) = (self.cases.values().sum::<u64>(), self.calls.values().sum::<u64>());
        println!("{name}: {cases} inputs in {calls} calls, no difference");
        for operation in OPERATIONS {
            let row: String = (operation.kinds().into_iter())
                .filter_map(|kind| {
                    let n = self.calls.get(&(operation.number, kind))?;
                    Some(format!("  {}: {n}", named(kind)))
                })
                .collect();
            if !row.is_empty() {
                println!("  {}, calls by answer:{row}", operation.name);
            }
        }
        if self.called > 0 {
            println!(
                "  charstrings with a flat string: {} with calls ({} calls, down to depth {}), {} with Fixed \
                 indexes, {} with nearly whole ones, {} with masks",
                self.called, self.followed, self.deepest, self.fixed, self.nearly, self.masked
            );
            let [integer, fixed, none] = self.widths;
            println!(
                "  accepted charstrings: {integer} with an integer width, {fixed} with a Fixed one, {none} with none; \
                 {} widths by an operator of a subroutine",
                self.inner_widths
            );
        }
        let [globals, locals, both] = self.marked;
        if globals + locals > 0 {
            println!(
                "  accepted with rows: {globals} with a global marked, {locals} with a local, {both} with both"
            );
        }
        let [none, one, more] = self.open;
        if none + one + more > 0 {
            println!("  refused and explained: {none} with no call open, {one} with one, {more} with more");
        }
        println!(
            "  {} calls also held against the Rust; {} by the rule alone",
            self.rust,
            calls - self.rust
        );
    }

    /// The answers that came less often than an operation is to give them.
    pub fn lacks(&self, least: impl Fn(&Operation) -> u64) -> Vec<String> {
        let mut lacks = Vec::new();
        for operation in OPERATIONS {
            for kind in operation.kinds() {
                let came = self.calls.get(&(operation.number, kind)).copied().unwrap_or(0);
                if came < least(operation) {
                    let (name, kind) = (operation.name, named(kind));
                    lacks.push(format!("{name} answered {kind} {came} times only"));
                }
            }
        }
        if [self.called, self.masked, self.fixed, self.nearly].contains(&0) {
            lacks.push(
                "no flat string had a call, a mask, a Fixed index, or a nearly whole one".into(),
            );
        }
        lacks.extend(self.lacking_widths(least(&flatten::OPERATION)));
        if self.marked.contains(&0) {
            lacks.push("no rows had a global marked, a local, or both".into());
        }
        if self.open.contains(&0) {
            lacks.push(
                "no run was explained that was refused with no call open, one, or more".into(),
            );
        }
        lacks
    }

    fn lacking_widths(&self, least: u64) -> Vec<String> {
        let [integer, fixed, none] = self.widths;
        let rows = [
            (integer, "an integer width"),
            (fixed, "a Fixed width"),
            (none, "no width"),
            (self.inner_widths, "a width by an operator of a subroutine"),
        ];
        let few = rows.into_iter().filter(|(came, _)| *came < least);
        few.map(|(came, kind)| format!("only {came} accepted charstrings had {kind}")).collect()
    }
}

fn named((answer, reason): Kind) -> String {
    match reason {
        Some(reason) => format!("{answer} for {reason}"),
        None => answer.to_string(),
    }
}
