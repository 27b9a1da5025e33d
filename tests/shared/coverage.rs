//! How often each thing worth comparing occurred, part by part.

use std::fmt::{Display, Write};

/// The parts of a comparison, which elsewhere are places in this list.
pub const PARTS: [&str; 3] = ["sessions", "handed-in", "garbled"];

/// A number for each part, in their order.
pub type Counts = [u64; PARTS.len()];

/// How often it has to occur at factor 1, its text, its test, and how often it occurred.
type Row<T> = (Counts, String, Box<dyn Fn(&T) -> bool>, Counts);

/// Rows about one kind of thing.
pub struct Table<T: ?Sized>(Vec<Row<T>>);

/// A row without anything to fill in.
pub type Fact<T> = (Counts, &'static str, fn(&T) -> bool);

impl<T: ?Sized + 'static> Table<T> {
    pub fn of(facts: &[Fact<T>]) -> Table<T> {
        let mut table = Table(Vec::new());
        table.add(facts);
        table
    }

    pub fn add(&mut self, facts: &[Fact<T>]) {
        for &(least, text, holds) in facts {
            self.row(least, text.to_string(), holds);
        }
    }

    pub fn row(&mut self, least: Counts, text: String, holds: impl Fn(&T) -> bool + 'static) {
        let row: Row<T> = (least, text, Box::new(holds), Counts::default());
        self.0.push(row);
    }

    pub fn count(&mut self, part: usize, of: &T) {
        for (_, _, holds, found) in &mut self.0 {
            found[part] += u64::from(holds(of));
        }
    }

    /// Rows about each refusal alone, before each that is asked about later, and before all of
    /// them. Told of a thing are the number answered and the refusals that fit, in the order of
    /// asking; nothing, if these rows are not about it.
    pub fn refusals(
        &mut self,
        least: Counts,
        name: &str,
        refusals: &'static [u32],
        told: impl Fn(&T) -> Option<(u32, &[u32])> + Copy + 'static,
    ) {
        let mut row = |text: String, first: u32, fitting: Vec<u32>| {
            let text = format!("{name} returns {first}, {text}");
            let fits = move |of: &T| told(of) == Some((first, &fitting[..]));
            self.row(least, text, fits);
        };
        for &refusal in refusals {
            row("nothing else wrong".to_string(), refusal, vec![refusal]);
        }
        for (first, later) in pairs(refusals) {
            let text = format!("where {later} fits and no other");
            row(text, first, vec![first, later]);
        }
        if refusals.len() > 2 {
            row("where all fit".to_string(), refusals[0], refusals.to_vec());
        }
    }
}

/// The parts in which each kind has to occur once, how many kinds there are, a text, and the kind
/// that a thing is of.
pub type EveryFact<T> = (
    [bool; PARTS.len()],
    usize,
    &'static str,
    fn(&T) -> Option<usize>,
);

/// A row whose numbers say how many kinds occurred.
pub struct Every<T: 'static> {
    fact: &'static EveryFact<T>,
    seen: [Vec<bool>; PARTS.len()],
}

impl<T> Every<T> {
    pub fn new(fact: &'static EveryFact<T>) -> Every<T> {
        let seen = PARTS.map(|_| vec![false; fact.1]);
        Every { fact, seen }
    }

    pub fn count(&mut self, part: usize, of: &T) {
        if let Some(kind) = (self.fact.3)(of) {
            self.seen[part][kind] = true;
        }
    }
}

/// The report of a comparison: its tables one after the other, and what occurred too seldom.
pub struct Report {
    factor: u64,
    text: String,
    missing: String,
    rows: usize,
}

impl Report {
    pub fn new(factor: u64) -> Report {
        Report {
            factor,
            text: columns(PARTS) + "\n",
            missing: String::new(),
            rows: 0,
        }
    }

    pub fn table<T: ?Sized>(&mut self, table: &Table<T>) {
        for (least, row, _, found) in &table.0 {
            self.row(least.map(|least| least * self.factor), row, *found);
        }
    }

    pub fn every<T>(&mut self, every: &[Every<T>]) {
        for Every { fact, seen } in every {
            let (parts, kinds, row, _) = fact;
            let least = parts.map(|all| if all { *kinds as u64 } else { 0 });
            let count = |seen: &Vec<bool>| seen.iter().filter(|seen| **seen).count() as u64;
            self.row(least, row, seen.each_ref().map(count));
        }
    }

    fn row(&mut self, least: Counts, row: &str, found: Counts) {
        self.rows += 1;
        // A string takes any text.
        let _ = writeln!(self.text, "{}  {row}", columns(found));
        for (part, name) in PARTS.iter().enumerate() {
            if found[part] < least[part] {
                let _ = writeln!(self.missing, "too seldom in {name}: {row}");
            }
        }
    }

    /// All of it as text, and whether everything occurred.
    pub fn end(self, program: &str, calls: u64) -> Result<String, String> {
        let Report { text, rows, .. } = self;
        match self.missing.is_empty() {
            true => Ok(format!(
                "{text}{program}: {calls} calls agree, {rows} rows covered\n"
            )),
            false => Err(text + &self.missing),
        }
    }
}

fn columns<T: Display>(values: [T; PARTS.len()]) -> String {
    values.map(|value| format!("{value:>10}")).concat()
}

/// Each refusal with each that is asked about later.
pub fn pairs(refusals: &[u32]) -> impl Iterator<Item = (u32, u32)> + '_ {
    let later = |at: usize| refusals[at + 1..].iter();
    (0..refusals.len()).flat_map(move |at| later(at).map(move |&later| (refusals[at], later)))
}
