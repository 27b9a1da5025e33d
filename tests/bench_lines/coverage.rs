//! How often each thing worth testing occurs in the lines and their answers.

use std::collections::BTreeMap;
use std::fmt::Display;

use lines::line::{understood, Line};
use lines::{long, numbers, odd};
use second::bench::LONGEST_LINE;
use second::lead::input_place::VOLTS;
use second::lead::output_place::{COMMAND, PHASE, REASON};
use second::lead::{
    Input, Lead, INPUT_BYTES, LAST_PHASE, OUTPUT_BYTES, QUESTIONS, RAMP_DOWN_LIMIT, REASON_NONE,
    SAFE_AMPERES_IN_TENTHS, SAFE_VOLTS_IN_TENTHS,
};
use second::post::{input_bytes, ALLOWANCE_BYTES, REFUSED_INPUT, REFUSED_INPUT_LENGTH};
use second::readings::{Tenths, MOST_ERROR};
use second::sharing::MOST_LEADS;
use shared::meter::Shown;
use shared::numbers::{Numbers, PLAIN};
use shared::post::Post;
use shared::stops::Standing;

/// Answers that are plain from document 01, of a tick that is carried out the beginning; and their
/// lines.
#[rustfmt::skip]
const ANSWERS: [(&str, &[&str]); 2] = [
    ("?", &["", "\r", "\0", "\t", "tick", "tick\t\t", "tick\t00\t"]),
    ("0\t", &["tick\t"]),
];

/// Setups, likewise: leads, volts, amperes and resistance. The errors are 0.
#[rustfmt::skip]
const SETUPS: [(&str, &[&str]); 6] = [
    ("0", &["4 500 125 00000000", "1 50 125 00000000", "1 500 1 00000000", "1 500 200 00000000", "1 500 125 80000000",
            "1 500 125 00000001", "1 500 125 3F000000", "1 500 125 3f000000", "1 500 125 3F800000"]),
    ("1", &["0 500 125 00000000", "5 500 125 00000000", "257 500 125 00000000", "65535 500 125 00000000", "0 0 0 7FC00000"]),
    ("2", &["1 49 125 00000000", "1 501 125 00000000", "1 65535 125 00000000", "4 0 0 7FC00000"]),
    ("3", &["1 500 0 00000000", "1 500 201 00000000", "1 500 381 00000000", "1 500 65535 00000000", "4 50 0 7FC00000"]),
    ("4", &["1 500 125 80000001", "1 500 125 3F800001", "1 500 125 7F800000", "1 500 125 FF800000", "1 500 125 7FC00000",
            "1 500 125 7fc00000", "1 500 125 FFC00000", "1 500 125 7F800001", "4 50 1 7FC00000"]),
    ("?", &["65536 500 125 00000000", "1 65536 125 00000000", "1 500 65536 00000000", "0 65536 125 00000000", "0 500 125 0000000g",
            "1 0 65536 00000000", "1 500 0 0000000"]),
];

/// Likewise, with the errors.
#[rustfmt::skip]
const SETUPS_WITH_ERRORS: [(&str, &[&str]); 7] = [
    ("0", &["1 500 125 00000000 1 0", "1 500 125 00000000 0 1", "1 500 125 00000000 50 0", "1 500 125 00000000 0 50",
            "1 500 125 00000000 50 50", "4 50 1 3F800000 50 50", "1 500 125 00000000 00 0", "1 500 125 00000000 0 00"]),
    ("32", &["1 500 125 00000000 51 0", "1 500 125 00000000 0 51", "1 500 125 00000000 51 51", "1 500 125 00000000 51 50",
             "1 500 125 00000000 50 51", "1 500 125 00000000 256 0", "1 500 125 00000000 0 256", "1 500 125 00000000 306 0",
             "1 500 125 00000000 0 306", "1 500 125 00000000 65535 0", "1 500 125 00000000 0 65535", "1 500 125 00000000 0065535 0",
             "1 500 125 00000000 0 0065535", "4 50 1 3F800000 51 50"]),
    ("1", &["0 0 0 7FC00000 51 51"]),
    ("2", &["4 0 0 7FC00000 51 51"]),
    ("3", &["4 50 0 7FC00000 51 51"]),
    ("4", &["4 50 1 7FC00000 51 51"]),
    ("?", &["1 500 125 00000000", "1 500 125 00000000 0", "1 500 125 00000000 0 0 0", "1 500 125 00000000  0", "1 500 125 00000000 0 ",
            "1 500 125 00000000 65536 0", "1 500 125 00000000 0 65536", "1 500 125 00000000 +0 0", "1 500 125 00000000 0 -0",
            "1 500 125 00000000 A0 0", "1 500 125 00000000 0 A0", "0 500 125 00000000 65536 0", "1 500 125 00000000 51 65536",
            "1 500 125 00000000  51", "1 500 125 7FC00000 0 -1"]),
];

#[rustfmt::skip]
const KINDS: [&str; 12] = [
    "lines", "of a fit size", "last line without its line feed", "every byte", "? before any setup", "setup answered 0",
    "tick answered 0", "setup throws away a lead that charges", "two commands apart in phase 6", FALLS_AND_RISES,
    "reason 23 from phase 6 to 7", "reason 23 from phase 6 to 9",
];
const FALLS_AND_RISES: &str = "one command falls in phase 6, another rises";
const ONE_ZERO_TOO_MANY: &str = "1001 characters, accepted but for one zero";

/// A good reading of a lead in a tick.
struct Judged {
    standing: Standing,
    before: Lead,
    after: Lead,
    volts: Shown,
    amperes: Shown,
}

impl Judged {
    fn stays_in(&self, phase: u8) -> bool {
        self.before.phase == phase && self.after.phase == phase
    }

    fn leaves(&self, phase: u8) -> bool {
        self.before.phase == phase && self.after.phase != phase
    }

    fn stops_for(&self, reason: u8) -> bool {
        self.before.reason == REASON_NONE && self.after.reason == reason
    }

    /// Ended by nothing else.
    fn has_ramped_down(&self) -> bool {
        self.before.command == 0 && self.before.age < RAMP_DOWN_LIMIT
    }
}

/// What errors make of readings, on either side of each limit.
#[rustfmt::skip]
const KINDS_OF_ERRORS: [(&str, fn(&Judged) -> bool); 11] = [
    ("phase 4 stays by the volts' error", |of| of.stays_in(4) && of.volts.is_above_by_error(SAFE_VOLTS_IN_TENTHS)),
    ("phase 4 ends with an upper end of 10 V", |of| of.leaves(4) && of.volts.is_at_by_error(SAFE_VOLTS_IN_TENTHS)),
    ("phase 9 stays by the volts' error", |of| of.stays_in(9) && of.volts.is_above_by_error(SAFE_VOLTS_IN_TENTHS)),
    ("phase 9 ends with an upper end of 10 V", |of| of.leaves(9) && of.volts.is_at_by_error(SAFE_VOLTS_IN_TENTHS)),
    ("phase 6 goes on with an upper end at the threshold", |of| of.stays_in(6) && of.volts.is_at_by_error(of.standing.most_volts())),
    ("reason 16 by the volts' error", |of| of.stops_for(16) && of.volts.is_above_by_error(of.standing.most_volts())),
    ("phase 6 goes on with an upper end of rated + 2.5 A", |of| of.stays_in(6) && of.amperes.is_at_by_error(of.standing.most_amperes())),
    ("reason 17 by the amperes' error", |of| of.stops_for(17) && of.amperes.is_above_by_error(of.standing.most_amperes())),
    ("phase 7 stays by the amperes' error", |of| of.stays_in(7) && of.has_ramped_down() && of.amperes.is_above_by_error(SAFE_AMPERES_IN_TENTHS)),
    ("phase 7 ends with an upper end of 4.9 A", |of| of.leaves(7) && of.has_ramped_down() && of.amperes.is_at_by_error(SAFE_AMPERES_IN_TENTHS)),
    ("phase 7 ends by its age at 0 A, error 50", |of| of.leaves(7) && of.before.age == RAMP_DOWN_LIMIT
        && of.amperes.tenths == Tenths(0) && of.amperes.error == MOST_ERROR),
];

/// `#` is a number of leads, or a lead.
#[rustfmt::skip]
const KINDS_OF_LEADS: [&str; 9] = [
    "leads #", "charging at once: #", "# leads, no input", "# leads, short input", "# leads, whole input",
    "7 for one byte too many, # leads", "7 for a zero byte too many, # leads", "7 before 9, # leads", "9 for lead #",
];

/// The text with each of the items in place of `#`.
fn each<T: Display>(text: &str, items: impl IntoIterator<Item = T>) -> Vec<String> {
    let filled = |item: T| text.replace('#', &item.to_string());
    items.into_iter().map(filled).collect()
}

/// Everything that must occur, beside the lines with known answers. No line brings about another
/// refusal: the bench program lends state and output of the right length and never a state but its
/// own.
fn kinds() -> Vec<String> {
    let mut setups = each("setup answered #", numbers::refusals());
    setups.push("setup answered ?".to_string());
    let ticks = each("tick answered #", [REFUSED_INPUT_LENGTH, REFUSED_INPUT]);
    let others = each("#", ["tick answered ?", "other line"]);
    let unchanging = [&setups[..], &ticks, &others].concat();
    let mut all = vec![
        each("#", KINDS),
        each("#", KINDS_OF_ERRORS.map(|(text, _)| text)),
        each("tick before a post, after #", &setups),
        each("charging goes on after #", &unchanging),
        unchanging,
        each("phase #", 0..=LAST_PHASE),
        each("reason #", QUESTIONS.iter().map(|question| question.number)),
        each("command above 0 in phase #", [6, 7]),
        each("letters: #", ["capital", "small", "both"]),
        each("9 for byte # of a lead", 0..VOLTS),
        each("# characters", long::LENGTHS),
        each("long rubbish, #", ["tabs", "digits", "other"]),
    ];
    all.extend(KINDS_OF_LEADS.map(|text| each(text, 1..=MOST_LEADS)));
    all.concat()
}

/// A name, a line, and its answer or the first field of it.
type Known = (String, Line, &'static str);

fn known_answers() -> Vec<Known> {
    let long_lines = [
        ("999 characters, tick answered 7", long::tick(999), "7"),
        ("1000 characters, accepted", long::setup(1_000, 1), "0"),
        (ONE_ZERO_TOO_MANY, long::setup(1_001, 0), "?"),
        (
            "1000 characters, accepted, zeros of an error",
            long::setup(1_000, 5),
            "0",
        ),
    ];
    let named = |(name, line, answer): (&str, Line, _)| (name.to_string(), line, answer);
    let mut all: Vec<Known> = long_lines.map(named).to_vec();
    for (name, line) in odd::faults() {
        all.push((format!("? {name}"), line, "?"));
    }
    let mut add = |text: String, answer| {
        all.push((format!("{text:?} answered {answer:?}"), text.into(), answer));
    };
    for (answer, lines) in ANSWERS {
        lines.iter().for_each(|line| add(line.to_string(), answer));
    }
    for (answer, setups) in SETUPS {
        for setup in setups {
            add(format!("setup {setup} 0 0").replace(' ', "\t"), answer);
        }
    }
    for (answer, setups) in SETUPS_WITH_ERRORS {
        for setup in setups {
            add(format!("setup {setup}").replace(' ', "\t"), answer);
        }
    }
    all
}

#[derive(Default)]
struct Coverage {
    counts: BTreeMap<String, usize>,
    known: Vec<Known>,
    /// The one set up.
    post: Option<Post>,
    /// What the newest tick showed.
    shown: Vec<u8>,
    /// The kinds of the lines since then.
    between: Vec<String>,
}

/// The table, and how many things never occur.
pub fn report(text: &[u8], answers: &[u8]) -> (String, usize) {
    let lines: Vec<&[u8]> = text.split(|&byte| byte == b'\n').collect();
    let answers: Vec<&str> = ascii(answers).lines().collect();
    assert_eq!(lines.len(), answers.len(), "an answer to every line");
    let mut coverage = Coverage {
        known: known_answers(),
        ..Coverage::default()
    };
    let every_byte = (0..=255).all(|byte| text.contains(&byte));
    coverage.count(text.len() >= 200_000, "of a fit size", "");
    let is_cut = !text.ends_with(b"\n");
    coverage.count(is_cut, "last line without its line feed", "");
    coverage.count(every_byte, "every byte", "");
    for (line, answer) in lines.iter().zip(answers) {
        coverage.count_line(line, answer);
    }
    coverage.table()
}

impl Coverage {
    fn table(mut self) -> (String, usize) {
        let known = self.known.iter().map(|(name, ..)| name.clone());
        let mut labels: Vec<String> = kinds().into_iter().chain(known).collect();
        // A fault may have several lines, one after the other.
        labels.dedup();
        let mut table = String::new();
        let mut missing = Vec::new();
        for label in labels {
            let count = self.counts.remove(&label).unwrap_or(0);
            table += &format!("{count}\t{label}\n");
            if count == 0 {
                missing.push(label);
            }
        }
        // A label that is not expected is one that the rules exclude.
        missing.extend(each("(not expected) #", self.counts.keys()));
        table += &each("missing: #\n", &missing).concat();
        (table, missing.len())
    }

    /// The label with the item in place of `#`, if it is so.
    fn count(&mut self, is_so: bool, label: &str, item: impl Display) {
        if is_so {
            let label = label.replace('#', &item.to_string());
            *self.counts.entry(label).or_default() += 1;
        }
    }

    fn count_line(&mut self, line: &[u8], answer: &str) {
        let fields: Vec<&[u8]> = line.split(|&byte| byte == b'\t').collect();
        let number = answer.split('\t').next().unwrap_or_default();
        let kind = match fields[0] {
            b"setup" => format!("setup answered {number}"),
            b"tick" => format!("tick answered {number}"),
            _ if number == "?" => "other line".to_string(),
            _ => format!("other line answered {number}"),
        };
        self.count(true, "lines", "");
        self.count(true, &kind, "");
        self.count_length(line, &kind);
        self.count_known(line, answer);
        match (fields[0], number) {
            (b"setup", "0") => self.post = Some(Post::set_up(&numbers_of(&fields))),
            (b"tick", "0") => return self.count_tick(ascii(fields[1]), &answer["0\t".len()..]),
            (b"tick", "?") if self.post.is_none() && understood(line) => {
                let last = self.between.last().cloned().unwrap_or_default();
                let is_setup = last.starts_with("setup");
                self.count(is_setup, "tick before a post, after #", last);
                self.count(!is_setup, "? before any setup", "");
            }
            (b"tick", "?") => {}
            (b"tick", _) => self.count_refused_tick(&bytes_of(ascii(fields[1])), number),
            _ => {}
        }
        self.between.push(kind);
    }

    /// Before a setup every tick is answered with `?`.
    fn count_known(&mut self, line: &[u8], answer: &str) {
        let is_same = |(_, known, _): &&Known| known == line && self.post.is_some();
        let known: Vec<Known> = self.known.iter().filter(is_same).cloned().collect();
        for (name, _, expected) in known {
            let is_right = answer.split_inclusive('\t').next() == Some(expected);
            self.count(is_right, &name, "");
            self.count(!is_right, "#: otherwise", name);
        }
    }

    fn count_length(&mut self, line: &[u8], kind: &str) {
        let length = line.len();
        self.count(long::LENGTHS.contains(&length), "# characters", length);
        let tabs = line.iter().all(|&byte| byte == b'\t');
        let digits = line.iter().all(u8::is_ascii_digit);
        let is_rubbish = length > LONGEST_LINE && kind == "other line";
        self.count(is_rubbish && tabs, "long rubbish, tabs", "");
        self.count(is_rubbish && digits, "long rubbish, digits", "");
        self.count(is_rubbish && !tabs && !digits, "long rubbish, other", "");
    }

    fn count_tick(&mut self, hex: &str, shown: &str) {
        let shown = bytes_of(shown);
        let (leads, _) = shown.as_chunks::<OUTPUT_BYTES>();
        for (at, lead) in leads.iter().enumerate() {
            let (phase, reason) = (lead[PHASE], lead[REASON]);
            let was_in_6 = self.shown.get(at * OUTPUT_BYTES + PHASE) == Some(&6);
            self.count(true, "phase #", phase);
            self.count(reason != REASON_NONE, "reason #", reason);
            self.count(
                was_in_6 && reason == 23,
                "reason 23 from phase 6 to #",
                phase,
            );
            self.count(lead[COMMAND] > 0, "command above 0 in phase #", phase);
        }
        self.count_readings(bytes_of(hex));
        let length = hex.len() / 2;
        let whole = input_bytes(leads.len());
        self.count(true, "leads #", leads.len());
        self.count(length == 0, "# leads, no input", leads.len());
        self.count(length == whole, "# leads, whole input", leads.len());
        let is_short = 0 < length && length < whole;
        self.count(is_short, "# leads, short input", leads.len());
        let capital = hex.contains(|digit: char| digit.is_ascii_uppercase());
        let small = hex.contains(|digit: char| digit.is_ascii_lowercase());
        self.count(capital && small, "letters: both", "");
        self.count(capital && !small, "letters: capital", "");
        self.count(!capital && small, "letters: small", "");
        self.count_commands(&charging(&self.shown), &charging(&shown));
        self.shown = shown;
    }

    /// Missing bytes are 0.
    fn count_readings(&mut self, mut input: Vec<u8>) {
        let mut post = self.post.take().expect("a tick that is carried out");
        let before = post.leads();
        input.resize(input_bytes(before.len()), 0);
        post.tick(&input);
        let (records, _) = input[ALLOWANCE_BYTES..].as_chunks();
        for ((before, after), record) in before.into_iter().zip(post.leads()).zip(records) {
            let rating = post.rating;
            let read = Input::read(record, &rating).expect("a tick that is carried out");
            let Some(measured) = read.measured else {
                continue;
            };
            let judged = Judged {
                standing: Standing {
                    phase: before.phase,
                    threshold: before.threshold,
                    rating,
                },
                before,
                after,
                volts: Shown::volts(measured, &rating),
                amperes: Shown::amperes(measured, &rating),
            };
            for (label, holds) in KINDS_OF_ERRORS {
                self.count(holds(&judged), label, "");
            }
        }
        self.post = Some(post);
    }

    /// Those in phase 6, in the tick before and in this one.
    fn count_commands(&mut self, old: &[u8], new: &[u8]) {
        let between = std::mem::take(&mut self.between);
        let is_other_post = between.iter().any(|kind| kind == "setup answered 0");
        let goes_on = !is_other_post && !old.is_empty() && old.len() == new.len();
        for kind in between {
            self.count(goes_on, "charging goes on after #", kind);
        }
        let falls = old.iter().zip(new).any(|(old, new)| new < old);
        let rises = old.iter().zip(new).any(|(old, new)| new > old);
        let is_thrown = is_other_post && !old.is_empty();
        self.count(goes_on && falls && rises, FALLS_AND_RISES, "");
        self.count(is_thrown, "setup throws away a lead that charges", "");
        let is_apart = new.iter().any(|command| *command != new[0]);
        self.count(is_apart, "two commands apart in phase 6", "");
        self.count(!new.is_empty(), "charging at once: #", new.len());
    }

    fn count_refused_tick(&mut self, input: &[u8], number: &str) {
        let leads = self.post.as_ref().map_or(0, |post| post.leads().len());
        let flaws = flaws(input);
        let is_too_long = number == REFUSED_INPUT_LENGTH.to_string();
        let is_by_one = is_too_long && input.len() == input_bytes(leads) + 1;
        let is_zero = is_by_one && input.iter().all(|&byte| byte == 0);
        let is_flawed = is_too_long && !flaws.is_empty();
        self.count(is_by_one, "7 for one byte too many, # leads", leads);
        self.count(is_zero, "7 for a zero byte too many, # leads", leads);
        self.count(is_flawed, "7 before 9, # leads", leads);
        if let ([(lead, at)], false) = (&flaws[..], is_too_long) {
            self.count(true, "9 for lead #", lead + 1);
            self.count(true, "9 for byte # of a lead", at);
        }
    }
}

/// The commands of the leads in phase 6 that charge.
fn charging(shown: &[u8]) -> Vec<u8> {
    let (leads, _) = shown.as_chunks::<OUTPUT_BYTES>();
    let in_6 = leads.iter().filter(|lead| lead[PHASE] == 6);
    let commands = in_6.map(|lead| lead[COMMAND]);
    commands.filter(|command| *command > 0).collect()
}

/// Lead and place of every byte that is refused by itself.
fn flaws(input: &[u8]) -> Vec<(usize, usize)> {
    let rating = Post::set_up(&PLAIN).rating;
    let mut flaws = Vec::new();
    for (at, byte) in input.iter().skip(ALLOWANCE_BYTES).enumerate() {
        let mut alone = [0; INPUT_BYTES];
        alone[at % INPUT_BYTES] = *byte;
        if Input::read(&alone, &rating).is_none() {
            flaws.push((at / INPUT_BYTES, at % INPUT_BYTES));
        }
    }
    flaws
}

/// Of a setup that is accepted.
fn numbers_of(fields: &[&[u8]]) -> Numbers {
    let decimal = |place: usize| ascii(fields[place]).parse().expect("a number");
    let [leads, volts, amperes, volts_error, amperes_error] = [1, 2, 3, 5, 6].map(decimal);
    Numbers {
        leads,
        volts,
        amperes,
        resistance: u32::from_str_radix(ascii(fields[4]), 16).expect("digits"),
        volts_error,
        amperes_error,
    }
}

fn ascii(bytes: &[u8]) -> &str {
    std::str::from_utf8(bytes).expect("what is understood is ASCII")
}

fn bytes_of(hex: &str) -> Vec<u8> {
    let pairs = (0..hex.len()).step_by(2).map(|at| &hex[at..at + 2]);
    let byte = |pair| u8::from_str_radix(pair, 16).expect("pairs of digits");
    pairs.map(byte).collect()
}
