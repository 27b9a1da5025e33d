//! Lines that are nearly a setup or a tick: each a good line with one fault, by the fault's name.
//! And a few that are good though they look odd.
//!
//! In the tables a character stands for the byte of its number.

use crate::line::{self, understood, Line, SETUP, START};
use crate::long;

/// Of a whole line: a text of the whole case's two lines, and what stands there instead. `^` is a
/// line's beginning, `$` its end.
#[rustfmt::skip]
const OF_LINES: &[(&str, &str, &str)] = &[
    ("carriage return at the end", "$", "\r"), ("carriage return at the end", "$", "\r\r"),
    ("carriage return at the beginning", "^", "\r"), ("carriage return before a tab", "\t", "\r\t"),
    ("carriage return between digits", "00", "0\r0"), ("form feed at the end", "$", "\x0C"), ("NUL at the end", "$", "\0"),
    ("NUL at the beginning", "^", "\0"), ("NUL after a tab", "\t", "\t\0"), ("space at the end", "$", " "),
    ("space at the beginning", "^", " "), ("space before a tab", "\t", " \t"), ("space for a tab", "\t", " "),
    ("comma for a tab", "\t", ","), ("vertical tab for a tab", "\t", "\x0B"), ("byte order mark", "^", "\u{EF}\u{BB}\u{BF}"),
    ("characters beyond ASCII", "$", "\u{C2}\u{85}"), ("bytes that are no UTF-8", "$", "\u{FF}"),
    ("bytes that are no UTF-8", "\t", "\t\u{C3}\x28"), ("tab at the end", "$", "\t"), ("tab at the beginning", "^", "\t"),
    ("two tabs for one", "\t", "\t\t"), ("no tab after tick", "^tick\t", "tick"), ("no tab after setup", "^setup\t", "setup"),
    ("no tab at all", "\t", ""), ("a field too many", "$", "\t00"), ("a field too many", "125", "125\t125"),
    ("no resistance", "\t00000000", ""), ("two fields exchanged", "125\t00000000", "00000000\t125"), ("no word", "^tick", ""),
    ("no word", "^setup", ""), ("word in capitals", "^tick", "TICK"), ("word in capitals", "^setup", "SETUP"),
    ("word with one capital", "^t", "T"), ("word with one capital", "p\t", "P\t"), ("tic", "^tick", "tic"), ("tickx", "^tick", "tickx"),
    ("ticks", "^tick", "ticks"), ("ttick", "^tick", "ttick"), ("setu", "^setup", "setu"), ("setups", "^setup", "setups"),
    ("setup for tick", "^tick", "setup"), ("tick for setup", "^setup", "tick"), ("no errors", "\t0\t0$", "$"),
    ("one error", "\t0\t0$", "\t0$"), ("three errors", "\t0\t0$", "\t0\t0\t0$"), ("errors before the resistance", "00000000\t0\t0", "0\t0\t00000000"),
];

/// Of a field: `#` is what stood there, `~` so much of its end that the length stays, and a power
/// of two is added to it: the same number to a reader that drops high bits.
type OfField = (&'static str, &'static str);

#[rustfmt::skip]
const OF_DECIMALS: &[OfField] = &[
    ("none", ""), ("plus sign", "+#"), ("minus sign", "-#"), ("minus zero", "-0"), ("space before", " #"), ("space after", "# "),
    ("0x", "0x#"), ("underscore", "0_#"), ("comma", "0,#"), ("decimal point", "#.0"), ("exponent", "#e0"), ("letter", "#h"),
    ("letter", "A#"), ("NUL", "#\0"), ("character before 0", "#/"), ("character after 9", "#:"),
    ("digit of another script", "#\u{D9}\u{A3}"), ("byte that is no UTF-8", "#\u{FF}"), ("65,536", "65536"), ("65,536", "065536"),
    ("4,294,967,296", "4294967296"), ("20 nines", "99999999999999999999"), ("too large by 2 to the 16th", "2^16"),
    ("too large by 2 to the 32nd", "2^32"), ("too large by 2 to the 64th", "2^64"), ("too large by 2 to the 100th", "2^100"),
];

#[rustfmt::skip]
const OF_HEX: &[OfField] = &[
    ("g", "g~"), ("g", "~g"), ("G", "G~"), ("G", "~G"), ("slash", "/~"), ("colon", "~:"), ("at sign", "~@"), ("back quote", "~`"),
    ("space", " ~"), ("space", "~ "), ("comma", "~,"), ("plus sign", "+~"), ("minus sign", "-~"), ("NUL", "~\0"),
    ("byte that is no UTF-8", "~\u{FF}"), ("0x for two digits", "0x~"), ("0x before the digits", "0x#"), ("underscore", "00_#"),
];

/// The fields of setup, then that of tick, with their faults.
#[rustfmt::skip]
const FIELDS: [(&str, &str, usize, [&[OfField]; 2]); 7] = [
    ("leads", SETUP, 1, [OF_DECIMALS, &[]]),
    ("volts", SETUP, 2, [OF_DECIMALS, &[]]),
    ("amperes", SETUP, 3, [OF_DECIMALS, &[]]),
    ("resistance", SETUP, 4, [OF_HEX, &[("none", ""), ("7 digits", "0000000"), ("9 digits", "#0"), ("16 digits", "##")]]),
    ("volts' error", SETUP, 5, [OF_DECIMALS, &[]]),
    ("amperes' error", SETUP, 6, [OF_DECIMALS, &[]]),
    ("input", START, 1, [OF_HEX, &[("a digit too many", "#0"), ("a digit too many", "0")]]),
];

/// A field that is none counts before a number that setup would refuse.
#[rustfmt::skip]
const NONE_AND_REFUSED: [[&str; 6]; 9] = [
    ["0", "65536", "125", "00000000", "0", "0"], ["0", "500", "125", "0000000g", "0", "0"], ["1", "0", "65536", "00000000", "0", "0"],
    ["1", "500", "0", "0000000", "0", "0"], ["1", "501", "+125", "00000000", "0", "0"], ["0", "500", "125", "00000000", "65536", "0"],
    ["1", "500", "125", "7FC00000", "0", "-1"], ["1", "500", "125", "00000000", "51", "65536"], ["1", "500", "125", "00000000", "", "51"],
];

/// A number as it may be written, and eight digits of either case.
const DECIMALS: [&str; 4] = ["65535", "0065535", "0#", "00000000000000000000000000#"];
const RESISTANCES: [&str; 5] = ["3F000000", "3f000000", "3eAaAaAb", "7fc00000", "FfFfFfFf"];

#[rustfmt::skip]
const OTHERS: [&str; 15] = [
    "", "\r", "\0", "\t", "\t\t\t\t", " ", "?", "0", "tick", "tick\t", "tick\t\t", "tick\t00\t", "tick\t\r", "setup", "setup\t",
];

/// Every line of this module.
pub fn lines() -> Vec<Line> {
    let mut lines: Vec<Line> = OTHERS.map(Line::from).to_vec();
    lines.extend(faults().into_iter().map(|(_, line)| line));
    lines.extend(NONE_AND_REFUSED.map(|fields| line::setup(&fields)));
    for place in [1, 2, 3, 5, 6] {
        lines.extend(DECIMALS.map(|text| with_field(SETUP, place, text)));
    }
    lines.extend(RESISTANCES.map(|text| with_field(SETUP, 4, text)));
    // Each byte but the line feed in place of the tab or of a digit.
    for byte in (0..=255).filter(|&byte| byte != b'\n') {
        let mut line = Line::from(START);
        line[[4, 6, 13, 14][usize::from(byte % 4)]] = byte;
        lines.push(line);
    }
    lines
}

/// Those that no post understands.
pub fn no_lines() -> Vec<Line> {
    let mut lines = lines();
    lines.retain(|line| !understood(line));
    lines
}

/// Every fault with its name, in a line that has no other.
pub fn faults() -> Vec<(String, Line)> {
    let mut faults = long::faults();
    for (name, from, to) in OF_LINES {
        for good in [START, SETUP].map(|line| format!("^{line}$")) {
            if good.contains(from) {
                let line = good.replace(from, to).replace(['^', '$'], "");
                faults.push((name.to_string(), bytes(&line)));
            }
        }
    }
    for (field, good, place, tables) in FIELDS {
        for (name, text) in tables.concat() {
            faults.push((format!("{field}: {name}"), with_field(good, place, text)));
        }
    }
    faults
}

fn with_field(good: &str, place: usize, text: &str) -> Line {
    let mut fields: Vec<&str> = good.split('\t').collect();
    let whole = fields[place];
    let end = whole.get(text.chars().count().saturating_sub(1)..);
    let mut text = text.replace('#', whole).replace('~', end.unwrap_or(""));
    if let Some(bits) = text.strip_prefix("2^") {
        let number: u128 = whole.parse().expect("a number");
        let power = 1 << bits.parse::<u32>().expect("a power");
        text = (number + power).to_string();
    }
    fields[place] = &text;
    bytes(&fields.join("\t"))
}

/// The byte of each character's number.
fn bytes(text: &str) -> Line {
    text.chars().map(|character| character as u8).collect()
}
