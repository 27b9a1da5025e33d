//! What may be wrong with a line: how a good line gets each flaw, and whether a line has it and
//! nothing else wrong.

use shared::dice::Dice;

use crate::reading::{fields, number, FIELDS};
use crate::texts::{change, draw, field, Field};

/// A byte in a field that is no digit.
#[rustfmt::skip]
const BYTES: [(&str, fn(u8) -> bool); 16] = [
    ("a plus sign", |byte| byte == b'+'),
    ("a minus sign", |byte| byte == b'-'),
    ("a space", |byte| byte == b' '),
    ("a carriage return", |byte| byte == b'\r'),
    ("a letter from A to F", |byte| matches!(byte, b'A'..=b'F')),
    ("a letter from a to f", |byte| matches!(byte, b'a'..=b'f')),
    ("another letter", |byte| byte.is_ascii_alphabetic() && !byte.is_ascii_hexdigit()),
    ("a comma or a point", |byte| matches!(byte, b',' | b'.')),
    ("the byte before 0", |byte| byte == b'0' - 1),
    ("the byte after 9", |byte| byte == b'9' + 1),
    ("a zero byte", |byte| byte == 0),
    ("a byte next to tab and line feed", |byte| byte == b'\t' - 1 || byte == b'\n' + 1),
    ("a digit, tab or line feed with the top bit set", |byte| byte >= 128 && is_known(byte - 128)),
    ("another byte of 128 or more", |byte| byte >= 128 && !is_known(byte - 128)),
    ("another control byte", |byte| byte.is_ascii_control() && !b"\0\x08\t\n\x0B\r".contains(&byte)),
    ("another mark", |byte| byte.is_ascii_punctuation() && !b"+-,./:".contains(&byte)),
];

/// What a text may have.
fn is_known(byte: u8) -> bool {
    byte.is_ascii_digit() || matches!(byte, b'\t' | b'\n')
}

/// A field of digits alone, or of none.
type NumberFlaw = (&'static str, fn(&mut Field, &mut Dice), fn(&[u8]) -> bool);

#[rustfmt::skip]
const NUMBERS: [NumberFlaw; 11] = [
    ("no digit", |field, _| field.clear(), |field| field.is_empty()),
    ("00", |field, _| *field = vec![b'0'; 2], |field| field == b"00"),
    ("zeros, more than two", |field, dice| *field = vec![b'0'; 3 + dice.below(9) as usize],
        |field| field.len() > 2 && field.iter().all(|&byte| byte == b'0')),
    ("a leading zero", |text, dice| { *text = field(draw(dice).max(1)); text.insert(0, b'0') },
        |field| field.starts_with(b"0") && number(&field[1..]).is_some_and(|number| number > 0)),
    ("4294967296", |field, _| *field = LIMIT.to_string().into_bytes(), |field| value(field) == Some(LIMIT)),
    ("4294967297 to 4294967299", |field, dice| *field = digits(LIMIT + 1, TENTH - 1, dice), |field| within(field, LIMIT + 1, TENTH - 1)),
    ("9999999999", |field, _| *field = DIGITS_10.to_string().into_bytes(), |field| value(field) == Some(DIGITS_10)),
    ("4294967300 to 9999999998", |field, dice| *field = digits(TENTH, DIGITS_10 - 1, dice), |field| within(field, TENTH, DIGITS_10 - 1)),
    ("11 to 19 digits", |field, dice| *field = digits(DIGITS_10 + 1, DIGITS_19, dice), |field| within(field, DIGITS_10 + 1, DIGITS_19)),
    ("20 digits, the same in 64 bits as a good number", |field, dice| *field = digits(BITS_64, BITS_64 + LIMIT - 1, dice),
        |field| within(field, BITS_64, BITS_64 + LIMIT - 1)),
    ("20 digits or more, another number", |field, dice| *field = many(20 + dice.below(15), dice), |field| within(field, DIGITS_19 + 1, u128::MAX)),
];

/// The least number that is too large, and the least one that is so without its last digit.
const LIMIT: u128 = 1 << 32;
const TENTH: u128 = LIMIT / 10 * 10 + 10;
/// The most that so many digits say.
const DIGITS_10: u128 = 10u128.pow(10) - 1;
const DIGITS_19: u128 = 10u128.pow(19) - 1;
const BITS_64: u128 = 1 << 64;

fn digits(least: u128, most: u128, dice: &mut Dice) -> Field {
    let any = (0..4).fold(0, |bits: u128, _| bits << 32 | u128::from(dice.next()));
    let inner = least + any % (most - least + 1);
    let number = dice.pick(&[least, most, inner, inner]);
    number.to_string().into_bytes()
}

/// So many, the first of them no zero.
pub fn many(count: u32, dice: &mut Dice) -> Field {
    let mut field: Field = (0..count).map(|_| b'0' + dice.below(10) as u8).collect();
    field[0] = field[0].max(b'1');
    field
}

/// Of digits alone, without a needless zero.
fn value(field: &[u8]) -> Option<u128> {
    let good = field.iter().all(u8::is_ascii_digit) && !field.starts_with(b"0");
    str::from_utf8(field).ok().filter(|_| good)?.parse().ok()
}

fn within(field: &[u8], least: u128, most: u128) -> bool {
    value(field).is_some_and(|value| (least..=most).contains(&value))
}

/// Fields too many or too few, and the line as a whole.
type LineFlaw = (
    &'static str,
    fn(&mut Fields, &mut Dice),
    fn(&[&[u8]]) -> bool,
);

type Fields = Vec<Field>;

#[rustfmt::skip]
const LINES: [LineFlaw; 15] = [
    ("nothing in it", |line, _| *line = vec![vec![]], |fields| fields == [b""]),
    ("one field", |line, _| line.truncate(1), |fields| fields.len() == 1 && numbers(fields) == 1),
    ("two fields", |line, _| line.truncate(2), |fields| fields.len() == 2 && numbers(fields) == 2),
    ("three fields", |line, _| line.truncate(3), |fields| fields.len() == 3 && numbers(fields) == 3),
    ("five fields", |line, dice| line.push(field(draw(dice))), |fields| fields.len() == 5 && numbers(fields) == 5),
    ("eight fields", |line, _| line.extend(line.clone()), |fields| fields.len() == 8 && numbers(fields) == 8),
    ("a tab at the start", |line, _| line.insert(0, vec![]), |fields| is_fifth(fields, 0..1)),
    ("two tabs", |line, dice| line.insert(1 + dice.below(3) as usize, vec![]), |fields| is_fifth(fields, 1..4)),
    ("a tab at the end", |line, _| line.push(vec![]), |fields| is_fifth(fields, 4..5)),
    ("tabs alone", |line, dice| *line = vec![vec![]; 2 + dice.below(5) as usize], |fields| fields.len() > 1 && fields.concat().is_empty()),
    ("a carriage return alone", |line, _| *line = vec![vec![b'\r']], |fields| fields == [b"\r"]),
    ("another byte for a tab", |line, dice| join(line, dice.below(3) as usize, dice), |fields| fields.len() == 3 && numbers(fields) == 2
        && fields.iter().any(|field| is_joined(field))),
    ("another byte for a line feed", |line, dice| { line.extend(line.clone()); join(line, 3, dice) }, |fields| fields.len() == 7
        && numbers(fields) == 6 && is_joined(fields[3])),
    ("first after last by one", |line, dice| step_back(line, 1, dice), |fields| after(fields) == Some(1)),
    ("first after last by more", |line, dice| step_back(line, draw(dice).max(2), dice), |fields| after(fields) > Some(1)),
];

fn numbers(fields: &[&[u8]]) -> usize {
    fields
        .iter()
        .filter(|field| number(field).is_some())
        .count()
}

/// Whether there is a field too many, which is empty and stands here.
fn is_fifth(fields: &[&[u8]], at: std::ops::Range<usize>) -> bool {
    fields.len() == FIELDS + 1
        && numbers(fields) == FIELDS
        && fields[at].iter().any(|field| field.is_empty())
}

/// Makes one field of this and the next, of any kind of byte between them.
fn join(line: &mut Fields, at: usize, dice: &mut Dice) {
    let next = line.remove(at + 1);
    line[at].push(draw_byte(dice.below(BYTES.len() as u32) as usize, dice));
    line[at].extend(next);
}

fn is_joined(field: &[u8]) -> bool {
    let parts = parts(field);
    parts.len() == 2 && numbers(&parts) == 2
}

/// The digits of a field, before, between and behind what else it has.
fn parts(field: &[u8]) -> Vec<&[u8]> {
    field.split(|byte| !byte.is_ascii_digit()).collect()
}

/// The only byte of a line that no good line has.
fn odd_byte(line: &[u8]) -> Option<u8> {
    let mut odd = line.iter().filter(|byte| !is_known(**byte));
    odd.next().copied().filter(|_| odd.next().is_none())
}

/// Puts the first tick so far after the last, or as far as the numbers go.
fn step_back(line: &mut Fields, by: u32, dice: &mut Dice) {
    let last = draw(dice).min(u32::MAX - by);
    (line[1], line[2]) = (field(last + by), field(last));
}

/// How far the first tick is after the last, with nothing else wrong.
fn after(fields: &[&[u8]]) -> Option<u32> {
    let &[_, first, last, _] = fields else {
        return None;
    };
    let wrong = number(first)?.checked_sub(number(last)?)?;
    (wrong > 0 && numbers(fields) == FIELDS).then_some(wrong)
}

// All of them

/// How many kinds there are of a field's, and of all: places in the lists above, taken as one.
pub const FIELD_KINDS: usize = BYTES.len() + NUMBERS.len();
pub const KINDS: usize = FIELD_KINDS + LINES.len();
pub const BYTE_KINDS: usize = BYTES.len();

pub const CARRIAGE_RETURN: usize = 3;
pub const EMPTY: usize = FIELD_KINDS;
pub const FOR_TAB: usize = FIELD_KINDS + 11;
pub const FOR_LINE_FEED: usize = FIELD_KINDS + 12;

/// The kind of a byte that no good line has.
pub fn kind_of(byte: u8) -> Option<usize> {
    BYTES.iter().position(|(_, is_it)| is_it(byte))
}

pub fn name(kind: usize) -> &'static str {
    let bytes = BYTES.iter().map(|flaw| flaw.0);
    let numbers = NUMBERS.iter().map(|flaw| flaw.0);
    let mut all = bytes.chain(numbers).chain(LINES.iter().map(|flaw| flaw.0));
    all.nth(kind).expect("a kind of flaw")
}

/// Where in a field a byte stands: at the start, between digits, at the end, or alone.
pub const PLACES_IN_FIELD: usize = 4;

/// The only thing wrong with a line.
#[derive(Clone, Copy, PartialEq, Eq)]
pub struct Flaw {
    pub kind: usize,
    /// Of the flaws of a field, which it is.
    pub field: Option<usize>,
    /// Of the bytes in a field, where in it.
    pub place: Option<usize>,
    /// The only one that no good line has.
    pub byte: Option<u8>,
}

impl Flaw {
    /// `None` if nothing is wrong, or more than one thing.
    pub fn of(line: &[u8]) -> Option<Flaw> {
        let fields: Vec<&[u8]> = fields(line).collect();
        let odd = |field: &&[u8]| number(field).is_none();
        if fields.len() == FIELDS && numbers(&fields) == FIELDS - 1 {
            let at = fields.iter().position(odd)?;
            return Flaw::of_field(fields[at], at);
        }
        let found = LINES.iter().position(|(_, _, has)| has(&fields))?;
        Some(Flaw {
            kind: FIELD_KINDS + found,
            field: None,
            place: None,
            byte: odd_byte(line),
        })
    }

    fn of_field(field: &[u8], at: usize) -> Option<Flaw> {
        let byte = odd_byte(field);
        let in_numbers = || NUMBERS.iter().position(|(_, _, has)| has(field));
        Some(Flaw {
            kind: match byte {
                Some(byte) => kind_of(byte)?,
                None => BYTES.len() + in_numbers()?,
            },
            field: Some(at),
            place: match byte {
                Some(_) => Some(place(field)?),
                None => None,
            },
            byte,
        })
    }
}

/// Of the byte that is no digit. `None` if the digits are no number without it.
fn place(field: &[u8]) -> Option<usize> {
    let digits = parts(field);
    let place = match digits[..] {
        [b"", b""] => return Some(3),
        [b"", _] => 0,
        [_, b""] => 2,
        _ => 1,
    };
    number(&digits.concat()).map(|_| place)
}

/// Gives a good line the flaw of this kind, one of a field in this field.
pub fn spoil(line: &mut Vec<u8>, kind: usize, field: usize, dice: &mut Dice) {
    change(line, |fields| {
        if kind < BYTES.len() {
            put_byte(&mut fields[field], kind, dice);
        } else if kind < FIELD_KINDS {
            NUMBERS[kind - BYTES.len()].1(&mut fields[field], dice);
        } else {
            LINES[kind - FIELD_KINDS].1(fields, dice);
        }
    });
}

fn draw_byte(kind: usize, dice: &mut Dice) -> u8 {
    loop {
        let byte = dice.byte();
        if kind_of(byte) == Some(kind) {
            return byte;
        }
    }
}

fn put_byte(field: &mut Field, kind: usize, dice: &mut Dice) {
    let byte = draw_byte(kind, dice);
    let any = dice.below(field.len() as u32 + 1) as usize;
    match dice.below(6) {
        0 => *field = vec![byte],
        1 => field.insert(0, byte),
        2 => field.push(byte),
        _ => field.insert(any, byte),
    }
}
