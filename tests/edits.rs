//! The must-fail edits held to the items that they name: `edits [ROOT]` reads every
//! crates/NAME/must-fail/*.edit under the root of the repository.
//!
//! An edit replaces texts of its crate, and the prover has to refuse the result. It does so
//! whatever was replaced: when code moves, an edit can come to change something other than what it
//! says, and is refused all the same. So its first line, `# in ITEM: what is wrong`, names the item
//! that it changes, and every text that it replaces has to stand in its file once, and inside that
//! item.
//!
//! An item of a .rt file is `name` (a function or constant of the file), `Type::name` (one of an
//! impl block) or `Type` (its declaration and its impl blocks). An item of an .antt file is what a
//! signature, a record or a data type names; a record's fields are inside it. Where an item ends is
//! told by indentation, so the files have to be laid out as `rt fmt` does.

use std::fs;
use std::io::{self, Write};
use std::path::{Path, PathBuf};
use std::process::ExitCode;

/// Spaces before what stands in an impl block.
const MEMBER_INDENT: usize = 4;

fn main() -> ExitCode {
    let root = std::env::args().nth(1).unwrap_or(".".to_string());
    let checked = check(Path::new(&root));
    let (Ok(text) | Err(text)) = &checked;
    // A closed output is no fault of the edits.
    let _ = writeln!(io::stdout(), "{text}");
    ExitCode::from(u8::from(checked.is_err()))
}

/// What is to be printed; an error where an edit is wrong or there is none.
fn check(root: &Path) -> Result<String, String> {
    let files = edit_files(root).map_err(|error| format!("edits: {error}"))?;
    let mut lines = Vec::new();
    let mut wrong = 0;
    for file in &files {
        // CRATE/must-fail/NAME.edit names its files from CRATE on.
        let folder = file.ancestors().nth(2).unwrap_or(file);
        let read = |name: &str| fs::read_to_string(folder.join(name)).ok();
        let name = file.strip_prefix(root).unwrap_or(file).display();
        let faults = match fs::read_to_string(file) {
            Ok(text) => faults_in(&text, read),
            Err(error) => vec![error.to_string()],
        };
        wrong += usize::from(!faults.is_empty());
        lines.extend(faults.iter().map(|fault| format!("{name}: {fault}")));
    }
    lines.push(match (files.len(), wrong) {
        (0, _) => return Err("edits: none found".to_string()),
        (count, 0) => return Ok(format!("edits: {count}, each in the item that it names")),
        (count, _) => format!("edits: {count}, {wrong} of them wrong"),
    });
    Err(lines.join("\n"))
}

fn edit_files(root: &Path) -> io::Result<Vec<PathBuf>> {
    let mut found = Vec::new();
    for entry in fs::read_dir(root.join("crates"))? {
        let folder = entry?.path().join("must-fail");
        if folder.is_dir() {
            for entry in fs::read_dir(folder)? {
                found.push(entry?.path());
            }
        }
    }
    found.retain(|path| path.extension().is_some_and(|ending| ending == "edit"));
    found.sort();
    Ok(found)
}

/// What is wrong with the text of an edit; `read` gives the texts of files.
fn faults_in(text: &str, read: impl Fn(&str) -> Option<String>) -> Vec<String> {
    let item = named_item(text).ok_or("the first line is not `# in ITEM: what is wrong`");
    let faults = item.and_then(|item| {
        let fault = |pair: Pair| pair.fault(item, read(pair.file));
        Ok(pairs(text)?.into_iter().filter_map(fault).collect())
    });
    faults.unwrap_or_else(|fault| vec![fault.to_string()])
}

fn named_item(text: &str) -> Option<&str> {
    let first = text.lines().next()?;
    let (item, what) = first.strip_prefix("# in ")?.split_once(": ")?;
    let is_named = !item.is_empty() && !item.contains(' ') && !what.trim().is_empty();
    is_named.then_some(item)
}

struct Pair<'a> {
    file: &'a str,
    old: &'a str,
    new: Option<&'a str>,
}

fn pairs(text: &str) -> Result<Vec<Pair<'_>>, &'static str> {
    let mut pairs: Vec<Pair> = Vec::new();
    let mut files = Vec::new();
    for (name, value) in text.lines().filter_map(field) {
        match name {
            "file" => files.push(value),
            "old" => pairs.push(Pair {
                file: files.last().ok_or("an old has no file before it")?,
                old: value,
                new: None,
            }),
            _ => {
                let is_open =
                    |pair: &&mut Pair| pair.new.is_none() && files.ends_with(&[pair.file]);
                let newest = pairs.last_mut().filter(is_open);
                newest.ok_or("a new has no old before it")?.new = Some(value);
            }
        }
    }
    let is_used = |file| pairs.iter().any(|pair| pair.file == file);
    match pairs.len() {
        0 => Err("there is no pair of old and new"),
        _ if !files.into_iter().all(is_used) => Err("a file has no pair behind it"),
        _ => Ok(pairs),
    }
}

/// `NAME: ` and what stands behind it. An empty text may have lost its space.
fn field(line: &str) -> Option<(&str, &str)> {
    let (name, text) = line.split_once(':')?;
    let is_field = ["file", "old", "new"].contains(&name);
    let text = text.strip_prefix(' ').or(text.is_empty().then_some(text))?;
    is_field.then_some((name, text))
}

impl Pair<'_> {
    fn fault(&self, item: &str, text: Option<String>) -> Option<String> {
        let Pair { file, old, new } = *self;
        let Some(text) = text else {
            return Some(format!("{file} is not there"));
        };
        let texts = match texts_of(item, file, &text) {
            Ok(texts) => texts,
            Err(fault) => return Some(format!("{file}: item {item} {fault}")),
        };
        let fault = match text.find(old) {
            None => "is not there",
            first if first != text.rfind(old) => "is there more than once",
            _ if !texts.iter().any(|text| text.contains(old)) => "is outside the item",
            _ if new.is_none() => "has no new behind it",
            _ if new == Some(old) => "is replaced by itself",
            _ => return None,
        };
        Some(format!("{file}, item {item}: `{old}` {fault}"))
    }
}

/// What an item has in a file: of a type its declaration and its impl blocks.
fn texts_of(item: &str, file: &str, text: &str) -> Result<Vec<String>, &'static str> {
    let lines: Vec<&str> = text.split_inclusive('\n').collect();
    let mut pieces = match file.ends_with(".antt") {
        true => spec_pieces(&lines),
        false => code_pieces(&lines),
    };
    pieces.retain(|(name, ..)| name == item);
    match pieces.len() {
        0 => Err("is not there"),
        2.. if !pieces.iter().all(|&(_, is_of_type, _)| is_of_type) => Err("is there twice"),
        _ => Ok(pieces.into_iter().map(|(.., text)| text).collect()),
    }
}

/// A name, whether it is a type's, and a text that belongs to it.
type Piece = (String, bool, String);

fn indent(line: &str) -> usize {
    line.len() - line.trim_start().len()
}

fn code_pieces(lines: &[&str]) -> Vec<Piece> {
    let mut owner = None;
    let piece = |(at, line): (usize, &&str)| {
        let (keyword, name) = declared(line.trim())?;
        let name = match (indent(line), &owner) {
            (0, _) => name.to_string(),
            (MEMBER_INDENT, Some(owner)) => format!("{owner}::{name}"),
            _ => return None,
        };
        if indent(line) == 0 {
            owner = (keyword == "impl").then(|| name.clone());
        }
        let is_of_type = !["fn", "const"].contains(&keyword);
        Some((name, is_of_type, code_text(lines, at, keyword)))
    };
    lines.iter().enumerate().filter_map(piece).collect()
}

/// The keyword and the name of what a line of code declares.
fn declared(line: &str) -> Option<(&str, &str)> {
    let mut rest = line;
    for before in ["pub ", "pub(crate) ", "extern \"C\" "] {
        rest = rest.strip_prefix(before).unwrap_or(rest);
    }
    let (keyword, rest) = rest.split_once(' ')?;
    let is_outside = |c: char| !c.is_alphanumeric() && c != '_';
    let name = rest.split(is_outside).next()?;
    let declares = ["fn", "const", "struct", "enum", "impl"].contains(&keyword);
    declares.then_some((keyword, name))
}

/// From the attributes before it on. Clauses of a contract are indented, so a function's first end
/// of a block at its own indentation is that of its body. A constant's value may be broken onto a
/// line of its own, indented too.
fn code_text(lines: &[&str], at: usize, keyword: &str) -> String {
    let before = lines[..at].iter().rev();
    let attributes = before.take_while(|line| line.trim().starts_with("#["));
    let is_last = |line: &&str| match keyword {
        "const" => line.trim_end().ends_with(';'),
        _ => indent(line) == indent(lines[at]) && line.trim_end().ends_with(['}', ';']),
    };
    let after = lines[at..].iter().position(is_last).unwrap_or(0);
    lines[at - attributes.count()..=at + after].concat()
}

/// A definition goes on, over its clauses and whatever is indented more, until another one or a
/// comment begins at its indentation or further left.
fn spec_pieces(lines: &[&str]) -> Vec<Piece> {
    let begins = |line: &str| {
        let is_head = line.starts_with("--") || line.starts_with("module ");
        is_head || defined(line).is_some()
    };
    let piece = |(at, line): (usize, &&str)| {
        let is_next = |next: &&str| indent(next) <= indent(line) && begins(next.trim());
        let rest = &lines[at + 1..];
        let end = rest.iter().position(is_next).unwrap_or(rest.len());
        let name = defined(line.trim())?.to_string();
        Some((name, false, lines[at..=at + end].concat()))
    };
    lines.iter().enumerate().filter_map(piece).collect()
}

/// The name that a signature, a record or a data type begins with.
fn defined(line: &str) -> Option<&str> {
    let is_before = |word: &&str| ["pub", "abbrev", "unfoldable"].contains(word);
    let mut words = line.split(' ').skip_while(is_before);
    let name = match (words.next()?, words.next()?) {
        ("record" | "data", name) => name,
        (name, ":") => name,
        _ => return None,
    };
    // Arguments of a type and values of a record begin a line as well.
    (!name.starts_with(['(', '{'])).then_some(name)
}

#[cfg(test)]
mod tests {
    use super::*;

    const CODE: &str = "\
const LIMIT: usize = 4;
const TABLE: [u8; 2] =
    [1, 2];
pub struct Frame(pub u8);
impl Frame {
    pub const SIZE: usize = 11;
    pub(crate) fn size(self) -> [u8; 8]
        ensures { λ r. ⌜ r ≡ bytesOf
            self ⌝ }
    {
        if self.0 == 0 {
            return [0u8; 8];
        }
        [1u8; 8]
    }
}
#[no_mangle]
pub extern \"C\" fn size(
    frame: &[u8],
) -> usize
    ensures { λ r. ⌜ r ≡ 3 ⌝ }
{
    const LOCAL: usize = 3;
    LOCAL
}
";

    const SPEC: &str = "\
abbrev pub size : ℕ
size = 11
unfoldable pub last : ℕ → ℕ

last zero = 0
last (suc n) =
    -- the rest
    record {
      rest = last n
    }
module _ (h : Head) where
  pub record Told (t k : ℕ) : Type 0 where
    -- of the tick
    pub tick : ℕ
    pub young :
        (u : ℕ)
        → u ≤ tick
  -- beside it
  pub beside : ℕ
  beside = size
pub data Call : Type 0 where
  tick : ℕ → Call
";

    fn text(file: &str) -> Option<String> {
        let text = if file == "a.rt" { CODE } else { SPEC };
        (file != "no.rt").then(|| text.to_string())
    }

    fn item(file: &str, name: &str) -> Result<String, &'static str> {
        let texts = texts_of(name, file, &text(file).unwrap())?;
        Ok(texts.concat().trim().to_string())
    }

    /// Items, what they begin with, and what they end with.
    #[rustfmt::skip]
    const ITEMS: [(&str, &str, &str, &str); 11] = [
        ("a.rt", "LIMIT", "const LIMIT: usize = 4;", "const LIMIT: usize = 4;"),
        ("a.rt", "TABLE", "const TABLE: [u8; 2] =\n", "=\n    [1, 2];"),
        ("a.rt", "Frame::SIZE", "pub const SIZE: usize = 11;", "pub const SIZE: usize = 11;"),
        ("a.rt", "Frame::size", "pub(crate) fn size(self)", "        [1u8; 8]\n    }"),
        ("a.rt", "size", "#[no_mangle]\npub extern", "    LOCAL\n}"),
        ("a.rt", "Frame", "pub struct Frame(pub u8);\nimpl Frame {", "        [1u8; 8]\n    }\n}"),
        ("a.antt", "size", "abbrev pub size : ℕ\nsize = 11", "abbrev pub size : ℕ\nsize = 11"),
        ("a.antt", "last", "unfoldable pub last", "    record {\n      rest = last n\n    }"),
        ("a.antt", "beside", "pub beside : ℕ\n", "ℕ\n  beside = size"),
        ("a.antt", "Told", "pub record Told", "        → u ≤ tick"),
        ("a.antt", "young", "pub young :\n", "        → u ≤ tick"),
    ];

    #[test]
    fn items() {
        for (file, name, first, last) in ITEMS {
            let text = item(file, name).unwrap();
            assert!(text.starts_with(first) && text.ends_with(last), "{text}");
            assert!(first != last || text == first, "{text}");
        }
        for name in ["LOCAL", "SIZE", "Frame::LIMIT", "(u"] {
            assert_eq!(item("a.rt", name), Err("is not there"));
            assert_eq!(item("a.antt", name), Err("is not there"));
        }
        assert_eq!(item("a.antt", "tick"), Err("is there twice"));
    }

    /// Edits, their lines parted by bars, and their faults; of a text in `size` the beginning is
    /// left out.
    #[rustfmt::skip]
    const EDITS: [(&str, &str); 22] = [
        ("# in Frame::SIZE: a|file: a.rt|old: = 11;|new: = 12;", ""),
        ("# in Frame: a|file: a.rt|old: (pub u8)|new: (u8)", ""),
        ("# in size: a|file: a.rt|old:     LOCAL|new:     4", ""),
        ("# in size: a|file: a.rt|old: = 3;|new: 4;|# b|old: &[u8]|new:", ""),
        ("# in size: a|file: a.rt|old: = 3;|new: 4;|file: a.antt|old: = 11|new: 1", ""),
        ("# in size: a|file: a.rt|old: = 3;|new: = 3;", "`= 3;` is replaced by itself"),
        ("# in size: a|file: a.rt|old: = 5;|new: ", "`= 5;` is not there"),
        ("# in size: a|file: a.rt|old: = 11;|new: ", "`= 11;` is outside the item"),
        ("# in size: a|file: a.rt|old: LOCAL|new: ", "`LOCAL` is there more than once"),
        ("# in size: a|file: a.rt|old: = 3;|old:     LOCAL|new: 4", "`= 3;` has no new behind it"),
        ("# in sizes: a|file: a.rt|old: = 3;|new: ", "a.rt: item sizes is not there"),
        ("# in size: a|file: no.rt|old: a|new: b", "no.rt is not there"),
        ("# in size: a|file: a.rt", "there is no pair of old and new"),
        ("# in size: a|file: a.rt|old: = 3;|new: 4|file: a.antt", "a file has no pair behind it"),
        ("# in size: a|old: a|new: b", "an old has no file before it"),
        ("# in size: a|file: a.rt|new: b", "a new has no old before it"),
        ("# in size: a|file: a.rt|old: a|new: b|new: c", "a new has no old before it"),
        ("# in size: a|file: a.rt|old: a|file: b|new: c", "a new has no old before it"),
        ("|file: a.rt|old: = 3;|new: = 4;", FORM),
        ("# size: a|file: a.rt|old: = 3;|new: = 4;", FORM),
        ("# in size:|file: a.rt|old: = 3;|new: = 4;", FORM),
        ("# in the size: a|file: a.rt|old: = 3;|new: = 4;", FORM),
    ];
    const FORM: &str = "the first line is not `# in ITEM: what is wrong`";

    #[test]
    fn edits() {
        for (edit, expected) in EDITS {
            let faults = faults_in(&edit.replace('|', "\n"), text);
            let faults = faults.join(" + ").replace("a.rt, item size: ", "");
            assert_eq!(faults, expected, "{edit}");
        }
    }
}
