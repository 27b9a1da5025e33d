use crate::bench::run;
use crate::post::{input_bytes, output_bytes};
use std::io::{self, Read};

fn bench(input: impl AsRef<[u8]>) -> String {
    let mut output = Vec::new();
    run(input.as_ref(), &mut output).unwrap();
    String::from_utf8(output).unwrap()
}

/// The document's whole case.
const SETUP: &str = "setup\t1\t500\t125\t00000000\t0\t0\n";
const START: &str = "tick\t0000000021\n";
const STARTED: &str = "0\t010000090000000001F4017D000000000200000000200000\n";

const TWO: &str = "setup\t2\t500\t125\t00000000\t0\t0\n";

/// What idle leads show.
fn idle(leads: usize) -> String {
    format!("0\t{}\n", "00".repeat(output_bytes(leads)))
}

/// The lines after an accepted setup.
fn after_setup(lines: impl AsRef<[u8]>) -> String {
    bench([SETUP.as_bytes(), lines.as_ref()].concat()).strip_prefix("0\n").unwrap().to_string()
}

/// A tick line of so many equal bytes.
fn bytes(pair: &str, count: usize) -> String {
    format!("tick\t{}\n", pair.repeat(count))
}

#[test]
fn lines() {
    // A carriage return is a character like any other.
    for (input, answer) in [
        ("", ""), ("\n", "?\n"), ("\n\n", "?\n?\n"), (SETUP.trim_end(), "0\n"), (&SETUP.replace('\n', "\r\n"), "?\n"),
        // Before an accepted setup.
        ("tick\t00\n", "?\n"), ("tick\tzz\n", "?\n"),
        ("setup\t1\t49\t125\t00000000\t0\t0\ntick\t00\n", "2\n?\n"), ("setup\t5\t500\t125\t00000000\t0\t0\ntick\t00\n", "1\n?\n"),
    ] {
        assert_eq!(bench(input), answer, "{input:?}");
    }
    for odd in [
        "tick", "tick\t\t", "tick\t00\t", "tick\t\t00", "\ttick\t00", "tick 00", "Tick\t00", "TICK\t00", " tick\t00",
        "tick \t00", "tick\t 00", "tick\t00 ", "tick\t0", "tick\t000", "tick\t0G", "tick\t0x00", "tick\t00\0",
        "tick\t00\r", "setup", "setup\t", "setup\t1\t500\t125", "setup\t1\t500\t125\t00000000",
        "setup\t1\t500\t125\t00000000\t0", "setup\t1\t500\t125\t00000000\t0\t0\t", "setup\t1\t500\t125\t00000000\t0\t0\t0",
        "SETUP\t1\t500\t125\t00000000\t0\t0", "setup\t\t500\t125\t00000000\t0\t0", "\t", "?", "0", "\0", "\n",
    ] {
        assert_eq!(after_setup(odd), "?\n", "{odd:?}");
    }
    // Any bytes; an odd line changes nothing.
    assert_eq!(after_setup(b"tick\t\xFF\xFE\n"), "?\n");
    assert_eq!(after_setup(b"\xC3\x28\ntick\t\n"), format!("?\n{}", idle(1)));
    assert_eq!(bench((0..=255).collect::<Vec<u8>>()), "?\n?\n");
}

#[test]
fn numbers_of_setup() {
    let with = |field: usize, text: &str| {
        let mut fields = ["setup", "1", "500", "125", "00000000", "0", "0"];
        fields[field] = text;
        bench(fields.join("\t"))
    };
    for (field, refusal) in [(1, 1), (2, 2), (3, 3), (5, 32), (6, 32)] {
        for odd in ["+1", "-0", "-1", " 1", "1 ", "0x1", "1_0", "1,0", "", "1.0", "٣", "a"] {
            assert_eq!(with(field, odd), "?\n", "{odd:?}");
        }
        for (number, understood) in [
            ("65535", true), ("065535", true), ("65536", false), ("4294967297", false), ("18446744073709551617", false),
        ] {
            assert_eq!(with(field, number), if understood { format!("{refusal}\n") } else { "?\n".to_string() });
        }
    }
    for (field, text, answer) in [
        (1, "0001", "0\n"), (2, "00000500", "0\n"), (3, "0125", "0\n"), (1, "257", "1\n"), (3, "381", "3\n"),
        (4, "3F000000", "0\n"), (4, "3f000000", "0\n"), (4, "3F800000", "0\n"), (4, "3f800001", "4\n"),
        (4, "80000000", "0\n"), (4, "80000001", "4\n"), (4, "7fC0aBcD", "4\n"),
        (4, "", "?\n"), (4, "0", "?\n"), (4, "0000000", "?\n"), (4, "000000000", "?\n"), (4, "0000000G", "?\n"),
        (4, "0x000000", "?\n"), (4, " 0000000", "?\n"), (4, "+0000000", "?\n"),
        (5, "0050", "0\n"), (6, "0050", "0\n"), (5, "51", "32\n"), (6, "51", "32\n"), (5, "256", "32\n"), (6, "256", "32\n"),
    ] {
        assert_eq!(with(field, text), answer, "{text:?}");
    }
    // A number that is none counts before any refusal.
    assert_eq!(bench("setup\t0\t500\t65536\t00000000\t0\t0"), "?\n");
    // Highest first: half an ohm takes 5 V off 400.25 V (H'43C82000) at 10 A (H'41200000), and
    // 395.25 gives 396, H'18C.
    let shown = bench("setup\t1\t500\t125\t3F000000\t0\t0\ntick\t00000000210300000020C84300002041");
    assert_eq!(shown, "0\n0\t010000090000000001F4017D00000000028C010A00200000\n");
}

#[test]
fn long_lines() {
    let line = SETUP.trim_end();
    let setup = |characters| line.replace("\t1\t", &format!("\t{}1\t", "0".repeat(characters - line.len())));
    assert_eq!(setup(1000).len(), 1000);
    assert_eq!(bench([setup(1000), setup(1001), setup(1002), setup(1000)].join("\n")), "0\n?\n?\n0\n");
    assert_eq!(bench(setup(1001)), "?\n");
    // A tick of 999 characters is passed on, one of 1,001 isn't.
    assert_eq!((after_setup(bytes("00", 497)), after_setup(bytes("00", 498))), ("7\n".into(), "?\n".into()));
    // The rest of a long line is no line of its own.
    assert_eq!(bench("x".repeat(100_000) + "\ttick\t00\n" + SETUP), "?\n0\n");
}

#[test]
fn ticks_of_the_newest_post() {
    // The plug is open in a tick of zeros: 12, into phase 10.
    let stopped = &format!("0\t0A0C{}\n", "00".repeat(output_bytes(1) - 2));
    let (one, two) = (&idle(1), &idle(2));
    for (lines, answers) in [
        (vec![SETUP, START], vec!["0\n", STARTED]),
        // Missing bytes are 0, surplus ones are passed on. Either case.
        (vec![SETUP, "tick\t"], vec!["0\n", one]),
        (vec![SETUP, "tick\t00\n", "tick\tffFFfFFf21\n"], vec!["0\n", one, STARTED]),
        (vec![SETUP, &bytes("00", input_bytes(1) - 1), &bytes("00", input_bytes(1))], vec!["0\n", one, one]),
        (vec![SETUP, &bytes("00", input_bytes(1) + 1), &bytes("FF", input_bytes(1) + 1)], vec!["0\n", "7\n", "7\n"]),
        (vec![SETUP, &bytes("FF", input_bytes(1))], vec!["0\n", "9\n"]),
        (vec![SETUP, TWO, &bytes("00", input_bytes(1) + 1)], vec!["0\n", "0\n", two]),
        (vec![TWO, SETUP, &bytes("00", input_bytes(1) + 1)], vec!["0\n", "0\n", "7\n"]),
        // A refused setup or tick and an odd line keep the post as it is.
        (vec![SETUP, START, "setup\t0\t500\t125\t00000000\t0\t0\n", "tick\t\n"], vec!["0\n", STARTED, "1\n", stopped]),
        (vec![SETUP, START, "setup\t1\t501\t125\t00000000\t0\t0\n", "tick\t\n"], vec!["0\n", STARTED, "2\n", stopped]),
        (vec![SETUP, START, "setup\t3\t500\t201\t00000000\t0\t0\n", "tick\t\n"], vec!["0\n", STARTED, "3\n", stopped]),
        (vec![SETUP, START, "setup\t4\t400\t100\t7F800000\t0\t0\n", "tick\t\n"], vec!["0\n", STARTED, "4\n", stopped]),
        (vec![SETUP, START, "setup\t4\t400\t100\t00000000\t51\t0\n", "tick\t\n"], vec!["0\n", STARTED, "32\n", stopped]),
        (vec![SETUP, START, "setup\t4\t400\t100\t00000000\t0\t51\n", "tick\t\n"], vec!["0\n", STARTED, "32\n", stopped]),
        (vec![SETUP, START, "setup\t1\t500\t125\t0\t0\t0\n", "tick\t\n"], vec!["0\n", STARTED, "?\n", stopped]),
        (vec![SETUP, START, "tick\t0000000080\n", "x\n", "tick\t\n"], vec!["0\n", STARTED, "9\n", "?\n", stopped]),
        // An accepted one throws it away.
        (vec![SETUP, START, SETUP, "tick\t\n"], vec!["0\n", STARTED, "0\n", one]),
    ] {
        assert_eq!(bench(lines.concat()), answers.concat(), "{lines:?}");
    }
}

/// Gives one byte at a time, with interruptions.
struct Drip<'a>(&'a [u8], bool);

impl Read for Drip<'_> {
    fn read(&mut self, buffer: &mut [u8]) -> io::Result<usize> {
        self.1 = !self.1;
        if self.1 { Err(io::ErrorKind::Interrupted.into()) } else { self.0.read(&mut buffer[..1]) }
    }
}

#[test]
fn odd_readers_and_writers() {
    let input = format!("{SETUP}{START}\ntick\t");
    let mut output = Vec::new();
    run(Drip(input.as_bytes(), false), &mut output).unwrap();
    assert_eq!(output, bench(&input).as_bytes());
    // An output that takes nothing more ends it; the input never does.
    assert_eq!(run(io::repeat(b'\n'), &mut [][..]).unwrap_err().kind(), io::ErrorKind::WriteZero);
}
