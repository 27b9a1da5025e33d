use super::*;
use crate::bench::run;
use crate::orders::{
    allowance, place, refused_line, take_orders, MOST_ORDERS, NO_ORDERS, ORDERS_BYTES, PLACE_BYTES, REFUSED_65TH_LINE, REFUSED_FORM,
    REFUSED_ORDERS_LENGTH, REFUSED_USED_TWICE, TAKE_ORDERS_REFUSALS, UNUSED,
};

const FILL: u8 = 0xA5;

/// Number, first, last, watts.
type Order = [u32; 4];

const MOST: u32 = 4_294_967_295;

/// The first tick number of more than 32 bits.
const WRAP: u64 = 4_294_967_296;

/// The bytes of these places and no others.
fn places(orders: &[Order]) -> Vec<u8> {
    orders.iter().flatten().flat_map(|number| number.to_le_bytes()).collect()
}

/// These places and unused ones up to 64.
fn whole(orders: &[Order]) -> Vec<u8> {
    let unused = vec![[0, 1, 0, 0]; 64 - orders.len()];
    places(&[orders, &unused].concat())
}

/// A line for each order, every one with a line feed.
fn text(orders: &[Order]) -> String {
    orders.iter().map(|[number, first, last, watts]| format!("{number}\t{first}\t{last}\t{watts}\n")).collect()
}

/// So many good lines, their numbers from 1,000,000 on.
fn good_lines(count: usize) -> String {
    (0..count).map(|line| format!("{}\t{line}\t{line}\t5\n", 1_000_000 + line)).collect()
}

/// Takes a text: the bytes after it, or the refusal and the refused line. The bytes of an accepted text
/// are the same whatever was there before; a refused one leaves what was there, whatever that was.
fn take(text: impl AsRef<[u8]>) -> Result<Vec<u8>, (u32, u32)> {
    let text = text.as_ref();
    let full: Vec<Order> = (0..64).map(|n| [n, n, 3 * n, MOST - n]).collect();
    let mut answers = [vec![FILL; 1024], NO_ORDERS.to_vec(), whole(&full), vec![0; 1024]].map(|before| {
        let mut orders = before.clone();
        let number = take_orders(text, &mut orders);
        let line = refused_line(text);
        assert_eq!(number == 0, line == 0, "{number} with line {line}");
        assert!(number == 0 || orders == before, "{number} changed a byte");
        if number == 0 { Ok(orders) } else { Err((number, line)) }
    });
    answers.iter().for_each(|answer| assert_eq!(*answer, answers[0]));
    std::mem::replace(&mut answers[0], Ok(vec![]))
}

/// The request's sentences, read once more: with whole lines and fields, and the numbers written anew.
fn slowly(text: &[u8]) -> Result<Vec<u8>, (u32, u32)> {
    let mut lines: Vec<&[u8]> = text.split(|&byte| byte == b'\n').collect();
    lines.pop_if(|line| line.is_empty());
    let mut orders: Vec<Order> = vec![];
    for (line, at) in lines.into_iter().zip(1..) {
        let number = |field: &[u8]| {
            let field = str::from_utf8(field).ok()?;
            field.parse().ok().filter(|number: &u32| number.to_string() == field)
        };
        let fields: Vec<Option<u32>> = line.split(|&byte| byte == b'\t').map(number).collect();
        if at == 65 {
            return Err((35, at));
        }
        let [Some(number), Some(first), Some(last), Some(watts)] = fields[..] else { return Err((33, at)) };
        if first > last {
            return Err((33, at));
        }
        if orders.iter().any(|order| order[0] == number) {
            return Err((34, at));
        }
        orders.push([number, first, last, watts]);
    }
    Ok(whole(&orders))
}

/// The allowance once more: all that cover, the highest number of these, the first that has it.
fn allowance_slowly(orders: &[Order], tick: u64, input: u32) -> u32 {
    let covers = |order: &&Order| (u64::from(order[1])..=u64::from(order[2])).contains(&tick);
    let covering: Vec<&Order> = orders.iter().filter(covers).collect();
    let highest = covering.iter().map(|order| order[0]).max();
    covering.iter().find(|order| Some(order[0]) == highest).map_or(input, |order| order[3])
}

/// The answer to a line, the same wherever it stands among good lines, with or without a last line feed.
/// A refusal names this line.
fn line(line: impl AsRef<[u8]>) -> u32 {
    let line = line.as_ref();
    let mut answers = vec![];
    for before in [0, 1, 2, 31, 62, 63] {
        for after in [0, 1, 7, 63].into_iter().filter(|after| before + after <= 63) {
            let all = good_lines(before + after);
            let (above, below) = all.split_at(good_lines(before).len());
            let text = [above.as_bytes(), line, b"\n", below.as_bytes()].concat();
            let mut texts = vec![&text[..]];
            // Without its line feed an empty last line is none.
            if after > 0 || !line.is_empty() {
                texts.push(&text[..text.len() - 1]);
            }
            for text in texts {
                answers.push(take(text).map_or_else(|(number, at)| {
                    assert_eq!(at as usize, before + 1);
                    number
                }, |_| 0));
                assert_eq!(take(text), slowly(text));
            }
        }
    }
    assert_eq!(answers, vec![answers[0]; answers.len()]);
    answers[0]
}

// ---------------------------------------------------------------------------
// Bytes

#[test]
fn numbers_and_places() {
    assert_eq!([ORDERS_BYTES, PLACE_BYTES, MOST_ORDERS], [1024, 16, 64]);
    assert_eq!([place::NUMBER, place::FIRST, place::LAST, place::WATTS], [0, 4, 8, 12]);
    assert_eq!([REFUSED_FORM, REFUSED_USED_TWICE, REFUSED_65TH_LINE, REFUSED_ORDERS_LENGTH], [33, 34, 35, 43]);
    assert_eq!((crate::orders::DONE, TAKE_ORDERS_REFUSALS), (0, [43, 35, 33, 34]));
    assert_eq!(UNUSED, [0, 0, 0, 0, 1, 0, 0, 0, 0, 0, 0, 0, 0, 0, 0, 0]);
    assert_eq!(NO_ORDERS.to_vec(), UNUSED.repeat(64));
    assert_eq!(NO_ORDERS.to_vec(), whole(&[]));
}

/// "64 times the four numbers, 4 bytes each, in the text's order, unused places 0 with first tick 1."
#[test]
fn the_bytes_of_a_text() {
    // 16,909,060 is H'1020304, and so on: the lowest byte comes first.
    let bytes = take("16909060\t84281096\t151653132\t219025168\n7\t0\t0\t0").unwrap();
    let first: Vec<u8> = [[4, 3, 2, 1], [8, 7, 6, 5], [12, 11, 10, 9], [16, 15, 14, 13]].concat();
    assert_eq!(bytes[..16], first);
    assert_eq!(bytes[16..32], [7, 0, 0, 0, 0, 0, 0, 0, 0, 0, 0, 0, 0, 0, 0, 0]);
    assert_eq!(bytes[32..], NO_ORDERS[32..]);
    // Places come in the order of the lines, not of the numbers or ticks.
    for orders in [
        &[[9, 5, 6, 7]][..], &[[0, 0, 0, 0]], &[[MOST; 4]], &[[0, 0, MOST, MOST]], &[[5, 9, 9, 1], [3, 2, 8, 0]],
        &[[3, 2, 8, 0], [5, 9, 9, 1]], &[[2, 7, 7, 0], [0, 1, 1, 0], [MOST, 4, 4, 4], [1, 0, 0, 9]],
        &[[256, 65_536, 16_777_216, 255], [1, 256, 65_536, 16_777_216]],
    ] {
        assert_eq!(take(text(orders)), Ok(whole(orders)), "{orders:?}");
        assert_eq!(take(text(orders).trim_end()), Ok(whole(orders)), "{orders:?}");
    }
    // Every count of lines, up to all places used.
    let all: Vec<Order> = (0..64).map(|n| [MOST - 7 * n, 3 * n, 1_000_000 + n, n * n]).collect();
    for count in 0..=64 {
        assert_eq!(take(text(&all[..count])), Ok(whole(&all[..count])));
    }
}

/// An accepted text replaces all orders in force, also with fewer or none; a refused one none.
#[test]
fn one_text_after_the_other() {
    let mut orders = NO_ORDERS;
    for (text, number, expected) in [
        ("", 0, &[][..]), ("5\t1\t2\t3\n6\t4\t5\t6\n7\t7\t8\t9\n", 0, &[[5, 1, 2, 3], [6, 4, 5, 6], [7, 7, 8, 9]]),
        ("5\t1\t2\t4", 0, &[[5, 1, 2, 4]]), ("8\t0\t0\t0\n9\t0\t0", 33, &[[5, 1, 2, 4]]), ("\n", 33, &[[5, 1, 2, 4]]),
        ("8\t0\t0\t0\n8\t0\t0\t0", 34, &[[5, 1, 2, 4]]), (&good_lines(65), 35, &[[5, 1, 2, 4]]),
        // A number in force before may come again, for there it is dropped.
        ("9\t3\t3\t3\n5\t1\t2\t9\n", 0, &[[9, 3, 3, 3], [5, 1, 2, 9]]), ("", 0, &[]), ("x", 33, &[]), ("0\t0\t0\t0", 0, &[[0; 4]]),
    ] {
        assert_eq!(take_orders(text.as_bytes(), &mut orders), number, "{text:?}");
        assert_eq!(orders[..], whole(expected), "{text:?}");
    }
}

// ---------------------------------------------------------------------------
// The form of lines

/// In each of the four fields.
#[test]
fn forms_of_a_number() {
    for field in 0..4 {
        let with = |number: &str| {
            // First is 0 and last 4,294,967,295 where the other one is tried.
            let mut fields = ["7", "0", "4294967295", "9"];
            fields[field] = number;
            line(fields.join("\t"))
        };
        for number in [
            "0", "1", "9", "10", "19", "90", "99", "100", "101", "909", "1000", "65535", "65536", "2147483648", "3999999999",
            "4294967289", "4294967290", "4294967294", "4294967295",
        ] {
            assert_eq!(with(number), 0, "{number} in field {field}");
        }
        for odd in [
            "", "00", "01", "000", "007", "010", "0000000000", "00000000000", "04294967295", "0123456789", "+0", "-0", "+1",
            "-1", "1-", " 1", "1 ", " ", "1 0", "1,000", "1.0", "1.", ".1", "1e3", "0x1", "0b1", "1_0", "a", "A", "F", "٣", "½",
            "\0", "1\0", "\x0B", "/", ":", "1/", "1:", "'1'", "\"1\"", "\u{FEFF}1", "1\r", "\r", "\r1",
            "4294967296", "4294967297", "4294967300", "4294967305", "4294967306", "4300000000", "5000000000", "9999999999",
            "8589934592", "10000000000", "12884901889", "42949672950", "42949672960", "18446744073709551615",
            "18446744073709551616", "18446744073709551617", "340282366920938463463374607431768211456",
        ] {
            assert_eq!(with(odd), 33, "{odd:?} in field {field}");
        }
        assert_eq!(with(&"1".repeat(1_000)), 33);
        assert_eq!(with(&"0".repeat(1_000)), 33);
    }
}

/// "One a line, tab-parted: order number, first tick, last tick, watts."
#[test]
fn forms_of_a_line() {
    for good in ["1\t2\t3\t4", "0\t0\t0\t0", "4\t3\t3\t1", "4294967295\t4294967295\t4294967295\t4294967295"] {
        assert_eq!(line(good), 0, "{good:?}");
    }
    for odd in [
        "", "\t", "\t\t", "\t\t\t", "\t\t\t\t", "1", "1\t2", "1\t2\t3", "1\t2\t3\t", "\t2\t3\t4", "1\t\t3\t4", "1\t2\t\t4", "1\t2\t3\t4\t",
        "\t1\t2\t3\t4", "1\t\t2\t3\t4", "1\t2\t\t3\t4", "1\t2\t3\t\t4", "1\t2\t3\t4\t5", "1\t2\t3\t4\t\t", "1\t2\t3\t4\r", "\r", "1\t2\t3\t4 ",
        " 1\t2\t3\t4", "1 2 3 4", "1,2,3,4", "1;2;3;4", "1 \t2\t3\t4", "1\t 2\t3\t4", "1\t2\t3\t4\0", "1\t2\t3\t4\x0C", "1\t2\t3\t4\u{85}",
        "1\t2\t3\t4\u{2028}", "1\t2\t3\t4#", "#", "1\t2\t3\t4x", "order\t1\t2\t3\t4", "1\x092\x0B3\t4", "1\x1F2\x1F3\x1F4", "1\t2\t3 4",
    ] {
        assert_eq!(line(odd), 33, "{odd:?}");
    }
    // A second carriage return, one before the tab, one alone at the end of the text.
    for odd in ["1\t2\t3\t4\r\r", "1\r\t2\t3\t4", "1\t2\t3\r\t4"] {
        assert_eq!(line(odd), 33, "{odd:?}");
    }
    assert_eq!(take("1\t2\t3\t4\r\n"), Err((33, 1)));
    assert_eq!(take("1\t2\t3\t4\n\r"), Err((33, 2)));
    assert_eq!(take("1\t2\t3\t4\r"), Err((33, 1)));
    assert_eq!(take("1\t2\t3\t4\r5\t6\t7\t8"), Err((33, 1)));
}

/// Every byte in every place of two lines: in its stead, before it, and the byte left out.
#[test]
fn one_byte_changed() {
    let good = b"12\t34\t56\t78\n90\t10\t10\t0";
    let (mut accepted, mut refused) = (0, [0; 3]);
    let mut try_it = |text: &[u8]| {
        let answer = take(text);
        assert_eq!(answer, slowly(text), "{:?}", String::from_utf8_lossy(text));
        match answer {
            Ok(_) => accepted += 1,
            Err((number, at)) => {
                assert_eq!(number, 33);
                refused[at as usize] += 1;
            }
        }
    };
    for at in 0..=good.len() {
        let (before, after) = good.split_at(at);
        for byte in 0..=255 {
            try_it(&[before, &[byte], after].concat());
            if let [_, rest @ ..] = after {
                try_it(&[before, &[byte], rest].concat());
            }
        }
        try_it(before);
        if let [_, rest @ ..] = after {
            try_it(&[before, rest].concat());
        }
    }
    assert!(accepted > 200 && refused[1] > 5_000 && refused[2] > 5_000, "{accepted} {refused:?}");
    // A byte that is no digit, tab or line feed is never taken.
    for byte in (0..=255).filter(|byte| !b"0123456789\t\n".contains(byte)) {
        for at in 0..=11 {
            let one = [&good[..at], &[byte], &good[at..11]].concat();
            assert_eq!(take(&one), Err((33, 1)));
            assert_eq!(take([b"0\t0\t0\t0\n", &one[..], b"\n"].concat()), Err((33, 2)));
        }
    }
}

/// "A line feed ends each line but perhaps the last; no lines, no orders."
#[test]
fn line_feeds() {
    let (one, two) = (&[[1, 2, 3, 4]][..], &[[1, 2, 3, 4], [5, 6, 7, 8]][..]);
    for (text, expected) in [
        ("", Ok(&[][..])), ("1\t2\t3\t4", Ok(one)), ("1\t2\t3\t4\n", Ok(one)), ("1\t2\t3\t4\n5\t6\t7\t8", Ok(two)),
        ("1\t2\t3\t4\n5\t6\t7\t8\n", Ok(two)),
        ("\n", Err((33, 1))), ("\n\n", Err((33, 1))), ("\n1\t2\t3\t4", Err((33, 1))), ("1\t2\t3\t4\n\n", Err((33, 2))),
        ("1\t2\t3\t4\n\n\n", Err((33, 2))), ("1\t2\t3\t4\n\n5\t6\t7\t8", Err((33, 2))), ("1\t2\t3\t4\n5\t6\t7\t8\n\n", Err((33, 3))),
        ("1\t2\t3\n4", Err((33, 1))), ("1\n2\n3\n4", Err((33, 1))), ("1\t2\t3\t\n4", Err((33, 1))), ("1\t2\t3\t4\n5\n", Err((33, 2))),
        ("\r\n", Err((33, 1))), ("\0", Err((33, 1))), ("1\t2\t3\t4\n ", Err((33, 2))), ("1\t2\t3\t4\n\t", Err((33, 2))),
    ] {
        assert_eq!(take(text), expected.map(whole), "{text:?}");
    }
}

#[test]
fn first_and_last() {
    for (first, last, number) in [
        (0, 0, 0), (0, 1, 0), (1, 0, 33), (1, 1, 0), (9, 10, 0), (10, 9, 33), (5, 5, 0), (2, 10, 0), (10, 2, 33), (256, 255, 33),
        (255, 256, 0), (65_536, 1, 33), (1, 65_536, 0), (MOST, MOST, 0), (MOST - 1, MOST, 0), (MOST, MOST - 1, 33), (0, MOST, 0),
        (MOST, 0, 33), (1 << 31, (1 << 31) - 1, 33), ((1 << 31) - 1, 1 << 31, 0),
    ] {
        assert_eq!(line(format!("7\t{first}\t{last}\t9")), number, "{first} to {last}");
    }
}

// ---------------------------------------------------------------------------
// Refusals among each other

#[test]
fn a_number_used_twice() {
    for (text, expected) in [
        ("1\t0\t0\t0\n1\t0\t0\t0", (34, 2)), ("1\t0\t0\t0\n1\t5\t6\t7\n", (34, 2)), ("0\t0\t0\t0\n0\t1\t1\t1", (34, 2)),
        ("4294967295\t0\t0\t0\n4294967295\t0\t0\t0", (34, 2)), ("1\t0\t0\t0\n2\t0\t0\t0\n1\t0\t0\t0", (34, 3)),
        ("1\t0\t0\t0\n2\t0\t0\t0\n2\t0\t0\t0", (34, 3)), ("3\t0\t0\t0\n2\t0\t0\t0\n2\t0\t0\t0\n3\t0\t0\t0", (34, 3)),
        ("1\t0\t0\t0\n1\t0\t0\t0\n1\t0\t0\t0", (34, 2)),
    ] {
        assert_eq!(take(text), Err(expected), "{text:?}");
    }
    // Only the number counts, and all of it; unused places have used none.
    for text in [
        "1\t2\t2\t2\n2\t2\t2\t2", "1\t1\t1\t1\n0\t1\t1\t1\n2\t1\t1\t1", "0\t1\t1\t0", "5\t0\t0\t0\n0\t1\t1\t0", "1\t0\t0\t0\n257\t0\t0\t0",
        "1\t0\t0\t0\n65537\t0\t0\t0", "0\t0\t0\t0\n2147483648\t0\t0\t0", "1\t0\t0\t0\n10\t0\t0\t0\n100\t0\t0\t0\n11\t0\t0\t0",
    ] {
        assert!(take(text).is_ok(), "{text:?}");
    }
    // Of 64 lines any two.
    let all: Vec<Order> = (0..64).map(|n| [n * 1_000, n, n, n]).collect();
    for (earlier, later) in (0..64).flat_map(|later| (0..later).map(move |earlier| (earlier, later))) {
        let mut orders = all.clone();
        orders[later][0] = orders[earlier][0];
        assert_eq!(take(text(&orders)), Err((34, later as u32 + 1)));
    }
}

#[test]
fn a_65th_line() {
    let (all, good) = (good_lines(64), "9\t0\t0\t0");
    assert!(take(&all).is_ok());
    assert!(take(all.trim_end()).is_ok());
    // Whatever it holds, also a used number, first after last, or nothing.
    for last in [
        good, "9\t0\t0\t0\n", "\n", "\n\n", "x", "\t", "\r", "\r\n", "\0", "9\t1\t0\t0", "1000000\t0\t0\t0", "1000063\t5\t4\t0\n",
        "9\t0\t0\t0\n9\t0\t0\t0", "9\t0\t0\t0\nx", "01\t0\t0\t0", "4294967296\t0\t0\t0", " ", "1",
    ] {
        assert_eq!(take(all.clone() + last), Err((35, 65)), "{last:?}");
    }
    // The 65th is named, however many come.
    for count in [65, 66, 100, 128, 129, 257, 1_000, 5_000] {
        assert_eq!(take(good_lines(count)), Err((35, 65)));
        assert_eq!(take(good_lines(count).trim_end()), Err((35, 65)));
    }
    // A bad line or a used number among the 64 comes before it; an empty one too.
    for (bad, number) in [("x", 33), ("", 33), ("1\t1\t0\t0", 33), ("1000000\t0\t0\t0", 34), ("1000000\t1\t0\t0", 33)] {
        for at in 1..64 {
            let mut lines: Vec<&str> = all.lines().collect();
            lines[at] = bad;
            for more in [&[][..], &[good], &["x"], &[""], &["", ""], &[good, good], &["1000000\t0\t0\t0"]] {
                let text = [&lines[..], more].concat().join("\n") + "\n";
                assert_eq!(take(text), Err((number, at as u32 + 1)), "{bad:?} at {at}");
            }
        }
    }
}

/// "Asked line by line as 35, 33, 34."
#[test]
fn the_first_fitting_number() {
    let used = "1\t0\t0\t0\n";
    for (lines, expected) in [
        // A used number with another fault of its line is 33.
        (&[used, "1\t1\t0\t0"][..], (33, 2)), (&[used, "1\t0\t0\t0\t"], (33, 2)), (&[used, "1\t0\t0"], (33, 2)),
        (&[used, "1\t0\t0\t4294967296"], (33, 2)), (&[used, "1\t0\t0\t00"], (33, 2)), (&[used, "1\t0\t0\t0\r\n"], (33, 2)),
        (&[used, "01\t0\t0\t0"], (33, 2)), (&[used, "1\n"], (33, 2)),
        // The earlier line counts, whichever number is its.
        (&[used, used, "x"], (34, 2)), (&["x\n", used, used], (33, 1)), (&[used, "x\n", used], (33, 2)),
        (&[used, used, "5\t1\t0\t0"], (34, 2)), (&["5\t1\t0\t0\n", used, used], (33, 1)), (&[used, used, "\n"], (34, 2)),
        (&["\n", used, used], (33, 1)), (&[used, "2\t0\t0\t0\n", "2\t0\t0\t0\n", "1\t1\t0\t0\n"], (34, 3)),
        // A refused line's number is never used, for nothing comes after it.
        (&["5\t1\t0\t0\n", "5\t0\t0\t0\n"], (33, 1)),
    ] {
        assert_eq!(take(lines.concat()), Err(expected), "{lines:?}");
    }
    // Line 3 is bad, and there are 65.
    let mut lines: Vec<String> = good_lines(65).lines().map(String::from).collect();
    lines[2] = "12\t13\t12\t0".into();
    assert_eq!(take(lines.join("\n")), Err((33, 3)));
    lines[2] = lines[1].clone();
    assert_eq!(take(lines.join("\n")), Err((34, 3)));
    // The 64th line is bad, or has a used number, and there are 65.
    lines = good_lines(65).lines().map(String::from).collect();
    lines[63] = "9\t8\t7\t6".into();
    assert_eq!(take(lines.join("\n")), Err((33, 64)));
    lines[63] = lines[0].clone();
    assert_eq!(take(lines.join("\n")), Err((34, 64)));
    // A used number in the 65th.
    lines = good_lines(65).lines().map(String::from).collect();
    lines[64] = lines[63].clone();
    assert_eq!(take(lines.join("\n")), Err((35, 65)));
}

/// "43, those bytes not 1,024, asked before the text's lines."
#[test]
fn bytes_that_are_not_1024() {
    let texts = ["", "1\t2\t3\t4", "x", "\n", "1\t0\t0\t0\n1\t0\t0\t0", "1\t2\t1\t0", &good_lines(64), &good_lines(65)];
    let lengths = (0..1024).chain(1025..1100).chain([1280, 2047, 2048, 4096, 65_536, 66_560, 1 << 20]);
    for length in lengths {
        let texts = if length < 1000 { &texts[..3] } else { &texts[..] };
        for text in texts {
            let mut orders = vec![FILL; length];
            assert_eq!(take_orders(text.as_bytes(), &mut orders), 43, "{length} bytes");
            assert!(orders.iter().all(|byte| *byte == FILL));
        }
    }
    // The line is that of the text, which has no such bytes.
    assert_eq!(texts.map(|text| refused_line(text.as_bytes())), [0, 0, 1, 1, 2, 1, 0, 65]);
}

/// Texts that are nearly good, and some that aren't.
#[test]
fn texts_of_all_kinds() {
    const NUMBERS: [u32; 12] = [0, 1, 2, 9, 10, 11, 99, 255, 65_536, 429_496_729, MOST - 1, MOST];
    const BYTES: &[u8; 20] = b"0012345678999\t\t\n\n\r -";
    let mut next = generator();
    // 0, 33, 34, 35.
    let mut answers = [0; 4];
    for _ in 0..60_000 {
        let count = [1, 2, 3, 5, 63, 64, 65, 66][usize::from(next() % 16) / 2 % if next() < 24 { 8 } else { 4 }];
        let few = next() < 128;
        let mut text: Vec<u8> = (0..count).flat_map(|line| {
            let mut some = || NUMBERS[usize::from(next()) % NUMBERS.len()];
            let number = if few && count < 9 { some() } else { line * 77 };
            let (first, last) = (some(), some());
            // One in a few keeps first after last.
            let (first, last) = if few && count < 9 && some() == 9 { (first, last) } else { (first.min(last), first.max(last)) };
            format!("{number}\t{first}\t{last}\t{}\n", some()).into_bytes()
        }).collect();
        if next() < 128 {
            text.pop();
        }
        for _ in 0..[0, 0, 1, 1, 2, 3][usize::from(next()) % 6] {
            let at = usize::from(u16::from_le_bytes([next(), next()])) % text.len();
            let byte = BYTES[usize::from(next()) % BYTES.len()];
            match next() % 3 {
                0 => text[at] = byte,
                1 => text.insert(at, byte),
                _ if text.len() > 1 => drop(text.remove(at)),
                _ => {}
            }
        }
        let answer = take(&text);
        assert_eq!(answer, slowly(&text), "{:?}", String::from_utf8_lossy(&text));
        answers[answer.map_or_else(|(number, _)| number as usize - 32, |_| 0)] += 1;
    }
    assert!(answers.iter().all(|times| *times > 500), "{answers:?}");
    // Any bytes whatever.
    for length in 0..2_000 {
        let text: Vec<u8> = (0..length % 40).map(|_| if length < 1_000 { next() } else { BYTES[usize::from(next()) % 16] }).collect();
        assert_eq!(take(&text), slowly(&text));
    }
}

// ---------------------------------------------------------------------------
// The allowance

#[test]
fn covering() {
    const INPUT: u32 = 77;
    for (orders, rows) in [
        (&[][..], &[(0, INPUT), (1, INPUT), (2, INPUT), (WRAP, INPUT), (u64::MAX, INPUT)][..]),
        // Both ends are in.
        (&[[4, 10, 12, 5]], &[(0, INPUT), (9, INPUT), (10, 5), (11, 5), (12, 5), (13, INPUT), (WRAP + 11, INPUT)]),
        (&[[4, 10, 10, 5]], &[(9, INPUT), (10, 5), (11, INPUT), (WRAP + 10, INPUT)]),
        (&[[4, 0, 0, 5]], &[(0, 5), (1, INPUT), (WRAP, INPUT), (2 * WRAP, INPUT), (1 << 63, INPUT), (u64::MAX, INPUT)]),
        (&[[4, 1, 1, 5]], &[(0, INPUT), (1, 5), (2, INPUT)]),
        // "Each from 0 to 4,294,967,295": from the next number on nothing covers.
        (&[[4, 0, MOST, 5]], &[
            (0, 5), (1, 5), (WRAP / 2, 5), (WRAP - 2, 5), (WRAP - 1, 5), (WRAP, INPUT), (WRAP + 1, INPUT), (2 * WRAP - 1, INPUT),
            (3 * WRAP, INPUT), (1 << 48, INPUT), (1 << 63, INPUT), (u64::MAX - 1, INPUT), (u64::MAX, INPUT),
        ]),
        (&[[4, MOST, MOST, 5]], &[(WRAP - 2, INPUT), (WRAP - 1, 5), (WRAP, INPUT), (2 * WRAP - 1, INPUT), (u64::MAX, INPUT)]),
        // All bytes of first and last count.
        (&[[4, 256, 511, 5]], &[(0, INPUT), (255, INPUT), (256, 5), (511, 5), (512, INPUT)]),
        (&[[4, 16_777_216, 33_554_432, 5]], &[(16_777_215, INPUT), (16_777_216, 5), (33_554_432, 5), (33_554_433, INPUT)]),
        // An order of 0 watts covers; one of as many watts as there are; order number 0 is one like any other.
        (&[[4, 5, 6, 0]], &[(4, INPUT), (5, 0), (6, 0), (7, INPUT)]), (&[[4, 5, 6, MOST]], &[(5, MOST), (7, INPUT)]),
        (&[[0, 5, 6, 8]], &[(5, 8), (7, INPUT)]), (&[[0, 0, 0, 0]], &[(0, 0), (1, INPUT)]), (&[[0, 0, 1, 0]], &[(0, 0), (1, 0), (2, INPUT)]),
        (&[[4, 5, 6, 16_777_216]], &[(5, 16_777_216)]), (&[[4, 5, 6, 16_909_060]], &[(5, 16_909_060)]),
        // The highest number that covers, wherever it stands and however many watts it gives.
        (&[[1, 0, 9, 10], [2, 3, 6, 20]], &[(0, 10), (2, 10), (3, 20), (6, 20), (7, 10), (9, 10), (10, INPUT)]),
        (&[[2, 3, 6, 20], [1, 0, 9, 10]], &[(0, 10), (2, 10), (3, 20), (6, 20), (7, 10), (9, 10), (10, INPUT)]),
        (&[[1, 0, 9, 20], [2, 3, 6, 10]], &[(2, 20), (3, 10), (6, 10), (7, 20)]),
        (&[[1, 0, 9, 20], [2, 3, 6, 0]], &[(2, 20), (3, 0), (6, 0), (7, 20)]),
        (&[[0, 0, 9, 20], [MOST, 3, 6, 10]], &[(2, 20), (3, 10), (7, 20)]), (&[[MOST, 3, 6, 10], [0, 0, 9, 20]], &[(2, 20), (3, 10), (7, 20)]),
        (&[[255, 0, 9, 1], [256, 0, 9, 2]], &[(0, 2)]), (&[[256, 0, 9, 2], [255, 0, 9, 1]], &[(0, 2)]),
        (&[[1 << 31, 0, 9, 1], [(1 << 31) - 1, 0, 9, 2]], &[(0, 1)]), (&[[65_536, 0, 9, 1], [9, 0, 9, 2]], &[(0, 1)]),
        (&[[3, 0, 9, 3], [1, 0, 9, 1], [2, 0, 9, 2]], &[(0, 3)]), (&[[1, 0, 9, 1], [3, 0, 9, 3], [2, 0, 9, 2]], &[(0, 3)]),
        (&[[2, 0, 9, 2], [1, 0, 9, 1], [3, 0, 9, 3]], &[(0, 3)]), (&[[3, 4, 4, 3], [2, 3, 5, 2], [1, 2, 6, 1]], &[(1, INPUT), (2, 1), (3, 2), (4, 3), (5, 2), (6, 1), (7, INPUT)]),
        // The number isn't the first tick, the last, or the watts.
        (&[[1, 8, 9, 3], [2, 7, 8, 1]], &[(8, 1), (9, 3)]), (&[[9, 1, 5, 1], [8, 2, 6, 2]], &[(1, 1), (2, 1), (5, 1), (6, 2)]),
    ] {
        for (tick, expected) in rows {
            assert_eq!(allowance(&whole(orders), *tick, INPUT), *expected, "{orders:?} in tick {tick}");
            assert_eq!(allowance(&places(orders), *tick, INPUT), *expected, "{orders:?} in tick {tick}");
            assert_eq!(allowance_slowly(orders, *tick, INPUT), *expected);
            // The same from the text, which has no used numbers twice and no first after last.
            assert_eq!(allowance(&take(text(orders)).unwrap(), *tick, INPUT), *expected);
            // In the last places as well.
            let last = [&vec![[0, 1, 0, 0]; 64 - orders.len()], orders].concat();
            assert_eq!(allowance(&places(&last), *tick, INPUT), *expected);
        }
    }
}

/// "Handed in otherwise, a place with first after last covers nothing, and of equal numbers the earlier
/// place counts."
#[test]
fn handed_in_otherwise() {
    const INPUT: u32 = 77;
    for (orders, tick, expected) in [
        (&[[4, 6, 5, 1]][..], 4, INPUT), (&[[4, 6, 5, 1]], 5, INPUT), (&[[4, 6, 5, 1]], 6, INPUT), (&[[4, 6, 5, 1]], 7, INPUT),
        (&[[4, MOST, 0, 1]], 0, INPUT), (&[[4, MOST, 0, 1]], 5, INPUT), (&[[4, MOST, 0, 1]], WRAP - 1, INPUT), (&[[4, MOST, 0, 1]], WRAP, INPUT),
        (&[[0, 1, 0, 1]], 0, INPUT), (&[[0, 1, 0, 1]], 1, INPUT),
        // It hides none with a lower number.
        (&[[9, 6, 5, 1], [4, 5, 6, 2]], 5, 2), (&[[9, 6, 5, 1], [4, 5, 6, 2]], 6, 2), (&[[4, 5, 6, 2], [9, 6, 5, 1]], 5, 2),
        // Of equal numbers the earlier of those that cover.
        (&[[4, 5, 6, 1], [4, 5, 6, 2]], 5, 1), (&[[4, 5, 6, 2], [4, 5, 6, 1]], 5, 2), (&[[4, 5, 6, 0], [4, 5, 6, 1]], 6, 0),
        (&[[4, 5, 6, 1], [4, 6, 7, 2]], 5, 1), (&[[4, 5, 6, 1], [4, 6, 7, 2]], 6, 1), (&[[4, 5, 6, 1], [4, 6, 7, 2]], 7, 2),
        (&[[4, 6, 7, 1], [4, 5, 6, 2]], 5, 2), (&[[4, 6, 7, 1], [4, 5, 6, 2]], 6, 1), (&[[4, 6, 5, 1], [4, 5, 6, 2]], 5, 2),
        (&[[4, 6, 5, 1], [4, 5, 6, 2], [4, 5, 6, 3]], 5, 2), (&[[4, 5, 6, 1], [3, 5, 6, 2], [4, 5, 6, 3]], 5, 1),
        (&[[3, 5, 6, 2], [4, 5, 6, 1], [4, 5, 6, 3]], 5, 1), (&[[3, 5, 6, 2], [3, 5, 6, 9], [4, 5, 6, 1], [4, 5, 6, 3]], 5, 1),
        (&[[4, 5, 6, 1], [4, 5, 6, 3], [5, 5, 6, 8], [5, 5, 6, 9]], 5, 8), (&[[MOST, 5, 5, 1], [MOST, 5, 5, 2]], 5, 1),
        (&[[0, 5, 5, 1], [0, 5, 5, 2]], 5, 1), (&[[4, 9, 9, 1], [4, 5, 6, 2], [2, 5, 6, 3]], 5, 2),
        // An order 0 behind unused places, and before one.
        (&[[0, 1, 0, 0], [0, 5, 6, 9]], 5, 9), (&[[0, 1, 0, 0], [0, 0, 1, 9]], 0, 9), (&[[0, 1, 0, 0], [0, 0, 1, 9]], 1, 9),
        (&[[0, 0, 1, 9], [0, 1, 0, 0]], 1, 9), (&[[0, 1, 0, 0], [7, 5, 6, 9], [0, 1, 0, 0]], 5, 9),
        // Bytes that are all 0 are an order for tick 0, not an unused place.
        (&[[0; 4]], 0, 0), (&[[0; 4]], 1, INPUT), (&[[MOST; 4]], WRAP - 1, MOST), (&[[MOST; 4]], 0, INPUT), (&[[MOST; 4]], u64::MAX, INPUT),
    ] {
        assert_eq!(allowance(&whole(orders), tick, INPUT), expected, "{orders:?} in tick {tick}");
        assert_eq!(allowance_slowly(orders, tick, INPUT), expected);
    }
    // The input's is any number, and no order in force changes it.
    for input in [0, 1, 256, 16_909_060, MOST] {
        for tick in [0, 1, 2, WRAP - 1, WRAP, u64::MAX] {
            assert_eq!(allowance(&NO_ORDERS, tick, input), input);
            assert_eq!(allowance(&whole(&[[4, 3, 9, 5]]), tick, input), input);
        }
    }
    assert_eq!([0, 1].map(|tick| allowance(&[0; 1024], tick, INPUT)), [0, INPUT]);
    assert_eq!([0, WRAP - 1, WRAP].map(|tick| allowance(&[0xFF; 1024], tick, INPUT)), [INPUT, MOST, INPUT]);
}

/// The places are the whole 16s of any bytes; a shorter rest is none.
#[test]
fn an_allowance_of_any_bytes() {
    let orders: Vec<Order> = (0..200).map(|n| [n, 5, 6, 1_000 + n]).collect();
    let bytes = places(&orders);
    for length in 0..=bytes.len() {
        // The last whole place has the highest number.
        let expected = if length < 16 { 77 } else { 1_000 + length as u32 / 16 - 1 };
        assert_eq!(allowance(&bytes[..length], 5, 77), expected, "{length} bytes");
        assert_eq!(allowance(&bytes[..length], 4, 77), 77);
    }
    for (length, expected) in [(0, 77), (15, 77), (16, 1_000), (17, 1_000), (31, 1_000), (32, 1_001), (1023, 1_062), (1024, 1_063)] {
        assert_eq!(allowance(&bytes[..length], 6, 77), expected);
    }
    // A rest of 0s would cover tick 0.
    for length in [1, 12, 15, 17, 31, 1023, 1025, 1039] {
        assert_eq!(allowance(&[&whole(&[])[..length.min(1024) / 16 * 16], &[0; 15][..length % 16]].concat(), 0, 77), 77);
    }
    // Any bytes, with few values so that they cover and collide.
    let mut next = generator();
    let (mut covered, mut hidden) = (0, 0);
    for _ in 0..20_000 {
        let count = usize::from(next()) % 70;
        let narrow = next() < 200;
        let orders: Vec<Order> = (0..count).map(|_| [(); 4].map(|_| {
            if narrow { u32::from(next() % 8) } else { u32::from_le_bytes([next(), next(), next(), next()]) }
        })).collect();
        let tick = match next() {
            0..=9 => WRAP + u64::from(next() % 8),
            10..=19 => u64::MAX,
            20..=89 if !narrow => u64::from(u32::from_le_bytes([next(), next(), next(), next()])),
            _ => u64::from(next() % 10),
        };
        let rest: Vec<u8> = (0..next() % 16).map(|_| next() % 2).collect();
        let expected = allowance_slowly(&orders, tick, 500);
        assert_eq!(allowance(&[places(&orders), rest].concat(), tick, 500), expected, "{orders:?} in tick {tick}");
        covered += u32::from(expected != 500);
        hidden += u32::from(expected == 500 && count > 0);
    }
    assert!(covered > 5_000 && hidden > 1_000, "{covered} {hidden}");
}

/// Ticks at which the orders begin and end, and those beside them.
fn ticks_about(orders: &[Order]) -> Vec<u64> {
    let ends = orders.iter().flat_map(|order| [order[1], order[2]]).map(u64::from);
    let beside = ends.flat_map(|end| [end.saturating_sub(1), end, end + 1, end + WRAP]);
    beside.chain([0, 1, WRAP - 1, WRAP, u64::MAX]).collect()
}

/// "For every accepted text, the allowance is the same in whichever order its lines stand."
#[test]
fn lines_in_whichever_order() {
    let mut next = generator();
    let mut below = move |below: usize| usize::from(u16::from_le_bytes([next(), next()])) % below;
    // Ticks that more than one order covered.
    let mut overlaps = 0;
    for _ in 0..300 {
        let count = [0, 1, 2, 3, 5, 20, 63, 64][below(8)];
        let scale = [1, 1, 1_000, 90_000_000][below(4)];
        // Numbers apart, some of them large.
        let mut orders: Vec<Order> = (0..count).map(|n| {
            let (a, b) = (below(40) as u32 * scale, below(40) as u32 * scale);
            [n + 64 * [0, 1, 257, 1_000_000][below(4)], a.min(b), a.max(b), below(5_000) as u32]
        }).collect();
        let ticks = ticks_about(&orders);
        let of = |orders: &[Order], last_feed: bool| -> Vec<u32> {
            let text = text(orders);
            let text = if last_feed { &text[..] } else { text.trim_end() };
            let bytes = take(text).unwrap();
            assert_eq!(bytes, whole(orders));
            ticks.iter().map(|tick| allowance(&bytes, *tick, 9_999)).collect()
        };
        let expected = of(&orders, true);
        for tick in &ticks {
            let cover = |order: &&Order| (u64::from(order[1])..=u64::from(order[2])).contains(tick);
            overlaps += u32::from(orders.iter().filter(cover).count() > 1);
        }
        for shuffle in 0..4 {
            for at in (1..orders.len()).rev() {
                orders.swap(at, below(at + 1));
            }
            if shuffle == 3 {
                orders.sort();
                orders.reverse();
            }
            assert_eq!(of(&orders, shuffle % 2 == 0), expected, "{orders:?}");
        }
    }
    assert!(overlaps > 5_000, "{overlaps}");
    // All orders of four lines.
    let four = [[8, 2, 5, 1], [3, 0, 9, 2], [5, 5, 7, 3], [0, 1, 12, 4]];
    let expected: Vec<u32> = vec![2, 2, 1, 1, 1, 1, 3, 3, 2, 2, 4, 4, 4, 77];
    let mut tried = 0;
    for mix in 0..256 {
        let lines = [64, 16, 4, 1].map(|digit| mix / digit % 4);
        if (0..4).all(|line| lines.contains(&line)) {
            let bytes = take(text(&lines.map(|line| four[line]))).unwrap();
            assert_eq!((0..14).map(|tick| allowance(&bytes, tick, 77)).collect::<Vec<u32>>(), expected);
            tried += 1;
        }
    }
    assert_eq!(tried, 24);
}

// ---------------------------------------------------------------------------
// The bench

/// The bench has no orders: a line with one is any other line, and every tick is one without.
#[test]
fn the_bench_knows_nothing_of_them() {
    let print = |lines: &str| {
        let mut printed = Vec::new();
        run(lines.as_bytes(), &mut printed).unwrap();
        String::from_utf8(printed).unwrap()
    };
    let input = LeadInput::new(CLOSED | START_BUTTON).reading(5.0, 0.0).ohms(40_000.0);
    let input = input.maximum_voltage(400).charging_time(60, 0).status(TARGET, 255, 0, ENABLED);
    let bytes = [&12_000u32.to_le_bytes()[..], &input.0[..]].concat();
    let tick = format!("tick\t{}\n", bytes.iter().map(|byte| format!("{byte:02x}")).collect::<String>());
    let setup = "setup\t1\t500\t125\t00000000\t0\t0\n";
    let plain = print(&(setup.to_string() + &tick.repeat(12)));
    for line in [
        "1\t0\t4294967295\t0", "0\t0\t0\t0", "7\t1\t9\t400", "order\t1\t0\t4294967295\t0", "orders\t1\t0\t4294967295\t0", "orders", "orders\t",
        "take_orders\t1\t0\t9\t0", "refused_line\t1\t0\t9\t0",
    ] {
        assert_eq!(print(line), "?\n", "{line:?}");
        let line = format!("{line}\n");
        let printed = print(&format!("{line}{setup}{line}{}", (line.clone() + &tick).repeat(12)));
        assert_eq!(printed.matches("?\n").count(), 14);
        assert_eq!(printed.replace("?\n", ""), plain, "{line:?}");
        // Neither has a tick line a place for orders or a number.
        assert_eq!(print(&format!("{setup}tick\t00\t{line}tick\t\t00\ntick\t00\t0\n")), "0\n?\n?\n?\n");
    }
    // The allowance of the input holds in every tick: 12,000 watts at 400 V offer 30 A.
    let shown: Vec<(&str, &str)> = plain.lines().skip(6).map(|line| (&line[6..8], &line[24..26])).collect();
    assert_eq!(shown, [("02", "1E"), ("04", "1E"), ("06", "1E"), ("08", "1E"), ("0A", "1E"), ("0C", "1E"), ("0E", "1E")]);
}
