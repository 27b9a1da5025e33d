//! The library's tick measured against that of the second implementation, in one process, on the
//! same inputs: posts of one to four leads, all charging. Then in the same way the receive chip's
//! arrivals and drains.
//!
//! It links the static libraries `post` and `receiver`.
//!
//! - `benchmark` times both sides and prints two tables.
//! - `benchmark SIDE KIND LEADS ROUNDS` does the rounds of one side and row untimed and prints how
//!   many ticks they had, for a tool that counts instructions; so does `benchmark SIDE KIND HELD
//!   ROUNDS` of pairs or losses. What comes before the rounds is the same for any number of them.
//!
//! The tables are printed only if the sides agree: they are compared after every tick of a session
//! first, or after every frame, then after each timed round.

mod receivers;
mod sides;

use std::process::ExitCode;
use std::time::{Duration, Instant};

use second::sharing::MOST_LEADS;

use sides::{list, Post, KINDS, LIST, SIDES};

/// Many short rounds, those of a row spread over the whole run: other load hardly touches the least
/// of them, unless it lasts all the while.
const PASSES: usize = 12;
const ROUNDS_IN_A_PASS: usize = 250;
const ROUNDS: usize = PASSES * ROUNDS_IN_A_PASS;

const USAGE: &str =
    "usage: benchmark [SIDE KIND LEADS|HELD ROUNDS], side and kind as in the tables\n";

fn main() -> ExitCode {
    let arguments: Vec<String> = std::env::args().skip(1).collect();
    shared::end(match &arguments[..] {
        [] => table(),
        [side, kind, leads, rounds] => count(side, kind, leads, rounds),
        _ => Err(USAGE.to_string()),
    })
}

/// Keeps the least time that such work has taken.
fn timed(least: &mut Duration, work: impl FnOnce()) {
    let start = Instant::now();
    work();
    *least = start.elapsed().min(*least);
}

/// A row of the table: one kind of ticks and a number of leads, both sides.
struct Row {
    kind: &'static str,
    leads: usize,
    inputs: Vec<Vec<u8>>,
    /// Where each round begins.
    state: Vec<u8>,
    posts: [Post; 2],
    least: [Duration; 2],
}

impl Row {
    fn new(kind: &'static str, leads: usize) -> Result<Row, String> {
        sides::compare(kind, leads)?;
        let posts = SIDES.map(|side| Post::charging(side, kind, leads));
        Ok(Row {
            kind,
            leads,
            inputs: list(kind, leads),
            state: posts[0].state.clone(),
            posts,
            least: [Duration::MAX; 2],
        })
    }

    fn time(&mut self) -> Result<(), String> {
        for _ in 0..ROUNDS_IN_A_PASS {
            for (post, least) in self.posts.iter_mut().zip(&mut self.least) {
                post.state.copy_from_slice(&self.state);
                timed(least, || post.run(&mut self.inputs));
            }
            sides::same_bytes(&self.posts)?;
        }
        Ok(())
    }

    /// Nanoseconds a tick.
    fn cost(&self) -> [f64; 2] {
        let nanoseconds = self.least.map(|least| least.as_nanos() as f64);
        nanoseconds.map(|all| all / LIST as f64)
    }
}

fn table() -> Result<String, String> {
    let mut rows = Vec::new();
    for kind in KINDS {
        for leads in 1..=MOST_LEADS {
            rows.push(Row::new(kind, leads)?);
        }
    }
    let mut receivers = receivers::rows()?;
    for _ in 0..PASSES {
        for row in &mut rows {
            row.time()?;
        }
        for row in &mut receivers {
            row.time()?;
        }
    }
    let mut text = format!(
        "{} ticks timed: for each row and side the least of {ROUNDS} rounds of {LIST} ticks, \
         the sides by turns.\n\
         Buffers are not cleared, neither first nor in the timed part: a round begins with the \
         state that a\nsession from setup on has reached, the state goes on from tick to tick, \
         the output is overwritten.\n\n\
         leads  kind          library ns  second ns  library/second\n",
        2 * rows.len() * ROUNDS * LIST,
    );
    for rows in rows.chunks(MOST_LEADS) {
        for row in rows {
            let (leads, kind, [library, second]) = (row.leads, row.kind, row.cost());
            let ratio = library / second;
            text += &format!("{leads:5}  {kind:12}  {library:10.1}  {second:9.1}  {ratio:14.2}\n");
        }
        // How linear the cost is in the leads.
        let [library, second] = [0, 1].map(|side| {
            let cost = |row: &Row| row.cost()[side];
            let steps = rows.windows(2).map(|pair| cost(&pair[1]) - cost(&pair[0]));
            steps.map(|step| format!(" {step:+.1}")).collect::<String>()
        });
        text += &format!("       each further lead, ns: library{library}; second{second}\n");
    }
    Ok(text + &receivers::text(&receivers))
}

fn count(side: &str, kind: &str, count: &str, rounds: &str) -> Result<String, String> {
    let [count, rounds] = [count, rounds].map(|text| text.parse().unwrap_or(0));
    let counted = count_ticks(side, kind, count, rounds);
    let counted = counted.or_else(|| receivers::count(side, kind, count, rounds));
    counted
        .map(|counted| format!("{counted}\n"))
        .ok_or(USAGE.to_string())
}

/// `None` if there is no such side or row.
fn count_ticks(side: &str, kind: &str, leads: usize, rounds: usize) -> Option<usize> {
    let side = SIDES.into_iter().find(|known| known.0 == side)?;
    let kind = KINDS.into_iter().find(|known| *known == kind)?;
    if !(1..=MOST_LEADS).contains(&leads) {
        return None;
    }
    let mut inputs = list(kind, leads);
    let mut post = Post::charging(side, kind, leads);
    let state = post.state.clone();
    for _ in 0..rounds {
        post.state.copy_from_slice(&state);
        post.run(&mut inputs);
    }
    Some(rounds * LIST)
}
