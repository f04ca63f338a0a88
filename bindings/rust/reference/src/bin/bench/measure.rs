//! The rounds of a board, played and timed.
use crate::clock::Clock;
use crate::programs::{programs, Program, ALL_PAIRS, LIBRARY, PLAIN, PROGRAMS};
use crate::rounds::{refusal, Named, Rounds, CALLS};
use std::time::Duration;

/// The time that the rounds of a board may take, for the library and the plain board and for all pairs each; and the most
/// rounds.
pub struct Effort {
    pub budget: Duration,
    pub most: usize,
}

const LEAST_ROUNDS: usize = 30;
const LEAST_OF_ALL_PAIRS: usize = 4;

/// The times of each call, and of them those of each program, one for each round.
#[derive(Default)]
pub struct Times([[Vec<Duration>; PROGRAMS]; CALLS.len()]);

/// Of two the lesser: other work on the machine falls on single rounds. None of none.
fn median(numbers: impl Iterator<Item = f64>) -> Option<f64> {
    let mut sorted: Vec<f64> = numbers.collect();
    sorted.sort_unstable_by(f64::total_cmp);
    let middle = sorted.len().checked_sub(1)? / 2;
    Some(sorted[middle])
}

impl Times {
    /// The library's microseconds.
    pub fn micros(&self, call: usize) -> Option<f64> {
        median(self.0[call][LIBRARY].iter().map(|time| time.as_secs_f64() * 1e6))
    }

    /// The library's time to that of another program, round by round; none where the other was not asked.
    pub fn ratio(&self, call: usize, program: usize) -> Option<f64> {
        let rounds = self.0[call][LIBRARY].iter().zip(&self.0[call][program]);
        median(rounds.map(|(library, other)| library.as_secs_f64() / other.as_secs_f64()))
    }
}

/// One round, the programs of the order in turn; the time of each.
fn play(
    clock: &Clock,
    programs: &mut [Box<dyn Program>; PROGRAMS],
    order: &[usize],
    round: Vec<Named>,
    times: &mut Times,
) -> [Duration; PROGRAMS] {
    let mut spent = [Duration::ZERO; PROGRAMS];
    for (name, call) in round {
        let place = name.map(|name| CALLS.iter().position(|known| *known == name).expect("a call of the tables"));
        let mut told = None;
        // all pairs keeps no memory that could be judged
        for &i in order.iter().filter(|&&i| i != ALL_PAIRS || refusal(&call) == 0) {
            let (rows, time) = clock.timed(|| programs[i].ask(&call));
            assert_eq!(*told.get_or_insert(rows), rows, "the rows of {call:?}");
            spent[i] += time;
            if let Some(place) = place {
                times.0[place][i].push(time);
            }
        }
    }
    spent
}

/// As many rounds as the effort allows. Every other round has the programs the other way about, and after two rounds with
/// changes come two with previews: a change whose preview was just asked would take less time.
pub fn measure(effort: &Effort, rounds: &mut Rounds, c: usize, d: usize, all_pairs: bool) -> Times {
    let clock = Clock::new();
    let mut programs = programs(c, d);
    let mut times = Times::default();
    let mut spent = [Duration::ZERO; PROGRAMS];
    for round in 0..effort.most {
        let goes_on = |least, time| round < least || time < effort.budget;
        if !goes_on(LEAST_ROUNDS, spent[LIBRARY] + spent[PLAIN]) {
            break;
        }
        let mut order = vec![LIBRARY, PLAIN];
        if round % 2 == 1 {
            order.reverse();
        }
        if all_pairs && goes_on(LEAST_OF_ALL_PAIRS, spent[ALL_PAIRS]) {
            order.push(ALL_PAIRS);
        }
        let more = play(&clock, &mut programs, &order, rounds.round(round / 2 % 2 == 1), &mut times);
        spent.iter_mut().zip(more).for_each(|(sum, time)| *sum += time);
    }
    times
}
