//! The instructions that it takes to judge whether a memory is sound, as valgrind counts them: other work on the machine does not
//! disturb the count, and it is the same on every run.
use crate::boards::{Board, AGAINST, DRAWN};
use crate::programs::{programs, Program, LIBRARY, PLAIN};
use crate::rounds::SOUND;
use crate::tables::{cell, print_heading, print_title, rounded};
use reference::random::Random;
use reference::{Call, COSTS};
use std::process::Command;

const SIZES: [usize; 2] = [256, 4096];
const DIMENSIONS: [usize; 3] = [2, 4, COSTS];

/// The word by which this program starts itself under valgrind.
pub const JUDGE: &str = "judge";

/// A board that a program loads and judges.
struct Judged {
    board: Board,
    program: usize,
    c: usize,
    d: usize,
}

/// Only what happens in here is counted: valgrind is told the name.
#[no_mangle]
#[inline(never)]
fn bench_judges(program: &mut dyn Program) {
    program.ask(&SOUND);
}

fn boards() -> impl Iterator<Item = Board> {
    DRAWN.into_iter().chain(AGAINST)
}

impl Judged {
    fn words(&self) -> [String; 4] {
        [self.board.name().to_string(), self.program.to_string(), self.c.to_string(), self.d.to_string()]
    }

    fn of_words(words: &[&str]) -> Option<Judged> {
        let [name, program, c, d] = *words else {
            return None;
        };
        let board = boards().find(|board| board.name() == name)?;
        Some(Judged { board, program: program.parse().ok()?, c: c.parse().ok()?, d: d.parse().ok()? })
    }

    fn judge(&self) {
        let rows = self.board.moves(&mut Random::new(1), self.d, self.c);
        let program = &mut programs(self.c, self.d)[self.program];
        program.ask(&Call::Load { c: self.c, d: self.d, rows });
        bench_judges(program.as_mut());
    }

    /// The instructions for each move.
    fn instructions(&self) -> Option<f64> {
        let valgrind = ["--tool=callgrind", "--callgrind-out-file=/dev/null", "--toggle-collect=bench_judges"];
        let own = std::env::current_exe().ok()?;
        let run = Command::new("valgrind").args(valgrind).arg(own).arg(JUDGE).args(self.words()).output().ok()?;
        let said = String::from_utf8_lossy(&run.stderr);
        assert!(run.status.success(), "{said}");
        let (_, collected) = said.split_once("Collected : ")?;
        let all: f64 = collected.split_whitespace().next()?.parse().ok()?;
        Some(all / self.c as f64)
    }
}

/// What is done under valgrind. It has a thread of its own: where the first thread's stack starts depends on the environment, and
/// on that how many instructions it takes to fill an array.
pub fn judge(words: &[&str]) {
    let judged = Judged::of_words(words).expect("a board, a program, C and d");
    std::thread::spawn(move || judged.judge()).join().expect("the board is judged");
}

pub fn print() {
    if Command::new("valgrind").arg("--version").output().is_err() {
        eprintln!("valgrind counts the instructions, and is not installed");
        std::process::exit(1);
    }
    print_title("Instructions a move to judge the memory", &DIMENSIONS);
    print_heading(&format!("| board |{}", SIZES.map(|c| format!(" at {c} | of (b) |")).concat()));
    for board in boards() {
        eprintln!("{}", board.name());
        let mut row = format!("| {} |", board.name());
        for (c, program) in SIZES.into_iter().flat_map(|c| [(c, LIBRARY), (c, PLAIN)]) {
            let counts = DIMENSIONS.map(|d| Judged { board, program, c, d }.instructions());
            row += &format!(" {} |", cell(counts.into_iter(), rounded));
        }
        println!("{row}");
    }
}
