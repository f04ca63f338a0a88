//! How much stack the calls take. Each runs on a stack of its own that was filled before and is looked through after.
//! `cargo test --release --test stack -- --nocapture` prints the figures; they count the few frames of Rust above the call.
use dolzhev_sys::{address, costs_of, region, AddressWords};
use reference::random::{costs, moves, Random, Shape};
use reference::{library, BlockHours, Call, Change, Given, Row, Window, BLOCKS, COSTS, WEEK_MINUTES, WINDOWS};
use std::arch::asm;
use std::collections::BTreeMap;
use std::ffi::c_void;
use std::hint::black_box;

const MOST: usize = 12 * 1024;
const STACK: usize = 64 * 1024 / 8;
const FILLER: u64 = 0xA5A5_5A5A_A5A5_5A5A;
const C: usize = 4096;
const SPAN: usize = 65536;

extern "C" fn run<F: FnMut()>(work: *mut c_void) {
    unsafe { (*work.cast::<F>())() }
}

/// The bytes of stack that the work takes.
fn depth<F: FnMut()>(mut work: F) -> usize {
    let mut stack = vec![FILLER; STACK];
    let top = stack.as_mut_ptr_range().end as usize / 16 * 16;
    unsafe {
        asm!(
            "mov r12, rsp",
            "mov rsp, {top}",
            "call {run}",
            "mov rsp, r12",
            top = in(reg) top,
            run = in(reg) run::<F>,
            in("rdi") &raw mut work,
            out("r12") _,
            clobber_abi("C"),
        );
    }
    let untouched = stack.iter().take_while(|&&word| word == FILLER).count();
    8 * (STACK - untouched)
}

fn name(call: &Call) -> &'static str {
    match call {
        Call::Load { .. } => "load",
        Call::Change(Change::Enter(_)) => "enter",
        Call::Change(Change::Withdraw(_)) => "withdraw",
        Call::Change(Change::Recost(_)) => "recost",
        Call::Preview(Change::Enter(_)) => "preview_enter",
        Call::Preview(Change::Withdraw(_)) => "preview_withdraw",
        Call::Preview(Change::Recost(_)) => "preview_recost",
        Call::List => "list",
        Call::Band(_) => "band",
        Call::Rank(_) => "rank",
        Call::OnK(_) => "on_k",
        Call::Chosen(_) => "chosen",
        Call::Hours { .. } => "hours",
    }
}

/// The most that each call took.
#[derive(Default)]
struct Depths(BTreeMap<&'static str, usize>);

impl Depths {
    fn note(&mut self, name: &'static str, bytes: usize) {
        let most = self.0.entry(name).or_default();
        *most = bytes.max(*most);
    }

    /// A call with that many rows lent, which must be answered so.
    fn ask(&mut self, memory: &mut [u8], call: &Call, lent: usize, refusal: usize) {
        let mut rows = vec![Row::default(); lent];
        let mut answered = None;
        let bytes = depth(|| answered = Some(library::ask(memory, call, &mut rows).refusal));
        assert_eq!(answered, Some(refusal), "{call:?}");
        self.note(name(call), bytes);
    }

    /// The same of a change, and before it of its preview.
    fn change(&mut self, memory: &mut [u8], change: Change, lent: usize, refusal: usize) {
        for call in change.calls() {
            self.ask(memory, &call, lent, refusal);
        }
    }

    fn check(&self) {
        for (name, bytes) in &self.0 {
            println!("{name}: {bytes} bytes");
            assert!(*bytes <= MOST, "{name} took {bytes} bytes of stack");
        }
    }
}

/// An hours call with every block open by the last of four windows.
fn hours(minute: usize) -> Call {
    let mut windows = [Window { start: 7, end: 8 }; WINDOWS];
    windows[WINDOWS - 1] = Window { start: 5000, end: 3 };
    Call::Hours { minute, hours: vec![BlockHours::of(windows); BLOCKS] }
}

fn queries(d: usize) -> [Call; 6] {
    [Call::List, Call::Band(2), Call::Rank(10), Call::OnK(d), Call::Chosen((1 << d) - 1), hours(2)]
}

/// Moves taken away, put back and changed: of many some take nodes out of the tree and some cut them.
fn changes(depths: &mut Depths, random: &mut Random, memory: &mut [u8], shape: Shape, d: usize) {
    let numbers = random.numbers(C, 100);
    for &number in &numbers {
        depths.change(memory, Change::Withdraw(number), C + 1, 0);
    }
    for &number in &numbers {
        let (block, costs) = (random.block(), costs(random, shape, d, SPAN, number.into(), C));
        depths.change(memory, Change::Enter(Given { number, block, costs }), C + 1, 0);
    }
    for number in random.numbers(C, 50) {
        let (block, costs) = (random.block(), costs(random, shape, d, SPAN, number.into(), C));
        depths.change(memory, Change::Recost(Given { number, block, costs }), C + 1, 0);
        depths.change(memory, Change::Recost(Given { number, block: 63 - block, costs }), 0, 0);
    }
}

/// On a full board, and then without one move.
fn refused(depths: &mut Depths, memory: &mut [u8], d: usize) {
    let (block, costs) = (0, [0; COSTS]);
    let (taken, outside) = (7, C as u16);
    for (number, refusal) in [(outside, 4), (taken, 5)] {
        depths.change(memory, Change::Enter(Given { number, block, costs }), C + 1, refusal);
    }
    depths.change(memory, Change::Recost(Given { number: taken, block, costs }), 0, 8);
    depths.change(memory, Change::Withdraw(taken), C + 1, 0);
    depths.change(memory, Change::Enter(Given { number: taken, block, costs }), 0, 8);
    for (number, refusal) in [(outside, 4), (taken, 6)] {
        depths.change(memory, Change::Withdraw(number), C + 1, refusal);
        depths.change(memory, Change::Recost(Given { number, block, costs }), C + 1, refusal);
    }
    depths.change(memory, Change::Enter(Given { number: taken, block: 64, costs }), C + 1, 11);
    depths.change(memory, Change::Recost(Given { number: taken, block: 64, costs }), C + 1, 11);
    if d < COSTS {
        depths.change(memory, Change::Enter(Given { number: taken, block, costs: [1; COSTS] }), C + 1, 7);
    }
    for call in [Call::Band(C), Call::Rank(0), Call::OnK(0), Call::Chosen(0), hours(WEEK_MINUTES)] {
        depths.ask(memory, &call, C + 1, 7);
    }
    let fifth = BlockHours { count: 5, ..BlockHours::default() };
    depths.ask(memory, &Call::Hours { minute: 2, hours: vec![fifth] }, C + 1, 12);
    for call in queries(d) {
        depths.ask(memory, &call, 0, 8);
    }
}

/// Every call on memory of which one mark is wrong.
fn unsound(depths: &mut Depths, memory: &mut [u8], d: usize) {
    let given = Given { number: 7, ..Given::default() };
    memory[16 + 3 * C] ^= 1;
    for change in [Change::Enter(given), Change::Withdraw(7), Change::Recost(given)] {
        depths.change(memory, change, C + 1, 3);
    }
    for call in queries(d) {
        depths.ask(memory, &call, C + 1, 3);
    }
}

fn loads(depths: &mut Depths, random: &mut Random, shape: Shape, d: usize) -> Vec<u8> {
    let mut memory = vec![0; 64 * C + 1024];
    let rows = moves(random, shape, d, SPAN, C, C);
    depths.ask(&mut memory, &Call::Load { c: C, d, rows: rows.clone() }, 0, 0);
    let twice = [&rows[..], &rows[..1]].concat();
    for (c, rows, refusal) in [(C + 1, &rows, 2), (C - 1, &rows, 4), (C, &twice, 5)] {
        depths.ask(&mut memory, &Call::Load { c, d, rows: rows.clone() }, 0, refusal);
    }
    depths.ask(&mut memory[1..], &Call::Load { c: C, d, rows }, 0, 1);
    memory
}

#[test]
fn calls_on_a_board() {
    let mut depths = Depths::default();
    let mut random = Random::new(1);
    for shape in [Shape::Uniform, Shape::AntiCorrelated, Shape::AllListed] {
        for d in [2, 5, COSTS] {
            let mut memory = loads(&mut depths, &mut random, shape, d);
            for call in queries(d) {
                depths.ask(&mut memory, &call, C, 0);
            }
            changes(&mut depths, &mut random, &mut memory, shape, d);
            refused(&mut depths, &mut memory, d);
            unsound(&mut depths, &mut memory, d);
        }
    }
    assert_eq!(depths.0.len(), 13, "a call was not made");
    depths.check();
}

#[test]
fn calls_on_addresses() {
    let mut depths = Depths::default();
    let (least, greatest) = (AddressWords::default(), AddressWords::from(u128::MAX));
    for d in [0, 2, 5, COSTS] {
        depths.note("address", depth(|| _ = black_box(address(d, [1; COSTS]))));
        depths.note("costs_of", depth(|| _ = black_box(costs_of(d, greatest))));
        depths.note("region", depth(|| _ = black_box(region(d, least, greatest))));
    }
    depths.check();
}
