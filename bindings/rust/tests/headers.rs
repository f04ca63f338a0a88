//! The structs and the words of Rust are those of the headers: bindings/c/headers.c, compiled here, prints them.
use dolzhev::Refusal;
use dolzhev_sys::{AddressAnswer, AddressWords, Answer, BlockHours, Costs, CostsAnswer, Move, RegionAnswer, Row};
use dolzhev_sys::{Window, BLOCKS, WEEK_MINUTES, WINDOWS};
use std::mem::{align_of, offset_of, size_of};
use std::path::Path;
use std::process::{Command, Output};

fn size<T>(name: &str) -> String {
    format!("{name} {} {}", size_of::<T>(), align_of::<T>())
}

fn field<T>(name: &str, offset: usize) -> String {
    format!("{name} {offset} {}", size_of::<T>())
}

fn board_structs() -> Vec<String> {
    vec![
        size::<Move>("dolzhev_move"),
        field::<u16>("dolzhev_move.number", offset_of!(Move, number)),
        field::<u16>("dolzhev_move.block", offset_of!(Move, block)),
        field::<Costs>("dolzhev_move.costs", offset_of!(Move, costs)),
        size::<Row>("dolzhev_row"),
        field::<u16>("dolzhev_row.mark", offset_of!(Row, mark)),
        field::<u16>("dolzhev_row.number", offset_of!(Row, number)),
        field::<Costs>("dolzhev_row.costs", offset_of!(Row, costs)),
        size::<Window>("dolzhev_window"),
        field::<u16>("dolzhev_window.start", offset_of!(Window, start)),
        field::<u16>("dolzhev_window.end", offset_of!(Window, end)),
        size::<BlockHours>("dolzhev_block_hours"),
        field::<u16>("dolzhev_block_hours.count", offset_of!(BlockHours, count)),
        field::<[Window; WINDOWS]>("dolzhev_block_hours.windows", offset_of!(BlockHours, windows)),
        size::<Answer>("dolzhev_answer"),
        field::<usize>("dolzhev_answer.refusal", offset_of!(Answer, refusal)),
        field::<usize>("dolzhev_answer.detail", offset_of!(Answer, detail)),
        field::<usize>("dolzhev_answer.count", offset_of!(Answer, count)),
        field::<usize>("dolzhev_answer.opened", offset_of!(Answer, opened)),
    ]
}

fn zorder_structs() -> Vec<String> {
    vec![
        size::<Costs>("dolzhev_costs"),
        size::<AddressWords>("dolzhev_address_words"),
        field::<u64>("dolzhev_address_words.upper", offset_of!(AddressWords, upper)),
        field::<u64>("dolzhev_address_words.lower", offset_of!(AddressWords, lower)),
        size::<AddressAnswer>("dolzhev_address_answer"),
        field::<usize>("dolzhev_address_answer.refusal", offset_of!(AddressAnswer, refusal)),
        field::<usize>("dolzhev_address_answer.detail", offset_of!(AddressAnswer, detail)),
        field::<AddressWords>("dolzhev_address_answer.address", offset_of!(AddressAnswer, address)),
        size::<CostsAnswer>("dolzhev_costs_answer"),
        field::<usize>("dolzhev_costs_answer.refusal", offset_of!(CostsAnswer, refusal)),
        field::<usize>("dolzhev_costs_answer.detail", offset_of!(CostsAnswer, detail)),
        field::<Costs>("dolzhev_costs_answer.costs", offset_of!(CostsAnswer, costs)),
        size::<RegionAnswer>("dolzhev_region_answer"),
        field::<usize>("dolzhev_region_answer.refusal", offset_of!(RegionAnswer, refusal)),
        field::<usize>("dolzhev_region_answer.detail", offset_of!(RegionAnswer, detail)),
        field::<Costs>("dolzhev_region_answer.near_corner", offset_of!(RegionAnswer, near)),
        field::<Costs>("dolzhev_region_answer.far_corner", offset_of!(RegionAnswer, far)),
        field::<usize>("dolzhev_region_answer.side", offset_of!(RegionAnswer, side)),
    ]
}

fn numbers() -> Vec<String> {
    let numbers = [("DOLZHEV_BLOCKS", BLOCKS), ("DOLZHEV_WINDOWS", WINDOWS), ("DOLZHEV_WEEK_MINUTES", WEEK_MINUTES)];
    numbers.map(|(name, number)| format!("{name} {number}")).to_vec()
}

/// The words of each refusal, with no detail; those of 8 and 12 always have one.
fn refusals() -> Vec<String> {
    let place = None;
    let refusals = [
        Refusal::ShortMemory,
        Refusal::OutOfRange,
        Refusal::Unsound,
        Refusal::NumberTooLarge { place },
        Refusal::NumberTwice { place },
        Refusal::NumberAbsent,
        Refusal::BadArgument { place },
        Refusal::FewRows { needed: 5 },
        Refusal::BlockTooLarge { place },
        Refusal::BadHours { block: 5 },
    ];
    let words = |number: usize| match refusals.iter().find(|refusal| refusal.number() == number) {
        Some(refusal) => refusal.to_string().replace(" (5)", "").replace(" (block 5)", ""),
        None if number == 0 => "accepted".to_string(),
        None => "no refusal has this number".to_string(),
    };
    (0..=13).map(|number| format!("{number} {}", words(number))).collect()
}

fn succeeded(output: Output) -> String {
    assert!(output.status.success(), "{}", String::from_utf8_lossy(&output.stderr));
    String::from_utf8(output.stdout).unwrap()
}

/// What a C program of bindings/c prints; the compiler is `CC`, or cc.
fn printed(source: &str) -> String {
    let bindings = Path::new(env!("CARGO_MANIFEST_DIR")).parent().unwrap();
    let program = Path::new(env!("CARGO_TARGET_TMPDIR")).join("headers");
    let compiler = std::env::var("CC").unwrap_or("cc".to_string());
    let mut compile = Command::new(compiler);
    compile.args(["-std=c11", "-Wall", "-Wextra", "-Werror", "-I"]).arg(bindings.join("../include"));
    compile.arg("-o").arg(&program).arg(bindings.join("c").join(source));
    succeeded(compile.output().expect("a C compiler"));
    succeeded(Command::new(program).output().unwrap())
}

#[test]
fn structs_and_words_of_the_headers() {
    let expected = [board_structs(), zorder_structs(), numbers(), refusals()].concat();
    let printed = printed("headers.c");
    assert_eq!(printed.lines().collect::<Vec<_>>(), expected);
}

/// The header's own table.
#[test]
fn sizes_as_documented() {
    assert_eq!([size_of::<Move>(), size_of::<Row>(), size_of::<Answer>(), size_of::<Costs>()], [20, 20, 32, 16]);
    assert_eq!([size_of::<Window>(), size_of::<BlockHours>()], [4, 18]);
    assert_eq!([size_of::<AddressAnswer>(), size_of::<CostsAnswer>(), size_of::<RegionAnswer>()], [32, 32, 56]);
    assert_eq!([align_of::<Move>(), align_of::<Row>(), align_of::<BlockHours>()], [2, 2, 2]);
}

/// The detail, where there is one.
#[test]
fn words_with_a_detail() {
    let taken = Refusal::NumberTwice { place: Some(3) };
    assert_eq!(taken.to_string(), "the number is taken (row 3)");
    assert_eq!(Refusal::FewRows { needed: 4 }.to_string(), "more rows are needed than lent (4)");
    assert_eq!(Refusal::BlockTooLarge { place: Some(3) }.to_string(), "the block is above 63 (row 3)");
    assert!(Refusal::BadHours { block: 9 }.to_string().ends_with(" (block 9)"));
}
