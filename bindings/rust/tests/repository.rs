//! What the crate says, held to the repository's other files.

use tealbobbin::air::{ChallengeId, ProcessorAuxColumn, ProcessorMainColumn};
use tealbobbin::batch::{Batch, Form};
use tealbobbin::challenges::{Challenges, Claim, SampledChallenges};
use tealbobbin::field::Element;
use tealbobbin::isa::name;
use tealbobbin::processor::{ClkJumpDiffs, MainRow};
use tealbobbin::Refusal;

/// Kind, name and opcode or place a line, as the Rattle crates have them.
const NAMES: &str = include_str!("../../../crates/list_names/stdout");

#[test]
fn names_and_places() {
    let instructions = (0..256).filter_map(|opcode| Some(format!("instruction {} {opcode}", name(opcode)?)));
    let main = ProcessorMainColumn::ALL.map(|column| format!("main {column} {}", column.main_index()));
    let auxiliary = ProcessorAuxColumn::ALL.map(|column| format!("auxiliary {column} {}", column.aux_index()));
    let challenges = ChallengeId::ALL.map(|id| format!("challenge {id} {}", id.index()));
    let ours: Vec<String> = instructions.chain(main).chain(auxiliary).chain(challenges).collect();
    let theirs: Vec<&str> = NAMES.lines().collect();
    assert_eq!(ours, theirs);
    assert_eq!((Challenges::COUNT, Challenges::SAMPLE_COUNT), (63, 59));
}

/// The example of the crate's first page, which runs as a test, without the lines that a reader does not see.
#[test]
fn readme_shows_the_example() {
    let page = include_str!("../src/lib.rs").lines().map_while(|line| line.strip_prefix("//!"));
    let page: Vec<&str> = page.map(|line| line.strip_prefix(' ').unwrap_or(line)).collect();
    let example = page.split(|&line| line == "```").nth(1).unwrap();
    let shown: String = example.iter().filter(|line| !line.starts_with("# ")).map(|line| format!("{line}\n")).collect();
    assert!(shown.contains("fn main()"));
    assert!(include_str!("../../../README.md").contains(&format!("\n```rust\n{shown}```\n")));
}

/// Bytes in hexadecimal: `A*n` is n times A, which is a byte, or bytes in brackets.
fn bytes_of(mut text: &str) -> Vec<u8> {
    let mut bytes = vec![];
    while !text.is_empty() {
        let (item, after) = match text.strip_prefix('(').and_then(|text| text.split_once(')')) {
            Some((group, after)) => (bytes_of(group), after),
            None => (vec![u8::from_str_radix(&text[..2], 16).unwrap()], &text[2..]),
        };
        let (times, after) = after.split_once(' ').unwrap_or((after, ""));
        bytes.extend(item.repeat(times.strip_prefix('*').map_or(1, |times| times.parse().unwrap())));
        text = after;
    }
    bytes
}

/// The commands that a list on the page shows, each with its place in the batch.
fn commands_in(list: &str) -> Vec<(usize, Vec<u8>)> {
    let lines = list.lines().skip(1).take_while(|line| !line.is_empty());
    lines
        .map(|line| {
            let columns: Vec<&str> = line.split("  ").map(str::trim).filter(|column| !column.is_empty()).collect();
            (columns[0].parse().unwrap(), bytes_of(columns[1]))
        })
        .collect()
}

/// The example of docs/BATCH.md in both forms, and what the page says of it.
#[test]
fn batch_page_shows_a_batch() {
    let lists: Vec<_> = include_str!("../../../docs/BATCH.md").split("    offset").skip(1).map(commands_in).collect();
    let [whole, rows] = &lists[..] else { panic!("{} lists", lists.len()) };
    let mut shown = vec![];
    for (place, command) in whole {
        assert_eq!(*place, shown.len());
        shown.extend(command);
    }
    let mut montgomery = shown.clone();
    for (place, row) in rows {
        montgomery[*place..place + row.len()].copy_from_slice(row);
    }
    let mut trace = [MainRow::ZERO; 2];
    trace[1][ProcessorMainColumn::CLK] = 1;
    let mut batch = Batch::new();
    batch.set_trace(&trace).unwrap().set_sampled(&SampledChallenges([Element::from(2); Challenges::SAMPLE_COUNT]));
    batch.set_differences(ClkJumpDiffs { op_stack: &[1, 0, 1], ram: &[], jump_stack: &[1] }).unwrap();
    batch.set_claim(Claim { program_digest: [1, 2, 3, 4, 5], input: &[7, 5], output: &[12] }).unwrap();
    for (form, shown) in [(Form::Plain, &shown), (Form::Montgomery, &montgomery)] {
        let mut written = vec![0; 2153];
        batch.write(form, &mut written).unwrap();
        assert_eq!(*shown, written);
    }
    for (first, second) in [(&shown, &montgomery), (&montgomery, &shown)] {
        let mixed = [&first[..1803], &second[1803..]].concat();
        assert_eq!(Batch::open(&mixed), Err(Refusal::CommandOutOfPlace));
    }

    // at 2^18 rows
    let high = |k: u8, at: usize| [&shown[..at], &[11, k], &shown[at..]].concat();
    let mut written = vec![0; 2155];
    batch.set_log2_height(Some(18)).unwrap().write(Form::Plain, &mut written).unwrap();
    assert_eq!(high(18, 5), written);
    for k in [0, 23] {
        assert_eq!(Batch::open(&high(k, 5)), Err(Refusal::HeightOutOfRange));
    }
    for place in [46, 55, 64, 73, 1490, 1803, 2116, 2125, 2134, 2143, 2152] {
        assert_eq!(Batch::open(&high(18, place)), Err(Refusal::CommandOutOfOrder));
        let twice = [&written[..place + 2], &written[5..7], &written[place + 2..]].concat();
        assert_eq!(Batch::open(&twice), Err(Refusal::CommandOutOfPlace));
    }

    let exchanged = [&shown[..2116], &shown[2125..2134], &shown[2116..2125], &shown[2134..]].concat();
    assert_eq!(Batch::open(&exchanged), Err(Refusal::CommandOutOfOrder));
    let exchanged = [&shown[..5], &shown[73..1490], &shown[46..73], &shown[5..46], &shown[1490..]].concat();
    assert_eq!(Batch::open(&exchanged), Err(Refusal::CommandOutOfOrder));
    for place in [46, 55, 64, 73, 1490, 1803, 2116, 2125, 2134, 2143, 2152] {
        let twice = [&shown[..place], &shown[5..46], &shown[place..]].concat();
        assert_eq!(Batch::open(&twice), Err(Refusal::CommandOutOfPlace));
    }
}
