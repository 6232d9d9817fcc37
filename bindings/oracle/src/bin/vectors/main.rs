//! Writes the vectors that the Rattle program `vectors` replays, to standard output: a batch for each case, and what the original makes of it.

mod cases;
mod roots;
mod runs;

use std::io::Write;

use compare::plain::batch;
use compare::plain::extension::AUX_WIDTH;
use compare::random::Random;
use runs::Case;
use tealbobbin::batch::Form;

fn contents(case: &Case) -> [&[u64]; 8] {
    let [op_stack, ram, jump_stack] = &case.differences;
    [case.trace.as_flattened(), op_stack, ram, jump_stack, &case.sampled, &case.digest, &case.input, &case.output]
}

fn batch(case: &Case) -> Vec<u8> {
    let mut bytes = vec![0; batch::length(&contents(case), case.log2_height.into())];
    assert_eq!(batch::write(contents(case), Form::Plain, case.log2_height.into(), &mut bytes), 0, "{}", case.name);
    bytes
}

fn main() -> std::io::Result<()> {
    let mut out = vec![];
    for case in cases::all(&mut Random(11)) {
        let cells = oracle::terminals(contents(&case), case.height());
        assert_eq!(cells.err().unwrap_or(0), case.number.into(), "{}", case.name);
        let bytes = batch(&case);
        out.push(case.number);
        out.extend((bytes.len() as u16).to_le_bytes());
        out.extend(bytes);
        out.extend(cells.unwrap_or([0; AUX_WIDTH]).iter().flat_map(|word| word.to_le_bytes()));
    }
    std::io::stdout().write_all(&out)
}
