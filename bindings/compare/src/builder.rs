//! Batches with any commands in any order.

use tealbobbin::batch::Form;
use tealbobbin::challenges::{Digest, SampledChallenges};
use tealbobbin::processor::MAIN_WIDTH;

use crate::plain::batch::{rank, row_command};

/// A batch in the making: its commands in the order in which they were added, any of them any number of times. Nothing is checked.
#[derive(Debug, Clone, Default, PartialEq, Eq)]
pub struct Builder {
    /// Each command with its operand.
    pub commands: Vec<Vec<u8>>,
}

impl Builder {
    /// Bytes as they are, in a command's place.
    pub fn raw(&mut self, bytes: &[u8]) -> &mut Builder {
        self.commands.push(bytes.to_vec());
        self
    }

    /// A command with words for its operand.
    pub fn command(&mut self, command: u8, words: &[u64]) -> &mut Builder {
        let operand = words.iter().flat_map(|word| word.to_le_bytes());
        self.commands.push([command].into_iter().chain(operand).collect());
        self
    }

    /// How many rows the trace has.
    pub fn rows(&mut self, rows: u32) -> &mut Builder {
        self.raw(&[&[1], rows.to_le_bytes().as_slice()].concat())
    }

    /// The table has 2^k rows.
    pub fn height(&mut self, k: u8) -> &mut Builder {
        self.raw(&[11, k])
    }

    /// The trace's next row.
    pub fn row(&mut self, row: &[u64; MAIN_WIDTH]) -> &mut Builder {
        self.row_as_sent(Form::Plain, row)
    }

    /// The trace's next row, from words that are in this form.
    pub fn row_as_sent(&mut self, form: Form, row: &[u64; MAIN_WIDTH]) -> &mut Builder {
        self.command(row_command(form), row)
    }

    /// A difference of the op-stack table.
    pub fn op_stack(&mut self, difference: u64) -> &mut Builder {
        self.command(3, &[difference])
    }

    /// A difference of the RAM table.
    pub fn ram(&mut self, difference: u64) -> &mut Builder {
        self.command(4, &[difference])
    }

    /// A difference of the jump-stack table.
    pub fn jump_stack(&mut self, difference: u64) -> &mut Builder {
        self.command(5, &[difference])
    }

    /// The sampled challenges.
    pub fn sampled(&mut self, words: &[u64; SampledChallenges::WORDS]) -> &mut Builder {
        self.command(6, words)
    }

    /// The program's digest.
    pub fn digest(&mut self, words: &Digest) -> &mut Builder {
        self.command(7, words)
    }

    /// The next input word.
    pub fn input(&mut self, word: u64) -> &mut Builder {
        self.command(8, &[word])
    }

    /// The next output word.
    pub fn output(&mut self, word: u64) -> &mut Builder {
        self.command(9, &[word])
    }

    /// The end of the batch.
    pub fn end(&mut self) -> &mut Builder {
        self.raw(&[0])
    }

    /// The commands in a batch's order, and each list of differences in theirs.
    pub fn ordered(&mut self) -> &mut Builder {
        self.commands.sort_by_key(|command| {
            let difference = match command[..] {
                [3..=5, ref word @ ..] => word.try_into().map_or(0, u64::from_le_bytes),
                _ => 0,
            };
            (rank(command), difference)
        });
        self
    }

    /// The batch's bytes.
    pub fn bytes(&self) -> Vec<u8> {
        self.commands.concat()
    }
}
