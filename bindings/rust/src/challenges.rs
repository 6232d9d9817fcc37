//! The challenges: those that are sampled, and with them those that are derived from the claim.

use core::ops::{Index, IndexMut};
use core::slice::{from_mut, from_ref};

use crate::abi::{self, words, words_mut};
use crate::air::ChallengeId;
use crate::field::Element;
use crate::{answer, Refusal};

/// A program's digest.
pub type Digest = [u64; 5];

/// The challenges that are sampled, each at the place of its [`ChallengeId`]. Indexing by a derived one panics.
#[derive(Debug, Clone, PartialEq, Eq)]
#[repr(transparent)]
pub struct SampledChallenges(pub [Element; Challenges::SAMPLE_COUNT]);

impl SampledChallenges {
    /// Words that they are for [`abi`].
    pub const WORDS: usize = 3 * Challenges::SAMPLE_COUNT;
}

impl Index<ChallengeId> for SampledChallenges {
    type Output = Element;

    fn index(&self, id: ChallengeId) -> &Element {
        &self.0[id.index()]
    }
}

impl IndexMut<ChallengeId> for SampledChallenges {
    fn index_mut(&mut self, id: ChallengeId) -> &mut Element {
        &mut self.0[id.index()]
    }
}

/// What a run is claimed to do: the program, by its digest, and the words that it reads and writes.
#[derive(Debug, Clone, Copy, PartialEq, Eq)]
pub struct Claim<'a> {
    /// The program's digest.
    pub program_digest: Digest,
    /// The words read from standard input.
    pub input: &'a [u64],
    /// The words written to standard output.
    pub output: &'a [u64],
}

/// The record of all challenges, each to be had by its [`ChallengeId`].
#[derive(Debug, Clone, PartialEq, Eq)]
#[repr(transparent)]
pub struct Challenges {
    elements: [Element; Challenges::COUNT],
}

impl Challenges {
    /// How many there are.
    pub const COUNT: usize = ChallengeId::COUNT;

    /// How many of them are sampled; the rest are derived.
    pub const SAMPLE_COUNT: usize = ChallengeId::StandardInputTerminal.index();

    /// Words that the record is for [`abi`].
    pub const WORDS: usize = 3 * Challenges::COUNT;

    /// The sampled challenges followed by the terminals of input, output and byte table and the compressed digest.
    ///
    /// # Errors
    ///
    /// [`Refusal::SliceLength`] if input or output has over [`MAX_ROWS`](crate::processor::MAX_ROWS) words, then
    /// [`Refusal::WordNotBelowP`].
    pub fn new(sampled: &SampledChallenges, claim: Claim<'_>) -> Result<Challenges, Refusal> {
        let mut record = Challenges { elements: [Element::ZERO; Challenges::COUNT] };
        let number = abi::challenges(
            words(from_ref(sampled)),
            &claim.program_digest,
            claim.input,
            claim.output,
            words_mut(from_mut(&mut record)),
        );
        answer(number, record)
    }
}

impl Index<ChallengeId> for Challenges {
    type Output = Element;

    fn index(&self, id: ChallengeId) -> &Element {
        &self.elements[id.index()]
    }
}

#[cfg(test)]
mod tests {
    use super::*;
    use crate::field::P;

    const SAMPLED: SampledChallenges = SampledChallenges([Element([10, 0, 0]); Challenges::SAMPLE_COUNT]);

    #[test]
    fn each_list_to_its_terminal() {
        let claim = Claim { program_digest: [1, 2, 3, 4, 5], input: &[7, 5], output: &[8] };
        let mut sampled = SAMPLED;
        sampled[ChallengeId::U32ResultWeight] = Element([1, 2, 3]);
        let challenges = Challenges::new(&sampled, claim).unwrap();
        assert_eq!(challenges.elements[..Challenges::SAMPLE_COUNT], sampled.0);
        assert_eq!(challenges[ChallengeId::StandardInputTerminal], Element::from(175));
        assert_eq!(challenges[ChallengeId::StandardOutputTerminal], Element::from(18));
        assert_eq!(challenges[ChallengeId::CompressedProgramDigest], Element::from(112345));
    }

    #[test]
    fn words_not_below_p() {
        let claim = Claim { program_digest: [0; 5], input: &[], output: &[] };
        let refused = |sampled, claim| Challenges::new(sampled, claim).err() == Some(Refusal::WordNotBelowP);
        assert!(refused(&SAMPLED, Claim { program_digest: [P, 0, 0, 0, 0], ..claim }));
        assert!(refused(&SAMPLED, Claim { input: &[0, P], ..claim }));
        assert!(refused(&SAMPLED, Claim { output: &[P], ..claim }));
        assert!(refused(&SampledChallenges([Element([0, 0, P]); Challenges::SAMPLE_COUNT]), claim));
        assert!(!refused(&SAMPLED, claim));
    }
}
