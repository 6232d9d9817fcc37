//! The columns of the processor table and the challenges, by the names and in the order of Triton VM's crate triton-air.

use core::fmt::{Display, Formatter, Result};

macro_rules! places {
    (
        $(#[$about:meta])*
        $name:ident, $count:literal, $index:ident {
            $($(#[$meaning:meta])* $variant:ident,)*
        }
    ) => {
        $(#[$about])*
        #[derive(Debug, Clone, Copy, PartialEq, Eq, PartialOrd, Ord, Hash)]
        #[repr(usize)]
        pub enum $name {
            $($(#[$meaning])* $variant,)*
        }

        impl $name {
            /// How many there are.
            pub const COUNT: usize = $count;

            /// All of them, each at its place.
            pub const ALL: [$name; $count] = [$($name::$variant),*];

            /// The place.
            pub const fn $index(self) -> usize {
                self as usize
            }

            /// The name, as triton-air has it.
            pub const fn name(self) -> &'static str {
                match self {
                    $($name::$variant => stringify!($variant),)*
                }
            }
        }

        impl Display for $name {
            fn fmt(&self, f: &mut Formatter<'_>) -> Result {
                f.pad(self.name())
            }
        }
    };
}

places! {
    /// A column of the main table, a word a row.
    ProcessorMainColumn, 39, main_index {
        /// The clock: the number of the cycle.
        CLK,
        /// 1 in a padding row.
        IsPadding,
        /// The instruction pointer.
        IP,
        /// The current instruction's opcode.
        CI,
        /// The current instruction's argument if it takes one, else the next one's opcode.
        NIA,
        /// Bit 0 of CI.
        IB0,
        /// Bit 1 of CI.
        IB1,
        /// Bit 2 of CI.
        IB2,
        /// Bit 3 of CI.
        IB3,
        /// Bit 4 of CI.
        IB4,
        /// Bit 5 of CI.
        IB5,
        /// Bit 6 of CI.
        IB6,
        /// The jump stack's pointer.
        JSP,
        /// The origin of the jump stack's topmost entry.
        JSO,
        /// The destination of the jump stack's topmost entry.
        JSD,
        /// The top of the stack.
        ST0,
        /// Element 1 of the stack.
        ST1,
        /// Element 2 of the stack.
        ST2,
        /// Element 3 of the stack.
        ST3,
        /// Element 4 of the stack.
        ST4,
        /// Element 5 of the stack.
        ST5,
        /// Element 6 of the stack.
        ST6,
        /// Element 7 of the stack.
        ST7,
        /// Element 8 of the stack.
        ST8,
        /// Element 9 of the stack.
        ST9,
        /// Element 10 of the stack.
        ST10,
        /// Element 11 of the stack.
        ST11,
        /// Element 12 of the stack.
        ST12,
        /// Element 13 of the stack.
        ST13,
        /// Element 14 of the stack.
        ST14,
        /// Element 15 of the stack, the last in a register.
        ST15,
        /// The pointer into the stack's memory.
        OpStackPointer,
        /// Helper variable 0.
        HV0,
        /// Helper variable 1.
        HV1,
        /// Helper variable 2.
        HV2,
        /// Helper variable 3.
        HV3,
        /// Helper variable 4.
        HV4,
        /// Helper variable 5.
        HV5,
        /// How often the row is looked up by a clock jump difference.
        ClockJumpDifferenceLookupMultiplicity,
    }
}

places! {
    /// A column of the auxiliary table, an element a row: the running argument over all entries up to that row.
    ProcessorAuxColumn, 11, aux_index {
        /// Evaluation over the words read from standard input.
        InputTableEvalArg,
        /// Evaluation over the words written to standard output.
        OutputTableEvalArg,
        /// Sum over the lookups of instructions in the program.
        InstructionLookupClientLogDerivative,
        /// Product over the elements that move between the stack's registers and its memory.
        OpStackTablePermArg,
        /// Product over the accesses to RAM.
        RamTablePermArg,
        /// Product over the rows' views of the jump stack.
        JumpStackTablePermArg,
        /// Evaluation over what is hashed.
        HashInputEvalArg,
        /// Evaluation over the digests that hashing leaves.
        HashDigestEvalArg,
        /// Evaluation over what the sponge absorbs and squeezes.
        SpongeEvalArg,
        /// Sum over the lookups of 32-bit operations.
        U32LookupClientLogDerivative,
        /// Sum over the rows that clock jump differences look up.
        ClockJumpDifferenceLookupServerLogDerivative,
    }
}

places! {
    /// A challenge: an indeterminate or a weight that is sampled, or one of the last four, which are derived from these and the claim.
    ChallengeId, 63, index {
        /// Of the evaluation that compresses the program's digest.
        CompressProgramDigestIndeterminate,
        /// Of the evaluation over standard input.
        StandardInputIndeterminate,
        /// Of the evaluation over standard output.
        StandardOutputIndeterminate,
        /// Of the lookup of instructions.
        InstructionLookupIndeterminate,
        /// Of the evaluation over what is hashed.
        HashInputIndeterminate,
        /// Of the evaluation over digests.
        HashDigestIndeterminate,
        /// Of the evaluation over the sponge's steps.
        SpongeIndeterminate,
        /// Of the product over the op stack.
        OpStackIndeterminate,
        /// Of the product over RAM.
        RamIndeterminate,
        /// Of the product over the jump stack.
        JumpStackIndeterminate,
        /// Of the lookup of 32-bit operations.
        U32Indeterminate,
        /// Of the lookup of clock jump differences.
        ClockJumpDifferenceLookupIndeterminate,
        /// Of the RAM table's contiguity argument; no column here uses it.
        RamTableBezoutRelationIndeterminate,
        /// Of IP, in the lookup of instructions.
        ProgramAddressWeight,
        /// Of CI, in the lookup of instructions.
        ProgramInstructionWeight,
        /// Of NIA, in the lookup of instructions.
        ProgramNextInstructionWeight,
        /// Of CLK, in an op-stack entry.
        OpStackClkWeight,
        /// Of IB1, in an op-stack entry.
        OpStackIb1Weight,
        /// Of the pointer, in an op-stack entry.
        OpStackPointerWeight,
        /// Of the element, in an op-stack entry.
        OpStackFirstUnderflowElementWeight,
        /// Of CLK, in a RAM entry.
        RamClkWeight,
        /// Of the pointer, in a RAM entry.
        RamPointerWeight,
        /// Of the value, in a RAM entry.
        RamValueWeight,
        /// Of the type, write or read, in a RAM entry.
        RamInstructionTypeWeight,
        /// Of CLK, in a jump-stack entry.
        JumpStackClkWeight,
        /// Of CI, in a jump-stack entry.
        JumpStackCiWeight,
        /// Of JSP, in a jump-stack entry.
        JumpStackJspWeight,
        /// Of JSO, in a jump-stack entry.
        JumpStackJsoWeight,
        /// Of JSD, in a jump-stack entry.
        JumpStackJsdWeight,
        /// Of program attestation; no column here uses it.
        ProgramAttestationPrepareChunkIndeterminate,
        /// Of program attestation; no column here uses it.
        ProgramAttestationSendChunkIndeterminate,
        /// Of the opcode, in a sponge entry.
        HashCIWeight,
        /// Of word 0, in an entry of hash input, hash digest or sponge.
        StackWeight0,
        /// Of word 1.
        StackWeight1,
        /// Of word 2.
        StackWeight2,
        /// Of word 3.
        StackWeight3,
        /// Of word 4.
        StackWeight4,
        /// Of word 5.
        StackWeight5,
        /// Of word 6.
        StackWeight6,
        /// Of word 7.
        StackWeight7,
        /// Of word 8.
        StackWeight8,
        /// Of word 9.
        StackWeight9,
        /// Of word 10; no column here uses it.
        StackWeight10,
        /// Of word 11; no column here uses it.
        StackWeight11,
        /// Of word 12; no column here uses it.
        StackWeight12,
        /// Of word 13; no column here uses it.
        StackWeight13,
        /// Of word 14; no column here uses it.
        StackWeight14,
        /// Of word 15; no column here uses it.
        StackWeight15,
        /// Between the hash and cascade tables; no column here uses it.
        HashCascadeLookupIndeterminate,
        /// Between the hash and cascade tables; no column here uses it.
        HashCascadeLookInWeight,
        /// Between the hash and cascade tables; no column here uses it.
        HashCascadeLookOutWeight,
        /// Between the cascade and lookup tables; no column here uses it.
        CascadeLookupIndeterminate,
        /// Between the cascade and lookup tables; no column here uses it.
        LookupTableInputWeight,
        /// Between the cascade and lookup tables; no column here uses it.
        LookupTableOutputWeight,
        /// Of the evaluation over the byte table.
        LookupTablePublicIndeterminate,
        /// Of the left operand, in the lookup of a 32-bit operation.
        U32LhsWeight,
        /// Of the right operand, in the lookup of a 32-bit operation.
        U32RhsWeight,
        /// Of the opcode, in the lookup of a 32-bit operation.
        U32CiWeight,
        /// Of the result, in the lookup of a 32-bit operation.
        U32ResultWeight,
        /// Derived: the evaluation over the claim's input.
        StandardInputTerminal,
        /// Derived: the evaluation over the claim's output.
        StandardOutputTerminal,
        /// Derived: the evaluation over the byte table.
        LookupTablePublicTerminal,
        /// Derived: the evaluation over the program's digest.
        CompressedProgramDigest,
    }
}
