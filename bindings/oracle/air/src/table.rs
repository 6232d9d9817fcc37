//! The processor table, and where each table begins among all columns: no operation here uses the latter.

include!(concat!(env!("OUT_DIR"), "/table.rs"));

pub mod ram {
    use twenty_first::prelude::*;

    pub const INSTRUCTION_TYPE_WRITE: BFieldElement = BFieldElement::new(0);
    pub const INSTRUCTION_TYPE_READ: BFieldElement = BFieldElement::new(1);
}

macro_rules! starts {
    ($($name:ident)*) => { $(
        pub const $name: usize = 0;
    )* };
}

starts! {
    PROGRAM_TABLE_START PROCESSOR_TABLE_START OP_STACK_TABLE_START RAM_TABLE_START JUMP_STACK_TABLE_START
    HASH_TABLE_START CASCADE_TABLE_START LOOKUP_TABLE_START U32_TABLE_START
    AUX_PROGRAM_TABLE_START AUX_PROCESSOR_TABLE_START AUX_OP_STACK_TABLE_START AUX_RAM_TABLE_START
    AUX_JUMP_STACK_TABLE_START AUX_HASH_TABLE_START AUX_CASCADE_TABLE_START AUX_LOOKUP_TABLE_START AUX_U32_TABLE_START
}
