//! The original's processor table.

use air::table::processor::ProcessorTable;
use ndarray::prelude::*;
use twenty_first::prelude::*;

use crate::aet::AlgebraicExecutionTrace;
use crate::challenges::Challenges;

include!(concat!(env!("OUT_DIR"), "/table.rs"));

trait TraceTable {
    type FillParam;
    type FillReturnInfo;

    fn fill(
        main_table: ArrayViewMut2<BFieldElement>,
        aet: &AlgebraicExecutionTrace,
        parameter: Self::FillParam,
    ) -> Self::FillReturnInfo;

    fn pad(main_table: ArrayViewMut2<BFieldElement>, table_len: usize);

    fn extend(main_table: ArrayView2<BFieldElement>, aux_table: ArrayViewMut2<XFieldElement>, challenges: &Challenges);
}

pub fn fill(main: ArrayViewMut2<BFieldElement>, trace: &AlgebraicExecutionTrace, differences: [Vec<BFieldElement>; 3]) {
    let [op_stack, ram, jump_stack] = differences;
    ProcessorTable::fill(main, trace, processor::ClkJumpDiffs { op_stack, ram, jump_stack });
}

pub fn pad(main: ArrayViewMut2<BFieldElement>, table_len: usize) {
    ProcessorTable::pad(main, table_len);
}

pub fn extend(main: ArrayView2<BFieldElement>, aux: ArrayViewMut2<XFieldElement>, challenges: &Challenges) {
    ProcessorTable::extend(main, aux, challenges);
}
