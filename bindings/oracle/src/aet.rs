//! Of an execution, the trace.

use ndarray::prelude::*;
use twenty_first::prelude::*;

pub struct AlgebraicExecutionTrace {
    pub processor_trace: Array2<BFieldElement>,
}
