//! No profiler.

macro_rules! profiler {
    ($($what:tt)*) => {};
}

pub(crate) use profiler;
