//! What the differential run and the fuzzer share: the library's binding, the makers of inputs and the
//! comparisons.

pub mod cases;
pub mod chance;
pub mod compare;
pub mod damage;
pub mod drafts;
pub mod inputs;
pub mod numbers;
pub mod ours;
pub mod splits;
pub mod texts;
pub mod unfit;
