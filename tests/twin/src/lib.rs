//! The twin: the office's rules written a second time.
//!
//! It is made from the paper 01 and the agreed readings of its open points; the numbers and lengths
//! of the C interface that 01 doesn't have (the judge's kinds of fault, the 32, 512, 192 and 296
//! places) are the header's. It shares no line with the library it is compared with, so that a
//! misreading in one of the two shows as a disagreement. It is written to be plainly right first
//! and quick second.

pub mod diagram;
pub mod jobs;
pub mod judge;
pub mod lent;
pub mod page;
pub mod planner;
pub mod sets;
pub mod text;
