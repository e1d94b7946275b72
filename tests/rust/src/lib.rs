//! What the native tests share.

pub mod cases;
pub mod damage;
pub mod pipe;
pub mod programs;
pub mod random;
pub mod running;
pub mod starts;
pub mod tables;
pub mod verdicts;
pub mod words;
