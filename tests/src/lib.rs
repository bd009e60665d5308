//! Tests of the label book through its C interface, against a second implementation of its
//! document.
pub mod calls;
pub mod compare;
pub mod fence;
pub mod make;
pub mod plain;
pub mod programs;
pub mod random;
pub mod reference;
pub mod stack;
