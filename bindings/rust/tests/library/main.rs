//! Tests the library through the safe calls, against the specification.

mod calls;
mod examples;
mod refusals;
mod slices;
mod touched;
