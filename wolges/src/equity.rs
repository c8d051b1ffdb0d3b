// A stand-in, only for alphabet.rs to compile: no answer comes from here.

// The scores are kept in thousandths of a point.
pub const SCALE: i32 = 1000;
