// Made of include/lgm.h by python3 surface/make.py. Change that, and not this.

/// The version of the library that this crate is for, as its header has it.
pub const LIBRARY_VERSION: u32 = 5;
