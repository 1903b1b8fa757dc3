//! The generator of the program by its name.

pub use crate::rand_core::Generator as Xoshiro256PlusPlus;
