//! Why a look at a leaf is refused.

#[derive(Clone, Copy, Debug, PartialEq, Eq)]
pub enum LookFault {
    Memory,
    NotALeaf,
}
