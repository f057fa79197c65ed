//! The macroblock that motion_comp.rs reconstructs; no answer reaches it.

#[derive(Debug, Clone, PartialEq, Eq)]
pub struct ReconstructedMb {
    pub y: [u8; 256],
    pub u: [u8; 64],
    pub v: [u8; 64],
}

impl Default for ReconstructedMb {
    fn default() -> Self {
        ReconstructedMb { y: [0; 256], u: [0; 64], v: [0; 64] }
    }
}
