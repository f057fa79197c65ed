//! Names that the originals import and no answer reaches; the contexts are not VP8's.

pub const MV_PROB_COUNT: usize = 19;
pub const DEFAULT_MV_CONTEXT: [[u8; MV_PROB_COUNT]; 2] = [[128; MV_PROB_COUNT]; 2];
pub type MvProbUpdates = [[Option<u8>; MV_PROB_COUNT]; 2];
