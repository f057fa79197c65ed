//! The intra modes that intra_predict.rs matches on; no answer reaches them.

#[derive(Debug, Clone, Copy, PartialEq, Eq)]
pub enum IntraYMode {
    Dc,
    V,
    H,
    Tm,
    B,
}

#[derive(Debug, Clone, Copy, PartialEq, Eq)]
pub enum IntraUvMode {
    Dc,
    V,
    H,
    Tm,
}

#[derive(Debug, Clone, Copy, PartialEq, Eq)]
pub enum IntraBmode {
    Dc,
    Tm,
    Ve,
    He,
    Ld,
    Rd,
    Vr,
    Vl,
    Hd,
    Hu,
}
