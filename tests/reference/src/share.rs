//! The running share ("Units and arithmetic"), and the share as it is exported to C.

/// The largest P, and the largest W, that the exported share takes.
pub const SHARE_LIMIT: i64 = 100_000_000_000_000_000;

/// What C sees of a refusal is this less the refusal's place.
pub const C_REFUSAL: i64 = -1_000_000_000_000_000_000;

/// Floor of `p * sum / w`, towards minus infinity; `w` is above 0.
pub fn floor_share(p: i128, sum: i128, w: i128) -> i128 {
    assert!(w > 0, "a share needs weights that total more than 0");
    // For a divisor above 0 the Euclidean quotient is the floor, also of a negative amount.
    (p * sum).div_euclid(w)
}

/// The part of `p` that falls between two sums of weights.
pub fn part(p: i128, before: i128, through: i128, w: i128) -> i128 {
    floor_share(p, through, w) - floor_share(p, before, w)
}

/// The parts of `p` over `weights`, none of them negative, their sum above 0.
pub fn running_share(p: i128, weights: &[i128]) -> Vec<i128> {
    assert!(weights.iter().all(|&w| w >= 0), "no weight is negative");
    let w: i128 = weights.iter().sum();
    let mut before = 0;
    let mut parts = Vec::with_capacity(weights.len());
    for weight in weights {
        let through = before + weight;
        parts.push(part(p, before, through, w));
        before = through;
    }
    parts
}

/// The exported share: the part, or the refusal 5 as C sees it. Its places are 1 for P, 2 for W, 3 for the sums.
pub fn share_c(p: i64, before: i64, through: i64, w: i64) -> i64 {
    if !(-SHARE_LIMIT..=SHARE_LIMIT).contains(&p) {
        return C_REFUSAL - 1;
    }
    if !(1..=SHARE_LIMIT).contains(&w) {
        return C_REFUSAL - 2;
    }
    if !(0 <= before && before <= through && through <= w) {
        return C_REFUSAL - 3;
    }
    let part = part(p.into(), before.into(), through.into(), w.into());
    i64::try_from(part).expect("a part is no larger than P and one cent")
}
