//! The operators of Figures 4.4 to 4.14, in both directions.
//!
//! `inverse` holds the figures as printed. `forward` holds the same lines from last to first, each
//! undone. A `Number` reduces every sum, difference, negation and product into the signed 32-bit range,
//! so that the lines read as in the figures, whether or not it tells that the reduction changed one.

use crate::number::Number;

/// A 4 × 4 block: coefficient or sample k is row k div 4, column k mod 4.
pub type Block = [i32; 16];

/// Coefficient k goes to place `INVERSE_REORDER[k]` before the inverse core transform.
pub const INVERSE_REORDER: [usize; 16] = [0, 8, 4, 13, 2, 15, 3, 14, 1, 12, 5, 9, 7, 11, 6, 10];

/// The number at place k becomes coefficient `FORWARD_REORDER[k]` after the forward core transform.
pub const FORWARD_REORDER: [usize; 16] = [0, 8, 4, 6, 2, 10, 14, 12, 1, 11, 15, 13, 9, 3, 7, 5];

#[inline]
fn reorder<N: Number>(block: [N; 16], places: &[usize; 16]) -> [N; 16] {
    let mut reordered = block;
    for (number, &place) in block.into_iter().zip(places) {
        reordered[place] = number;
    }
    reordered
}

/// The operators as the figures print them: from coefficients towards samples.
pub mod inverse {
    use super::*;

    /// Figure 4.4.
    pub fn hadamard<N: Number>(numbers: [N; 4], r: i32) -> [N; 4] {
        let [mut a, mut b, mut c, mut d] = numbers;
        a += d;
        b -= c;
        let t1 = (a - b + r) >> 1;
        let t2 = c;
        c = t1 - d;
        d = t1 - t2;
        a -= d;
        b += c;
        [a, b, c, d]
    }

    /// Figure 4.5.
    pub fn odd<N: Number>(numbers: [N; 4]) -> [N; 4] {
        let [mut a, mut b, mut c, mut d] = numbers;
        b += d;
        a -= c;
        d -= b >> 1;
        c += (a + 1) >> 1;
        a -= (b * 3 + 4) >> 3;
        b += (a * 3 + 4) >> 3;
        c -= (d * 3 + 4) >> 3;
        d += (c * 3 + 4) >> 3;
        c -= (b + 1) >> 1;
        d = ((a + 1) >> 1) - d;
        b += c;
        a -= d;
        [a, b, c, d]
    }

    /// Figure 4.6.
    pub fn odd_odd<N: Number>(numbers: [N; 4]) -> [N; 4] {
        let [mut a, mut b, mut c, mut d] = numbers;
        d += a;
        c -= b;
        let t1 = d >> 1;
        let t2 = c >> 1;
        a -= t1;
        b += t2;
        a -= (b * 3 + 3) >> 3;
        b += (a * 3 + 3) >> 2;
        a -= (b * 3 + 4) >> 3;
        b -= t2;
        a += t1;
        c += b;
        d -= a;
        b = -b;
        c = -c;
        [a, b, c, d]
    }

    /// Figure 4.9.
    pub fn rotation<N: Number>(numbers: [N; 2]) -> [N; 2] {
        let [mut a, mut b] = numbers;
        a -= (b + 1) >> 1;
        b += (a + 1) >> 1;
        [a, b]
    }

    /// Figure 4.10.
    pub fn scale<N: Number>(numbers: [N; 2]) -> [N; 2] {
        let [mut a, mut b] = numbers;
        a += b;
        b = (a >> 1) - b;
        a += (b * 3) >> 3;
        b += (a * 3) >> 4;
        [a, b]
    }

    /// Figure 4.11.
    pub fn post_hadamard<N: Number>(numbers: [N; 4]) -> [N; 4] {
        let [mut a, mut b, mut c, mut d] = numbers;
        b -= c;
        a += (d * 3 + 4) >> 3;
        d -= b >> 1;
        c = ((a - b) >> 1) - c;
        std::mem::swap(&mut c, &mut d);
        a -= d;
        b += c;
        [a, b, c, d]
    }

    /// Figure 4.12.
    pub fn post_odd_odd<N: Number>(numbers: [N; 4]) -> [N; 4] {
        let [mut a, mut b, mut c, mut d] = numbers;
        d += a;
        c -= b;
        let t1 = d >> 1;
        let t2 = c >> 1;
        a -= t1;
        b += t2;
        a -= (b * 3 + 6) >> 3;
        b += (a * 3 + 2) >> 2;
        a -= (b * 3 + 4) >> 3;
        b -= t2;
        a += t1;
        c += b;
        d -= a;
        [a, b, c, d]
    }

    /// Figure 4.13, the overlap filter of four numbers along an edge.
    pub fn overlap_four<N: Number>(numbers: [N; 4]) -> [N; 4] {
        let [mut a, mut b, mut c, mut d] = numbers;
        a += d;
        b += c;
        d -= (a + 1) >> 1;
        c -= (b + 1) >> 1;
        [c, d] = rotation([c, d]);
        d += (a + 1) >> 1;
        c += (b + 1) >> 1;
        a -= d - ((d * 3 + 16) >> 5);
        b -= c - ((c * 3 + 16) >> 5);
        d += (a * 3 + 8) >> 4;
        c += (b * 3 + 8) >> 4;
        a += (d * 3 + 16) >> 5;
        b += (c * 3 + 16) >> 5;
        [a, b, c, d]
    }

    /// Figure 4.8, the core transform. The reorder stands in for the drawing of Figure 4.7.
    pub fn core<N: Number>(coefficients: [N; 16]) -> [N; 16] {
        let mut v = reorder(coefficients, &INVERSE_REORDER);
        [v[0], v[1], v[4], v[5]] = hadamard([v[0], v[1], v[4], v[5]], 1);
        [v[2], v[3], v[6], v[7]] = odd([v[2], v[3], v[6], v[7]]);
        [v[8], v[12], v[9], v[13]] = odd([v[8], v[12], v[9], v[13]]);
        [v[10], v[11], v[14], v[15]] = odd_odd([v[10], v[11], v[14], v[15]]);
        [v[0], v[3], v[12], v[15]] = hadamard([v[0], v[3], v[12], v[15]], 0);
        [v[5], v[6], v[9], v[10]] = hadamard([v[5], v[6], v[9], v[10]], 0);
        [v[1], v[2], v[13], v[14]] = hadamard([v[1], v[2], v[13], v[14]], 0);
        [v[4], v[7], v[8], v[11]] = hadamard([v[4], v[7], v[8], v[11]], 0);
        v
    }

    /// Figure 4.14, the overlap filter of a 4 × 4 square. Its calls of Figure 4.11 carry a fifth
    /// argument, 0, which that figure does not take.
    #[rustfmt::skip]
    pub fn overlap_square<N: Number>(square: [N; 16]) -> [N; 16] {
        let [mut a, mut b, mut c, mut d,
             mut e, mut f, mut g, mut h,
             mut i, mut j, mut k, mut l,
             mut m, mut n, mut o, mut p] = square;
        [a, d, m, p] = hadamard([a, d, m, p], 0);
        [b, c, n, o] = hadamard([b, c, n, o], 0);
        [e, h, i, l] = hadamard([e, h, i, l], 0);
        [f, g, j, k] = hadamard([f, g, j, k], 0);
        [n, m] = rotation([n, m]);
        [j, i] = rotation([j, i]);
        [h, d] = rotation([h, d]);
        [g, c] = rotation([g, c]);
        [k, l, o, p] = post_odd_odd([k, l, o, p]);
        [a, p] = scale([a, p]);
        [b, o] = scale([b, o]);
        [e, l] = scale([e, l]);
        [f, k] = scale([f, k]);
        [a, d, m, p] = post_hadamard([a, d, m, p]);
        [b, c, n, o] = post_hadamard([b, c, n, o]);
        [e, h, i, l] = post_hadamard([e, h, i, l]);
        [f, g, j, k] = post_hadamard([f, g, j, k]);
        [a, b, c, d,
         e, f, g, h,
         i, j, k, l,
         m, n, o, p]
    }
}

/// The same operators undone, line by line from last to first: from samples towards coefficients.
pub mod forward {
    use super::*;

    /// Figure 4.4 undone.
    pub fn hadamard<N: Number>(numbers: [N; 4], r: i32) -> [N; 4] {
        let [mut a, mut b, mut c, mut d] = numbers;
        b -= c;
        a += d;
        // a and b are again what t1 was made of, so t1 can be made again.
        let t1 = (a - b + r) >> 1;
        let t2 = t1 - d;
        d = t1 - c;
        c = t2;
        b += c;
        a -= d;
        [a, b, c, d]
    }

    /// Figure 4.5 undone.
    pub fn odd<N: Number>(numbers: [N; 4]) -> [N; 4] {
        let [mut a, mut b, mut c, mut d] = numbers;
        a += d;
        b -= c;
        d = ((a + 1) >> 1) - d;
        c += (b + 1) >> 1;
        d -= (c * 3 + 4) >> 3;
        c += (d * 3 + 4) >> 3;
        b -= (a * 3 + 4) >> 3;
        a += (b * 3 + 4) >> 3;
        c -= (a + 1) >> 1;
        d += b >> 1;
        a += c;
        b -= d;
        [a, b, c, d]
    }

    /// Figure 4.6 undone.
    pub fn odd_odd<N: Number>(numbers: [N; 4]) -> [N; 4] {
        let [mut a, mut b, mut c, mut d] = numbers;
        c = -c;
        b = -b;
        d += a;
        c -= b;
        // c and d are again what t1 and t2 were made of.
        let t1 = d >> 1;
        let t2 = c >> 1;
        a -= t1;
        b += t2;
        a += (b * 3 + 4) >> 3;
        b -= (a * 3 + 3) >> 2;
        a += (b * 3 + 3) >> 3;
        b -= t2;
        a += t1;
        c += b;
        d -= a;
        [a, b, c, d]
    }

    /// Figure 4.9 undone.
    pub fn rotation<N: Number>(numbers: [N; 2]) -> [N; 2] {
        let [mut a, mut b] = numbers;
        b -= (a + 1) >> 1;
        a += (b + 1) >> 1;
        [a, b]
    }

    /// Figure 4.10 undone.
    pub fn scale<N: Number>(numbers: [N; 2]) -> [N; 2] {
        let [mut a, mut b] = numbers;
        b -= (a * 3) >> 4;
        a -= (b * 3) >> 3;
        b = (a >> 1) - b;
        a -= b;
        [a, b]
    }

    /// Figure 4.11 undone.
    pub fn post_hadamard<N: Number>(numbers: [N; 4]) -> [N; 4] {
        let [mut a, mut b, mut c, mut d] = numbers;
        b -= c;
        a += d;
        std::mem::swap(&mut c, &mut d);
        c = ((a - b) >> 1) - c;
        d += b >> 1;
        a -= (d * 3 + 4) >> 3;
        b += c;
        [a, b, c, d]
    }

    /// Figure 4.12 undone.
    pub fn post_odd_odd<N: Number>(numbers: [N; 4]) -> [N; 4] {
        let [mut a, mut b, mut c, mut d] = numbers;
        d += a;
        c -= b;
        // c and d are again what t1 and t2 were made of.
        let t1 = d >> 1;
        let t2 = c >> 1;
        a -= t1;
        b += t2;
        a += (b * 3 + 4) >> 3;
        b -= (a * 3 + 2) >> 2;
        a += (b * 3 + 6) >> 3;
        b -= t2;
        a += t1;
        c += b;
        d -= a;
        [a, b, c, d]
    }

    /// Figure 4.13 undone.
    pub fn overlap_four<N: Number>(numbers: [N; 4]) -> [N; 4] {
        let [mut a, mut b, mut c, mut d] = numbers;
        b -= (c * 3 + 16) >> 5;
        a -= (d * 3 + 16) >> 5;
        c -= (b * 3 + 8) >> 4;
        d -= (a * 3 + 8) >> 4;
        b += c - ((c * 3 + 16) >> 5);
        a += d - ((d * 3 + 16) >> 5);
        c -= (b + 1) >> 1;
        d -= (a + 1) >> 1;
        [c, d] = rotation([c, d]);
        c += (b + 1) >> 1;
        d += (a + 1) >> 1;
        b -= c;
        a -= d;
        [a, b, c, d]
    }

    /// Figure 4.8 undone.
    pub fn core<N: Number>(samples: [N; 16]) -> [N; 16] {
        let mut v = samples;
        [v[4], v[7], v[8], v[11]] = hadamard([v[4], v[7], v[8], v[11]], 0);
        [v[1], v[2], v[13], v[14]] = hadamard([v[1], v[2], v[13], v[14]], 0);
        [v[5], v[6], v[9], v[10]] = hadamard([v[5], v[6], v[9], v[10]], 0);
        [v[0], v[3], v[12], v[15]] = hadamard([v[0], v[3], v[12], v[15]], 0);
        [v[10], v[11], v[14], v[15]] = odd_odd([v[10], v[11], v[14], v[15]]);
        [v[8], v[12], v[9], v[13]] = odd([v[8], v[12], v[9], v[13]]);
        [v[2], v[3], v[6], v[7]] = odd([v[2], v[3], v[6], v[7]]);
        [v[0], v[1], v[4], v[5]] = hadamard([v[0], v[1], v[4], v[5]], 1);
        reorder(v, &FORWARD_REORDER)
    }

    /// Figure 4.14 undone.
    #[rustfmt::skip]
    pub fn overlap_square<N: Number>(square: [N; 16]) -> [N; 16] {
        let [mut a, mut b, mut c, mut d,
             mut e, mut f, mut g, mut h,
             mut i, mut j, mut k, mut l,
             mut m, mut n, mut o, mut p] = square;
        [f, g, j, k] = post_hadamard([f, g, j, k]);
        [e, h, i, l] = post_hadamard([e, h, i, l]);
        [b, c, n, o] = post_hadamard([b, c, n, o]);
        [a, d, m, p] = post_hadamard([a, d, m, p]);
        [f, k] = scale([f, k]);
        [e, l] = scale([e, l]);
        [b, o] = scale([b, o]);
        [a, p] = scale([a, p]);
        [k, l, o, p] = post_odd_odd([k, l, o, p]);
        [g, c] = rotation([g, c]);
        [h, d] = rotation([h, d]);
        [j, i] = rotation([j, i]);
        [n, m] = rotation([n, m]);
        [f, g, j, k] = hadamard([f, g, j, k], 0);
        [e, h, i, l] = hadamard([e, h, i, l], 0);
        [b, c, n, o] = hadamard([b, c, n, o], 0);
        [a, d, m, p] = hadamard([a, d, m, p], 0);
        [a, b, c, d,
         e, f, g, h,
         i, j, k, l,
         m, n, o, p]
    }
}
