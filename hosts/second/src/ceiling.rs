//! The sales ceiling of a settlement period.

use crate::answers::CeilingAnswer;

const MOST: u32 = 1_000_000_000;

/// Offer O, net bilateral purchase N, net futures position V, capacity G, in kWh.
pub fn ceiling(o: u32, n: u32, v: u32, g: u32) -> CeilingAnswer {
    if o > MOST || n > MOST || v > MOST || g > MOST {
        return CeilingAnswer { answer: 12, recordable: 0 };
    }
    let (o, n, v, g) = (i128::from(o), i128::from(n), i128::from(v), i128::from(g));
    let most = (3 * (n + v)).max(50_000) + 2 * g;
    CeilingAnswer { answer: 0, recordable: if 2 * o <= most { 1 } else { 0 } }
}
