//! The logarithm that docs/RULES.md states under "Graphs". The caller works out y = (1-p)/p.
pub fn stated(y: f64) -> f64 {
    if y <= 1.0 {
        return 0.0;
    }
    if y.is_infinite() {
        return f64::INFINITY;
    }
    // y > 1, so it is normal.
    let bits = y.to_bits();
    let k = ((bits >> 52) & 0x7ff) as i64 - 1023;
    let m = f64::from_bits((bits & 0x000f_ffff_ffff_ffff) | 0x3ff0_0000_0000_0000);
    let t = (m - 1.0) / (m + 1.0);
    let s = t * t;
    let entry = |i: i32| 1.0 / f64::from(2 * i + 1);
    let mut r = entry(15);
    for i in (0..15).rev() {
        let product = r * s;
        r = product + entry(i);
    }
    let c = f64::from_bits(0x3fe62e42fefa39ef);
    let a = (k as f64) * c;
    let b = (2.0 * t) * r;
    a + b
}
