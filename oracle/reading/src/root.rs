//! 01, "Numbers": "For finite x above 0 the root is the nearest f64 to the exact
//! root, defined over whole numbers by comparing squares. Both zeros keep their
//! sign. Negative, infinite or NaN input is refused (9)." 02's No. 4 moves none
//! of it.

/// The weight of the first of a normal number's 53 digits.
const LEAD: u64 = 1 << 52;

/// Whether r is what is answered for x; none is the refusal.
pub fn is_root(x: f64, r: Option<f64>) -> bool {
    match r {
        None => x.is_nan() || x.is_infinite() || x < 0.0,
        Some(r) if x == 0.0 => r.to_bits() == x.to_bits(),
        Some(r) => x.is_finite() && x > 0.0 && r.is_normal() && r > 0.0 && is_nearest(x, r),
    }
}

/// The points half way from r to the f64 on either side of it lie on their own
/// sides of the exact root: so do their squares, of x. All are counted in
/// quarters of r's last digit, and the f64 below a power of two is half as near.
fn is_nearest(x: f64, r: f64) -> bool {
    let (digits, exponent) = whole(x);
    let (root_digits, root_exponent) = whole(r);
    let below = 4 * root_digits - if root_digits == LEAD { 1 } else { 2 };
    let above = 4 * root_digits + 2;
    let shift = exponent - 2 * (root_exponent - 2);
    if shift < 0 || shift >= u128::from(digits).leading_zeros() as i32 {
        return false; // r squared is far off
    }
    let x = u128::from(digits) << shift;
    square(below) < x && x < square(above)
}

fn square(n: u64) -> u128 {
    u128::from(n) * u128::from(n)
}

/// x above 0 as digits * 2^exponent.
fn whole(x: f64) -> (u64, i32) {
    let (field, digits) = (x.to_bits() / LEAD, x.to_bits() % LEAD);
    match field {
        0 => (digits, -1074),
        _ => (digits + LEAD, field as i32 - 1075),
    }
}
