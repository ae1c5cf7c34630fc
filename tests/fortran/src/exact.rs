//! Decimals and the doubles nearest to them, by their exact decimal expansions.

/// Digits after the point that every double of magnitude 10^-9 or more is exact in.
const PLACES: usize = 120;

/// The double nearest to units / 10^places.
pub fn nearest(units: i64, places: u64) -> f64 {
    format!("{units}e-{places}").parse().expect("a number")
}

/// Digits before the point, a point, and 120 digits after it, of a magnitude.
fn of_double(x: f64) -> String {
    format!("{:.*}", PLACES, x.abs())
}

fn of_decimal(units: i64, places: u64) -> String {
    let power = 10u64.pow(places as u32);
    let (whole, part) = (units.unsigned_abs() / power, units.unsigned_abs() % power);
    let part = if places == 0 { String::new() } else { format!("{part:0>width$}", width = places as usize) };
    format!("{whole}.{part:0<width$}", width = PLACES)
}

/// A magnitude's units when rounded to d places, halves up, and whether it is a half.
fn rounded(expansion: &str, d: u64) -> (u128, bool) {
    let point = expansion.find('.').expect("a point");
    let after = &expansion[point + 1..];
    let (kept, rest) = after.split_at(d as usize);
    let units: u128 = format!("{}{}", &expansion[..point], kept).parse().expect("digits");
    let half = rest.starts_with('5') && rest[1..].bytes().all(|digit| digit == b'0');
    (units + u128::from(rest.as_bytes()[0] >= b'5'), half)
}

/// Whether the decimal is a double, or its nearest double rounds to d places as it does.
pub fn is_held(units: i64, places: u64, d: u64) -> bool {
    let (decimal, double) = (of_decimal(units, places), of_double(nearest(units, places)));
    if decimal == double {
        return true;
    }
    let (from_decimal, half) = rounded(&decimal, d);
    let (from_double, double_half) = rounded(&double, d);
    from_decimal == from_double && !half && !double_half
}

/// The units at d places, halves away from zero; None beyond 10^18 - 1.
pub fn at_places(units: i64, places: u64, d: u64) -> Option<i64> {
    let magnitude = rounded(&of_decimal(units, places), d).0;
    if magnitude > 999_999_999_999_999_999 {
        return None;
    }
    Some(magnitude as i64 * units.signum())
}

/// Of a half, the units at d places that halves to even give, where they differ.
pub fn half_to_even(units: i64, places: u64, d: u64) -> Option<i64> {
    let (magnitude, half) = rounded(&of_decimal(units, places), d);
    if !half || magnitude % 2 == 0 {
        return None;
    }
    Some((magnitude as i64 - 1) * units.signum())
}

/// Of the nearest double, the magnitude's units at d places, halves up.
pub fn double_at_places(units: i64, places: u64, d: u64) -> u128 {
    rounded(&of_double(nearest(units, places)), d).0
}
