//! F16 on its bits, since Rust has no such type yet.

/// The bits of an infinity; those above it, without the sign, are NaNs.
const INFINITY: u16 = 0x7C00;

/// The same number as an f64, which holds every F16.
pub(crate) fn number(bits: u16) -> f64 {
    let (exponent, fraction) = (u64::from(bits >> 10 & 31), u64::from(bits & 0x3FF));
    let magnitude = match exponent {
        // A fraction alone counts in steps of 2^-24.
        0 => (fraction as f64 / 16_777_216.0).to_bits(),
        31 => 0x7FF << 52 | fraction << 42,
        // 1008 is the difference of the two biases.
        _ => (exponent + 1008) << 52 | fraction << 42,
    };
    f64::from_bits(u64::from(bits >> 15) << 63 | magnitude)
}

/// The decimal of the fewest digits that rounds to the F16 and to no other, and of those the nearest to it; of two as
/// near the one farther from 0, as Rust has it for f32. It is given as the f64 next to it, whose own fewest digits are
/// the same, since they are few.
pub(crate) fn shortest(bits: u16) -> f64 {
    let magnitude = bits & !0x8000;
    if magnitude == 0 || magnitude >= INFINITY {
        return number(bits);
    }
    let decimal = shortest_magnitude(magnitude);
    if bits == magnitude {
        decimal
    } else {
        -decimal
    }
}

/// The same of an F16 above 0. What is compared are whole numbers in units of 1 / (2^25 * 5^8), as which every F16,
/// every number halfway between two, and every decimal of 8 places can be written.
fn shortest_magnitude(magnitude: u16) -> f64 {
    let exact = in_units(magnitude);
    let low = (in_units(magnitude - 1) + exact) / 2;
    let high = (exact + in_units(magnitude + 1)) / 2;
    // What is halfway rounds to the even one.
    let rounds_here = |decimal: &u64| match magnitude % 2 {
        0 => (low..=high).contains(decimal),
        _ => low < *decimal && *decimal < high,
    };
    let multiple = |step: u64| {
        let (below, above) = (exact / step * step, exact / step * step + step);
        let by_distance = if exact - below < above - exact { [below, above] } else { [above, below] };
        by_distance.into_iter().find(rounds_here)
    };
    // The larger the step of which it is a multiple, the fewer digits it has. The steps are from 10^4 down to 10^-8,
    // which is 2^17 units and less than any two F16 are apart.
    let decimal = (0..=12).rev().find_map(|power| multiple(10u64.pow(power) << 17)).unwrap_or(exact);
    (decimal >> 17) as f64 / 1e8
}

fn in_units(magnitude: u16) -> u64 {
    let (exponent, fraction) = (magnitude >> 10, u64::from(magnitude & 0x3FF));
    // Numbers without an exponent are as far apart as those of exponent 1.
    let steps = if exponent == 0 { fraction << 1 } else { (1024 + fraction) << exponent };
    steps * 5u64.pow(8)
}
