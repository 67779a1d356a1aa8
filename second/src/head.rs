//! "Head": what the 32 bits of a head say.

/// The bits that mean dry.
pub const DRY: u32 = 0xf149_f2ca;
/// The bits that mean inactive.
pub const INACTIVE: u32 = 0x7149_f2ca;
/// The bits of ten thousand metres, the largest usable size.
pub const TEN_KILOMETRES: u32 = 0x461c_4000;
/// The depth that a dry head stands for.
pub const DRY_DEPTH: i64 = 20_000_000_000;

/// What a head says; a level is kept as its bits.
#[derive(Clone, Copy, Debug, PartialEq, Eq)]
pub enum Head {
    Level(u32),
    Dry,
    Inactive,
    Unusable,
}

/// Sort the bits: the two marks first, then size; NaN and infinities are larger still.
pub fn head(bits: u32) -> Head {
    let size = bits & 0x7fff_ffff;
    match bits {
        DRY => Head::Dry,
        INACTIVE => Head::Inactive,
        _ if size > TEN_KILOMETRES => Head::Unusable,
        _ => Head::Level(bits),
    }
}

/// The greatest whole number of micrometres not above the exact value of a level.
pub fn micrometres(bits: u32) -> i64 {
    let exponent = (bits >> 23) & 0xff;
    let fraction = i128::from(bits & 0x007f_ffff);
    // A normal float has a hidden leading one, a subnormal none.
    let (whole, power) =
        if exponent == 0 { (fraction, 1) } else { (fraction + 0x0080_0000, exponent) };
    let signed = if bits >> 31 == 1 { -whole } else { whole };
    floor_halvings(signed * 1_000_000, 150 - i64::from(power))
}

/// Halve a number so many times, rounding down once at the end.
fn floor_halvings(number: i128, times: i64) -> i64 {
    if times <= 0 {
        return (number << -times) as i64;
    }
    // The number is below 2 to the 44 in size, so 100 halvings say all there is.
    let divisor = 1i128 << times.min(100);
    number.div_euclid(divisor) as i64
}

/// Depth of the water table below the top; none for inactive or unusable heads.
pub fn depth(top: i64, bits: u32) -> Option<i64> {
    match head(bits) {
        Head::Level(level) => Some(top - micrometres(level)),
        Head::Dry => Some(DRY_DEPTH),
        Head::Inactive | Head::Unusable => None,
    }
}
