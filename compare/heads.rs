//! The classes of heads, and bits of each.

use second::made::dice::Dice;

/// The names of the classes.
pub const CLASSES: &[&str] = &[
    "zero",
    "negative zero",
    "subnormal above 0",
    "subnormal below 0",
    "level above 0",
    "level below 0",
    "level less than 1 µm above 0",
    "level less than 1 µm below 0",
    "10,000 m",
    "-10,000 m",
    "next below 10,000 m in size",
    "next above 10,000 m",
    "next below -10,000 m",
    "larger than 10,000 m",
    "smaller than -10,000 m",
    "dry",
    "beside dry",
    "inactive",
    "beside inactive",
    "infinity",
    "negative infinity",
    "quiet NaN",
    "quiet NaN, sign set",
    "signalling NaN",
    "signalling NaN, sign set",
];

/// The class of a head's bits.
pub fn class(bits: u32) -> &'static str {
    let below = bits >> 31 == 1;
    let by_sign = |above, negative| if below { negative } else { above };
    match (bits, bits & 0x7fff_ffff) {
        (0xf149_f2ca, _) => "dry",
        (0x7149_f2ca, _) => "inactive",
        (0xf149_f2c9 | 0xf149_f2cb, _) => "beside dry",
        (0x7149_f2c9 | 0x7149_f2cb, _) => "beside inactive",
        (_, 0) => by_sign("zero", "negative zero"),
        (_, 1..=0x007f_ffff) => by_sign("subnormal above 0", "subnormal below 0"),
        // 358637bd is the float nearest to a millionth of a metre.
        (_, 0x0080_0000..=0x3586_37bc) => {
            by_sign("level less than 1 µm above 0", "level less than 1 µm below 0")
        }
        (_, 0x461c_3fff) => "next below 10,000 m in size",
        (_, 0x461c_4000) => by_sign("10,000 m", "-10,000 m"),
        (_, 0x461c_4001) => by_sign("next above 10,000 m", "next below -10,000 m"),
        (_, 0x7f80_0000) => by_sign("infinity", "negative infinity"),
        (_, 0x7fc0_0000..) => by_sign("quiet NaN", "quiet NaN, sign set"),
        (_, 0x7f80_0001..) => by_sign("signalling NaN", "signalling NaN, sign set"),
        (_, 0x461c_4002..) => by_sign("larger than 10,000 m", "smaller than -10,000 m"),
        _ => by_sign("level above 0", "level below 0"),
    }
}

/// The bits of a head, each class about as often as another.
pub fn made(dice: &mut Dice) -> u32 {
    let sign = (dice.below(2) as u32) << 31;
    let any = dice.roll() as u32;
    let within = |low: u32, high: u32| low + any % (high - low + 1);
    let size = match dice.below(13) {
        0 => 0,
        1 => within(1, 0x007f_ffff),
        2 => dice.pick(&[1, 0x007f_ffff, 0x0080_0000, 0x3586_37bc, 0x3586_37bd, 0x3586_37be]),
        3 => within(0x0080_0000, 0x3586_37bc),
        4 | 5 => within(0x3586_37bd, 0x461c_3ffe),
        6 => dice.pick(&[0x461c_3fff, 0x461c_4000, 0x461c_4001]),
        7 => within(0x461c_4002, 0x7f7f_ffff),
        8 => dice.pick(&[0x7149_f2c9, 0x7149_f2ca, 0x7149_f2ca, 0x7149_f2cb]),
        9 => 0x7f80_0000,
        10 => within(0x7f80_0001, 0x7fbf_ffff),
        11 => within(0x7fc0_0000, 0x7fff_ffff),
        // Whole metres and halves, quarters and so on, whose µm are exact.
        _ => (within(0, 40_000) as f32 / 4.0).to_bits(),
    };
    sign | size
}
