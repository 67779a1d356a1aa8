//! Heads: the page's cases, and floors against exact double arithmetic.

use crate::head::{depth, head, micrometres, Head};
use crate::made::dice::Dice;

#[test]
fn the_pages_heads() {
    assert_eq!(micrometres(0x8000_0000), 0);
    assert_eq!(micrometres(0x0000_0000), 0);
    assert_eq!(micrometres(0x8000_0001), -1);
    assert_eq!(micrometres(0x0000_0001), 0);
    assert_eq!(micrometres(0x461c_4000), 10_000_000_000);
    assert_eq!(micrometres(0xc61c_4000), -10_000_000_000);
    assert_eq!(micrometres(0x410c_0000), 8_750_000);
}

#[test]
fn the_four_cases() {
    assert_eq!(head(0xf149_f2ca), Head::Dry);
    assert_eq!(head(0x7149_f2ca), Head::Inactive);
    assert_eq!(head(0x461c_4000), Head::Level(0x461c_4000));
    assert_eq!(head(0xc61c_4000), Head::Level(0xc61c_4000));
    let unusable = [
        0x461c_4001,
        0xc61c_4001,
        0x7f80_0000,
        0xff80_0000,
        0x7fc0_0000,
        0xffff_ffff,
        0x7f80_0001,
        0xf149_f2c9,
        0xf149_f2cb,
        0x7149_f2c9,
        0x7149_f2cb,
    ];
    for bits in unusable {
        assert_eq!(head(bits), Head::Unusable, "{bits:08x}");
    }
}

#[test]
fn dry_has_its_own_depth() {
    assert_eq!(depth(-10_000_000_000, 0xf149_f2ca), Some(20_000_000_000));
    assert_eq!(depth(10_000_000, 0x410c_0000), Some(1_250_000));
    assert_eq!(depth(0, 0x7149_f2ca), None);
}

/// A float has 24 bits and a million 20, so their product is exact as a double.
#[test]
fn floors_agree_with_exact_doubles() {
    let mut dice = Dice::new(7);
    for _ in 0..200_000 {
        let bits = dice.roll() as u32;
        let value = f32::from_bits(bits);
        let usable = value.abs() <= 10_000.0;
        assert_eq!(usable, head(bits) == Head::Level(bits), "{bits:08x}");
        if usable {
            assert_eq!(micrometres(bits), (f64::from(value) * 1e6).floor() as i64, "{bits:08x}");
        }
    }
}
