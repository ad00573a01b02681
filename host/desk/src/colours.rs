//! Colour: crates/desk/src/colours.rt.

use crate::calls::Conversion;
use crate::{Refusal, calls};

/// Which red, green and blue a picture's colours are made of. The numbers are the desk's.
#[derive(Debug, Clone, Copy, PartialEq, Eq)]
pub enum Primaries {
    /// High definition.
    Bt709 = 0,
    /// Ultra high definition.
    Bt2020 = 1,
}

/// Luma, cb and cr, as [`value`](crate::value) gives them, to red, green and blue within 0 to 1.
/// The nine numbers for BT.709 in 8 bits stand in examples/desk.rs. Refused with 8 where one of them
/// or of the three samples is out of its range.
pub fn rgb(conversion: Conversion, [y, cb, cr]: [f32; 3]) -> Result<[f32; 3], Refusal> {
    let mut rgb = [0.0; 3];
    let [red, green, blue] = &mut rgb;
    Refusal::check(calls::to_rgb(conversion, y, cb, cr, red, green, blue))?;
    Ok(rgb)
}

/// A value as a byte: 1.0 and more is 255, 0.0 and less is 0, and so is a NaN. Nothing is refused.
pub fn quantise(value: f32) -> u8 {
    calls::quantise(value)
}

/// The weights of red, green and blue in luma. Nothing is refused: the call gives 3 for primaries
/// that it does not know, and [`Primaries`] has no such value.
pub fn luma_weights(primaries: Primaries) -> [f32; 3] {
    let mut weights = [0.0; 3];
    let [red, green, blue] = &mut weights;
    let number = calls::luma(primaries as u8, red, green, blue);
    assert_eq!(number, 0, "desk_luma knows {primaries:?}");
    weights
}

#[cfg(test)]
mod tests {
    use super::{Conversion, Primaries, calls, luma_weights, quantise, rgb};
    use crate::Refusal;

    const CONVERSION: Conversion = Conversion {
        luma_offset: 0.0,
        luma_gain: 1.0,
        chroma_offset: 0.5,
        chroma_gain: 1.0,
        kr: 0.25,
        kb: 0.125,
        luma_lift: 0.0,
        chroma_cos: 1.0,
        chroma_sin: 0.0,
    };

    #[test]
    fn colours_by_hand() {
        // Without colour all three are the luma; then red has 2 * 0.75 * 0.25 on
        // top, and blue 2 * 0.875 * 0.25.
        assert_eq!(rgb(CONVERSION, [0.5; 3]), Ok([0.5; 3]));
        let found = rgb(CONVERSION, [0.25, 0.75, 0.75]).expect("all within");
        assert_eq!((found[0], found[2]), (0.625, 0.6875));
        let refused = rgb(CONVERSION, [f32::NAN, 0.5, 0.5]);
        assert_eq!(refused.map_err(Refusal::number), Err(8));
        let steep = Conversion {
            kb: 0.5,
            ..CONVERSION
        };
        let refused = rgb(steep, [0.5; 3]);
        assert_eq!(refused.map_err(Refusal::number), Err(8));
    }

    #[test]
    fn bytes_and_weights_by_hand() {
        assert_eq!([0.5, 1.0, -3.0, f32::NAN].map(quantise), [128, 255, 0, 0]);
        let high = luma_weights(Primaries::Bt709);
        assert_eq!(high, [0.212_639, 0.715_169, 0.072_192]);
        let ultra_high = luma_weights(Primaries::Bt2020);
        assert_eq!(ultra_high, [0.262_700, 0.678_000, 0.059_300]);
    }

    #[test]
    fn a_refused_call_leaves_what_is_lent() {
        let (mut red, mut green, mut blue) = (7.0, 8.0, 9.0);
        let number = calls::luma(2, &mut red, &mut green, &mut blue);
        assert_eq!((number, red, green, blue), (3, 7.0, 8.0, 9.0));
        let number = calls::to_rgb(CONVERSION, -1.0, 0.5, 0.5, &mut red, &mut green, &mut blue);
        assert_eq!((number, red, green, blue), (8, 7.0, 8.0, 9.0));
    }
}
