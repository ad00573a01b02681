//! Comb: crates/desk/src/combs.rt.

use crate::{Lines, Refusal, calls};

/// How much rows differ from the rows beside them: the sum of |2 * here - up - down| over all rows
/// that have one above and one below. Codes are not shifted, and one above 2^depth - 1 counts as
/// that: so the luma of a biplanar frame deeper than 8 bits, whose codes stand in the high bits,
/// would count as full nearly everywhere, and goes through [`readback`](crate::readback) first.
/// Refused with 4 and with 6.
pub fn comb(lines: Lines<'_>) -> Result<u64, Refusal> {
    let Lines {
        bytes,
        width,
        height,
        depth,
        stride,
    } = lines;
    let mut total = 0;
    Refusal::check(calls::comb(bytes, width, height, depth, stride, &mut total))?;
    Ok(total)
}

/// The comb of the green of a picture of four bytes a pixel, as [`picture`](crate::picture()) makes
/// it. Refused with 4 and with 6.
pub fn comb_rgba(rgba: &[u8], width: u32, height: u32) -> Result<u64, Refusal> {
    let mut total = 0;
    Refusal::check(calls::comb_rgba(rgba, width, height, &mut total))?;
    Ok(total)
}

#[cfg(test)]
mod tests {
    use super::{Lines, calls, comb, comb_rgba};
    use crate::Refusal;

    /// The card of docs/RULES.md: 10, 20, 10 in one column.
    #[test]
    fn a_row_between_two_others() {
        let column = Lines::packed(&[10, 20, 10], 1, 3, 8);
        assert_eq!(comb(column), Ok(20));
        let padded = Lines {
            bytes: &[10, 99, 20, 7, 10],
            stride: 2,
            ..column
        };
        assert_eq!(comb(padded), Ok(20));
        let rgba = [1, 10, 2, 3, 4, 20, 5, 6, 7, 10, 8, 9];
        assert_eq!(comb_rgba(&rgba, 1, 3), Ok(20));

        let refused = |found: Result<u64, Refusal>| found.map_err(Refusal::number);
        assert_eq!(
            refused(comb(Lines {
                stride: 0,
                ..column
            })),
            Err(4)
        );
        let short = Lines::packed(&[10, 20], 1, 3, 8);
        assert_eq!(refused(comb(short)), Err(6));
        assert_eq!(refused(comb_rgba(&rgba, 0, 3)), Err(4));
        assert_eq!(refused(comb_rgba(&rgba[1..], 1, 3)), Err(6));
    }

    /// Of ten bits FF 07 counts as 1,023, and so does the largest word.
    #[test]
    fn codes_past_the_largest_count_as_it() {
        let of = |words: [u16; 3]| {
            let bytes = words.map(u16::to_le_bytes).concat();
            comb(Lines::packed(&bytes, 1, 3, 10))
        };
        assert_eq!(of([0x07FF, 0, 0x07FF]), Ok(2046));
        assert_eq!(of([0, 0x07FF, 0]), Ok(2046));
        assert_eq!(of([0x0400, 0x03FF, 0xFFFF]), Ok(0));
        assert_eq!(of([0x0400, 0x03FE, 0x0400]), Ok(2));
    }

    #[test]
    fn a_refused_comb_leaves_what_is_lent() {
        let mut total = 9;
        assert_eq!(calls::comb(&[10, 20], 1, 3, 8, 1, &mut total), 6);
        assert_eq!(calls::comb_rgba(&[10, 20], 1, 3, &mut total), 6);
        assert_eq!(total, 9);
    }
}
