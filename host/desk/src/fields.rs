//! Fields: crates/desk/src/fields.rt.

use crate::calls;

/// One of the two fields of a frame. The numbers are the desk's.
#[derive(Debug, Clone, Copy, PartialEq, Eq)]
pub enum Parity {
    /// Rows 0, 2, 4 and so on.
    Top = 0,
    /// Rows 1, 3, 5 and so on.
    Bottom = 1,
}

impl Parity {
    /// The frame's other field.
    pub fn other(self) -> Self {
        match self {
            Self::Top => Self::Bottom,
            Self::Bottom => Self::Top,
        }
    }

    /// The desk's number of a field, or that of none.
    pub(crate) fn number_or_none(field: Option<Self>) -> u32 {
        field.map_or(2, |field| field as u32)
    }
}

/// What a picture of a stream holds. The numbers are the desk's.
#[derive(Debug, Clone, Copy, PartialEq, Eq)]
pub enum Structure {
    /// Both fields.
    Frame = 0,
    TopField = 1,
    BottomField = 2,
}

/// The field of a picture that comes first in time: a whole frame's flag decides, and a single
/// field is its own. Nothing is refused: the call gives 3 for a structure or a flag that names
/// nothing, and these types have no such value.
pub fn first_field(structure: Structure, top_field_first: bool) -> Parity {
    let mut parity = 0;
    let number = calls::first_field(structure as u8, top_field_first.into(), &mut parity);
    match (number, parity) {
        (0, 0) => Parity::Top,
        (0, 1) => Parity::Bottom,
        other => unreachable!("desk_first_field names a field of these, and gave {other:?}"),
    }
}

#[cfg(test)]
mod tests {
    use super::{Parity, Structure, calls, first_field};

    #[test]
    fn a_frame_goes_by_its_flag_and_a_field_by_itself() {
        assert_eq!(first_field(Structure::Frame, true), Parity::Top);
        assert_eq!(first_field(Structure::Frame, false), Parity::Bottom);
        for flag in [false, true] {
            assert_eq!(first_field(Structure::TopField, flag), Parity::Top);
            assert_eq!(first_field(Structure::BottomField, flag), Parity::Bottom);
        }
        for (structure, flag) in [(3, 0), (0, 2)] {
            let mut parity = 9;
            let number = calls::first_field(structure, flag, &mut parity);
            assert_eq!((number, parity), (3, 9));
        }
    }

    #[test]
    fn each_field_is_the_others_other() {
        assert_eq!(Parity::Top.other(), Parity::Bottom);
        assert_eq!(Parity::Bottom.other(), Parity::Top);
    }
}
