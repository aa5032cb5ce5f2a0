//! The refusals, by their numbers.
use core::error::Error;
use core::fmt::{Display, Formatter, Result as Written};

/// Why there is no answer. Later versions may name more.
#[derive(Clone, Copy, Debug, PartialEq, Eq, Hash)]
#[non_exhaustive]
pub enum Refusal {
    /// 1: the case is below 0 or above 14.
    NoCase,
    /// 2: the configuration is not one of the case's.
    NoConfiguration,
    /// 3: a corner is a NaN or infinite.
    NotFinite,
    /// 4: the face number is not -6..-1 or 1..6.
    NoFace,
    /// 5: the edge number is not 0..11.
    NoEdge,
    /// 6: a list without 8 corner values (and 2 numbers) a cube.
    UnevenLists,
    /// 7: a list with fewer than [`ROW_BYTES`](crate::ROW_BYTES) answer bytes a cube.
    NoRoom,
    /// 8: a malformed line of the text program's input; no function of this crate gives it.
    Malformed,
    /// A refusal, or an answer, that this version of the crate has no name for, as may be where the library's major
    /// version is another: see [`version`](crate::version). Ask [`Refusal::number`] for its number and not a pattern,
    /// since a later version may name it.
    #[non_exhaustive]
    Unknown {
        /// The number that the library gave: 0 where it answered.
        number: u64,
    },
}

impl Refusal {
    /// The refusal's number, the same in every language.
    ///
    /// ```
    /// assert_eq!(mc33::Refusal::NotFinite.number(), 3);
    /// ```
    pub fn number(self) -> u64 {
        self.number_and_words().0
    }

    fn number_and_words(self) -> (u64, &'static str) {
        use Refusal::*;
        match self {
            NoCase => (1, "the case is below 0 or above 14"),
            NoConfiguration => (2, "the configuration is not one of the case's"),
            NotFinite => (3, "a corner is a NaN or infinite"),
            NoFace => (4, "the face number is not -6..-1 or 1..6"),
            NoEdge => (5, "the edge number is not 0..11"),
            UnevenLists => (6, "the list has not 8 corner values (and 2 numbers) a cube"),
            NoRoom => (7, "the list has fewer than 6 answer bytes a cube"),
            Malformed => (8, "the line is malformed"),
            Unknown { number } => (number, "this version of the crate has no name for it"),
        }
    }
}

/// The library answered, and the crate has no name for what it said.
pub const NO_NAME: Refusal = Refusal::Unknown { number: 0 };

/// `Ok` for 0, or the refusal.
pub fn answered(number: u64) -> Result<(), Refusal> {
    use Refusal::*;
    Err(match number {
        0 => return Ok(()),
        1 => NoCase,
        2 => NoConfiguration,
        3 => NotFinite,
        4 => NoFace,
        5 => NoEdge,
        6 => UnevenLists,
        7 => NoRoom,
        8 => Malformed,
        _ => Unknown { number },
    })
}

impl Display for Refusal {
    fn fmt(&self, f: &mut Formatter) -> Written {
        let (number, words) = self.number_and_words();
        write!(f, "refused {number}: {words}")
    }
}

impl Error for Refusal {}

/// Why a list was refused, and where. Only [`choose_list`](crate::choose_list) and
/// [`choose_list_signs`](crate::choose_list_signs) make it; later versions may add fields.
///
/// ```
/// let error = mc33::choose_list(&[1.0; 8], &[15, 0], &mut [0; mc33::ROW_BYTES]).unwrap_err();
/// assert_eq!(error.to_string(), "cube 0 refused 1: the case is below 0 or above 14");
/// ```
#[derive(Clone, Copy, Debug, PartialEq, Eq, Hash)]
#[non_exhaustive]
pub struct ListRefused {
    /// Why.
    pub refusal: Refusal,
    /// The place of the refused cube, counted from 0; 0 too where the list as a whole is refused
    /// ([`Refusal::UnevenLists`], [`Refusal::NoRoom`]).
    pub place: usize,
}

impl Display for ListRefused {
    fn fmt(&self, f: &mut Formatter) -> Written {
        match self.refusal {
            Refusal::UnevenLists | Refusal::NoRoom => self.refusal.fmt(f),
            _ => write!(f, "cube {} {}", self.place, self.refusal),
        }
    }
}

impl Error for ListRefused {}

#[cfg(test)]
mod tests {
    use super::{answered, ListRefused, Refusal};
    use crate::ROW_BYTES;
    use std::format;
    use std::string::ToString;

    #[test]
    fn each_number_is_its_refusal() {
        assert_eq!(answered(0), Ok(()));
        for number in 1..=8 {
            let refusal = answered(number).unwrap_err();
            assert_eq!(refusal.number(), number);
            assert!(!matches!(refusal, Refusal::Unknown { .. }), "{number}");
        }
    }

    #[test]
    fn an_unknown_number_keeps_its_number() {
        for number in [9, 10, 12, 255, 256, 300, 257 << 32 | 3, u64::MAX] {
            let refusal = answered(number).unwrap_err();
            assert_eq!(refusal, Refusal::Unknown { number });
            assert_eq!(refusal.number(), number);
            let words = format!("refused {number}: this version of the crate has no name for it");
            assert_eq!(refusal.to_string(), words);
        }
    }

    #[test]
    fn too_little_room_is_told_by_the_width_of_a_row() {
        let words = format!("fewer than {ROW_BYTES} answer bytes");
        assert!(Refusal::NoRoom.to_string().contains(&words));
    }

    #[test]
    fn a_list_refused_as_a_whole_names_no_cube() {
        let told = |refusal| ListRefused { refusal, place: 0 }.to_string();
        for whole in [Refusal::UnevenLists, Refusal::NoRoom] {
            assert_eq!(told(whole), whole.to_string());
        }
        assert!(told(Refusal::NotFinite).starts_with("cube 0 refused 3"));
    }
}
