//! What is chosen for a cube, and the rows in which a list has it.
use core::error::Error;
use core::fmt::{Display, Formatter, Result as Written};

/// How many bytes a list ([`choose_list`](crate::choose_list)) has for a cube, its row: code, row, column,
/// centre + 2 × unsettled, unmatched, readings. Before version 5 a row was the first four of these, and a list of such
/// rows bears no mark: whoever stores rows should store the version too.
pub const ROW_BYTES: usize = 6;

/// A tiling of the Marching Cubes 33 tables. Only this crate makes it; later versions may add fields.
#[derive(Clone, Copy, Debug, PartialEq, Eq, Hash)]
#[non_exhaustive]
pub struct Tiling {
    /// 1 to 38; [`Tiling::name`] tells the table.
    pub code: u8,
    /// The row of the table.
    pub row: u8,
    /// The tiling of the row: 0 where the table has one tiling a row.
    pub column: u8,
    /// Whether it is drawn with the centre.
    pub centre: bool,
    /// How many edge readings made for the choice were unsettled, that is crossed with a product equal to zero, or
    /// blank: 0 to 3. All corners 1 in case 4 give 3.
    pub unsettled: u8,
    /// How many picks of an edge to read found no diagonal of the cube with both ends on the side that they look for,
    /// so that edge 0 was left over: 0 to 3, and 0 or all of the picks.
    pub unmatched: u8,
    /// How many face tests and edge readings were made for the choice, and one more where the case-13 test was: 0 to 7,
    /// and at most [`most_readings`](crate::most_readings) of the case.
    pub readings: u8,
}

/// The tables' names in the order of their codes.
const NAMES: [&str; 38] = [
    "1", "2", "3_1", "3_2", "4_1", "4_2", "5", "6_1_1", "6_1_2", "6_2", "7_1", "7_2", "7_3",
    "7_4_1", "7_4_2", "8", "9", "10_1_1", "10_1_1_", "10_1_2", "10_2", "10_2_", "11", "12_1_1",
    "12_1_1_", "12_1_2", "12_2", "12_2_", "13_1", "13_1_", "13_2", "13_2_", "13_3", "13_3_",
    "13_4", "13_5_1", "13_5_2", "14",
];

impl Tiling {
    /// The name of the tiling's table, as `"10_1_1_"`; empty for a code that is none.
    ///
    /// ```
    /// use mc33::{choose, Choice, Cube};
    /// // Cases with one tiling a row, whose table has the case's name.
    /// for case in [1, 2, 5, 8, 9, 11, 14] {
    ///     let Ok(Choice::Tiled(tiling)) = choose(case, 0, Cube([1.0; 8])) else { panic!() };
    ///     assert_eq!(tiling.name(), case.to_string());
    /// }
    /// ```
    pub fn name(&self) -> &'static str {
        NAMES
            .get(usize::from(self.code).wrapping_sub(1))
            .copied()
            .unwrap_or("")
    }
}

/// What is chosen for a cube: one of these three, so a match needs no arm for others.
#[derive(Clone, Copy, Debug, PartialEq, Eq, Hash)]
pub enum Choice {
    /// Case 0: code 0.
    Empty,
    /// Case 13 where no tiling fits the six faces: code 255. Later versions may add fields.
    #[non_exhaustive]
    Untiled {
        /// The configuration that was given.
        configuration: u8,
        /// The sub-configuration that the six faces lead to.
        sub_configuration: u8,
    },
    /// A tiling.
    Tiled(Tiling),
}

impl Choice {
    /// How many face tests and edge readings were made for the choice, and one more where the case-13 test was: 0 for
    /// [`Choice::Empty`], 6 for [`Choice::Untiled`].
    ///
    /// ```
    /// use mc33::{choose, Cube};
    /// let tied = Cube([1.0, -1.0, 1.0, -1.0, -1.0, -1.0, -1.0, -1.0]);
    /// assert_eq!(choose(3, 0, tied).map(|choice| choice.readings()), Ok(1));
    /// let untiled = choose(13, 0, Cube([1.0, 2.0, 1.0, 2.0, 1.0, 4.0, 1.0, 4.0]));
    /// assert_eq!(untiled.map(|choice| choice.readings()), Ok(6));
    /// ```
    pub fn readings(&self) -> u8 {
        match self {
            Choice::Empty => 0,
            Choice::Untiled { .. } => UNTILED_READINGS,
            Choice::Tiled(tiling) => tiling.readings,
        }
    }
}

/// That there is no tiling is told by six face tests.
const UNTILED_READINGS: u8 = 6;

/// The choice that these numbers are, or `None` where the library gives no such numbers.
pub fn choice_of(
    code: u8,
    row: u8,
    column: u8,
    centre: u8,
    unsettled: u8,
    unmatched: u8,
    readings: u8,
) -> Option<Choice> {
    match (code, centre, unsettled, unmatched, readings) {
        (0, 0, 0, 0, 0) if (row, column) == (0, 0) => Some(Choice::Empty),
        (255, 0, 0, 0, UNTILED_READINGS) => Some(Choice::Untiled {
            configuration: row,
            sub_configuration: column,
        }),
        (1..=38, 0..=1, 0..=3, 0..=3, 0..=7) => Some(Choice::Tiled(Tiling {
            code,
            row,
            column,
            centre: centre == 1,
            unsettled,
            unmatched,
            readings,
        })),
        _ => None,
    }
}

/// The choice that a list wrote as this row.
///
/// # Errors
///
/// [`NotARow::Bytes`] where the code is 39 to 254, where the fourth byte is above 7, unmatched above 3 or readings
/// above 7, or where code 0 or 255 has other bytes than a list writes with it. Whether a table has such a row and
/// column, and the centre, and whether the case makes so many readings, is not looked at: so bytes that no list wrote
/// may pass.
///
/// ```
/// use mc33::{Choice, NotARow};
/// let Ok(Choice::Tiled(tiling)) = Choice::try_from([6, 0, 0, 6, 0, 3]) else { panic!() };
/// assert_eq!((tiling.name(), tiling.centre, tiling.unsettled), ("4_2", false, 3));
/// assert_eq!((tiling.unmatched, tiling.readings), (0, 3));
/// assert_eq!(Choice::try_from([0; 6]), Ok(Choice::Empty));
/// let untiled = Choice::try_from([255, 0, 5, 0, 0, 6]);
/// assert!(matches!(untiled, Ok(Choice::Untiled { configuration: 0, sub_configuration: 5, .. })));
/// assert_eq!(Choice::try_from([200, 0, 0, 0, 0, 0]), Err(NotARow::Bytes([200, 0, 0, 0, 0, 0])));
/// ```
impl TryFrom<[u8; ROW_BYTES]> for Choice {
    type Error = NotARow;

    fn try_from(row_bytes: [u8; ROW_BYTES]) -> Result<Choice, NotARow> {
        let [code, row, column, rest, unmatched, readings] = row_bytes;
        choice_of(code, row, column, rest % 2, rest / 2, unmatched, readings)
            .ok_or(NotARow::Bytes(row_bytes))
    }
}

/// Why bytes are not rows of a list. Later versions may name more.
#[derive(Clone, Copy, Debug, PartialEq, Eq, Hash)]
#[non_exhaustive]
pub enum NotARow {
    /// A row's bytes that no list writes.
    Bytes([u8; ROW_BYTES]),
    /// So many bytes, which is no whole number of rows.
    Length(usize),
}

impl Display for NotARow {
    fn fmt(&self, f: &mut Formatter) -> Written {
        let bytes = match self {
            NotARow::Bytes(bytes) => bytes,
            NotARow::Length(length) => {
                return write!(
                    f,
                    "{length} bytes are no whole number of rows, {ROW_BYTES} bytes each"
                )
            }
        };
        let [code, _, _, rest, unmatched, _] = bytes;
        let why = match (code, rest, unmatched) {
            (0, _, _) => "with code 0 all bytes are 0",
            (255, _, _) => "with code 255 the last three bytes are 0, 0 and 6",
            (39.., _, _) => "the code is 0 to 38 or 255",
            (_, 8.., _) => "the fourth byte, centre + 2 × unsettled, is at most 7",
            (_, _, 4..) => "the fifth byte, unmatched, is at most 3",
            _ => "the last byte, readings, is at most 7",
        };
        write!(f, "{bytes:?} is no row of a list: {why}")
    }
}

impl Error for NotARow {}

/// The choices in a list's answers, a row each, from the first. What a refused list left is not looked for: ask
/// [`choose_list`](crate::choose_list) or [`choose_list_signs`](crate::choose_list_signs).
///
/// # Errors
///
/// [`NotARow::Length`] where the answers are no whole number of rows, so cut off bytes past the last cube's. Each row
/// is a `Result` of its own, [`NotARow::Bytes`] where it is none.
///
/// ```
/// use mc33::{choose_list, rows, Choice, NotARow, ROW_BYTES};
/// let mut answers = [0; 2 * ROW_BYTES];
/// choose_list(&[1.0; 16], &[0, -1, 14, 7], &mut answers)?;
/// let choices = rows(&answers)?.collect::<Result<Vec<_>, _>>()?;
/// let [Choice::Empty, Choice::Tiled(tiling)] = choices[..] else { panic!() };
/// assert_eq!((tiling.name(), tiling.row), ("14", 7));
/// assert_eq!(rows(&answers[1..]).err(), Some(NotARow::Length(2 * ROW_BYTES - 1)));
/// # Ok::<(), Box<dyn std::error::Error>>(())
/// ```
pub fn rows(
    answers: &[u8],
) -> Result<impl ExactSizeIterator<Item = Result<Choice, NotARow>> + '_, NotARow> {
    let rows = answers.chunks_exact(ROW_BYTES);
    if !rows.remainder().is_empty() {
        return Err(NotARow::Length(answers.len()));
    }
    Ok(rows.map(|bytes| {
        let row_bytes = <[u8; ROW_BYTES]>::try_from(bytes);
        Choice::try_from(row_bytes.map_err(|_| NotARow::Length(bytes.len()))?)
    }))
}

#[cfg(test)]
mod tests {
    use super::{rows, Choice, NotARow, NAMES, ROW_BYTES};
    use std::string::ToString;
    use std::vec::Vec;

    /// The row that a list writes for the choice.
    fn row_of(choice: Choice) -> [u8; ROW_BYTES] {
        match choice {
            Choice::Empty => [0; ROW_BYTES],
            Choice::Untiled {
                configuration,
                sub_configuration,
            } => [255, configuration, sub_configuration, 0, 0, 6],
            Choice::Tiled(t) => [
                t.code,
                t.row,
                t.column,
                u8::from(t.centre) + 2 * t.unsettled,
                t.unmatched,
                t.readings,
            ],
        }
    }

    fn is_row([code, row, column, rest, unmatched, readings]: [u8; ROW_BYTES]) -> bool {
        match code {
            0 => [row, column, rest, unmatched, readings] == [0; 5],
            255 => [rest, unmatched, readings] == [0, 0, 6],
            _ => code <= 38 && rest <= 7 && unmatched <= 3 && readings <= 7,
        }
    }

    fn read(bytes: [u8; ROW_BYTES]) {
        let expected = if is_row(bytes) {
            Ok(bytes)
        } else {
            Err(NotARow::Bytes(bytes))
        };
        assert_eq!(Choice::try_from(bytes).map(row_of), expected);
    }

    #[test]
    fn rows_are_read_without_loss_and_others_refused() {
        for code in 0..=255 {
            for byte in 0..=255 {
                for few in 0..=8 {
                    read([code, 0, 0, byte, 0, few]);
                    read([code, 0, 0, few, byte, 0]);
                    read([code, 0, 0, 0, few, byte]);
                    read([code, 0, 5, byte, few, 6]);
                    read([code, 23, 0, few, byte, 7]);
                }
            }
        }
    }

    #[test]
    fn a_row_that_is_none_says_why() {
        let words = |row: [u8; ROW_BYTES]| Choice::try_from(row).unwrap_err().to_string();
        let no_code = "[200, 0, 0, 0, 0, 0] is no row of a list: the code is 0 to 38 or 255";
        assert_eq!(words([200, 0, 0, 0, 0, 0]), no_code);
        assert_eq!(
            words([39, 0, 0, 9, 9, 9]),
            no_code.replace("200, 0, 0, 0, 0, 0", "39, 0, 0, 9, 9, 9")
        );
        assert!(words([4, 0, 0, 8, 0, 0]).ends_with("2 × unsettled, is at most 7"));
        assert!(words([4, 0, 0, 7, 4, 0]).ends_with("unmatched, is at most 3"));
        assert!(words([38, 0, 0, 7, 3, 8]).ends_with("readings, is at most 7"));
        for place in 1..ROW_BYTES {
            let mut row = [0; ROW_BYTES];
            row[place] = 1;
            assert!(words(row).ends_with("with code 0 all bytes are 0"));
        }
        for row in [
            [255, 0, 5, 1, 0, 6],
            [255, 0, 5, 0, 1, 6],
            [255, 0, 5, 0, 0, 0],
        ] {
            assert!(words(row).ends_with("with code 255 the last three bytes are 0, 0 and 6"));
        }
        let part = NotARow::Length(7).to_string();
        assert_eq!(part, "7 bytes are no whole number of rows, 6 bytes each");
    }

    #[test]
    fn a_bad_row_stops_no_other() {
        let answers = [[4, 0, 0, 0, 0, 1], [200, 0, 0, 0, 0, 0], [0; ROW_BYTES]];
        let answers = answers.as_flattened();
        let rows = rows(answers).unwrap();
        assert_eq!(rows.len(), 3);
        let found: Vec<_> = rows.collect();
        assert!(matches!(found[0], Ok(Choice::Tiled(t)) if t.name() == "3_2"));
        assert_eq!(found[1], Err(NotARow::Bytes([200, 0, 0, 0, 0, 0])));
        assert_eq!(found[2], Ok(Choice::Empty));
    }

    #[test]
    fn a_part_of_a_row_is_refused() {
        for length in 0..=3 * ROW_BYTES {
            let whole = length % ROW_BYTES == 0;
            let refused = rows(&[0; 3 * ROW_BYTES][..length]).err();
            assert_eq!(refused, (!whole).then_some(NotARow::Length(length)));
        }
    }

    #[test]
    fn each_code_has_its_name() {
        let Ok(Choice::Tiled(mut tiling)) = Choice::try_from([1, 0, 0, 0, 0, 0]) else {
            panic!()
        };
        let mut name = |code| {
            tiling.code = code;
            tiling.name()
        };
        let names: Vec<_> = (1..=38).map(&mut name).collect();
        assert_eq!(names, NAMES);
        assert_eq!([0, 39, 255].map(name), [""; 3]);
    }
}
