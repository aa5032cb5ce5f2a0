//! Doc tests that stand outside the crate, as its users do: what may grow is neither built nor matched whole there.

/// All names of a refusal, and an arm for later ones, which is not unreachable.
///
/// ```
/// #![deny(unreachable_patterns)]
/// use mc33::Refusal::{self, *};
/// let known = |refusal: Refusal| match refusal {
///     NoCase | NoConfiguration | NotFinite | NoFace | NoEdge | UnevenLists | NoRoom => true,
///     Malformed | Unknown { .. } => true,
///     _ => false,
/// };
/// assert!(known(NoCase));
/// ```
///
/// ```compile_fail,E0639
/// let refusal = mc33::Refusal::Unknown { number: 12 };
/// ```
///
/// ```compile_fail,E0639
/// let refused = mc33::ListRefused { refusal: mc33::Refusal::NoCase, place: 0 };
/// ```
struct Refusals;

/// All three choices and all four readings: no arm for others. A tiling is the library's alone to make.
///
/// ```
/// use mc33::{Choice, Reading};
/// let place = |choice| match choice {
///     Choice::Empty => 0,
///     Choice::Untiled { sub_configuration, .. } => sub_configuration,
///     Choice::Tiled(tiling) => tiling.row,
/// };
/// let value = |reading| match reading {
///     Reading::Rising | Reading::Beyond { t: _ } => true,
///     Reading::Crossed { t: _, product } => product < 0.0,
///     Reading::Blank => false,
/// };
/// assert_eq!((place(Choice::Empty), value(Reading::Rising)), (0, true));
/// ```
///
/// ```compile_fail,E0639
/// let tiling = mc33::Tiling { code: 1, row: 0, column: 0, centre: false, unsettled: 0, unmatched: 0, readings: 0 };
/// ```
///
/// ```compile_fail,E0639
/// let untiled = mc33::Choice::Untiled { configuration: 0, sub_configuration: 5 };
/// ```
struct Answers;

/// A family is whole: it is built and matched outside.
///
/// ```
/// use mc33::Family;
/// let Family { case, configuration } = Family { case: 3, configuration: 0 };
/// assert_eq!((case, configuration), (3, 0));
/// ```
struct Families;

/// So is a face answer with its trust, and there are three trusts: no arm for others.
///
/// ```
/// use mc33::{FaceTrust, Trust};
/// let FaceTrust { answer, trust } = FaceTrust { answer: true, trust: Trust::Turned };
/// let truth = match trust {
///     Trust::Sure => Some(answer),
///     Trust::Turned => Some(!answer),
///     Trust::Unknown => None,
/// };
/// assert_eq!(truth, Some(false));
/// ```
struct Trusts;

/// Both ways to be no row, and an arm for later ones.
///
/// ```
/// #![deny(unreachable_patterns)]
/// use mc33::NotARow;
/// let length = |error| match error {
///     NotARow::Bytes(bytes) => bytes.len(),
///     NotARow::Length(length) => length,
///     _ => 0,
/// };
/// assert_eq!(length(NotARow::Length(7)), 7);
/// ```
struct Rows;
