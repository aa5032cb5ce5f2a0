// The proved choice against the Rust's handle_cube, in one process.
//
//   compare N SEED   compares the two on about N cubes, and counts what the cubes met; choices by signs, readings of
//                    edges, face tests, roots, refusals, lists and the families of all sets as well
//   families         compares the families of all sets with CASES, and says where the source's own lookup parts
//   sets             prints each set with its case and configuration, from CASES
//   speed            measures the two on the same cubes
//   once COURSE      runs each once on 4,096 cubes of a row of that table, as `case 4`, for oracle/count.sh
//   sample SEED      prints an input of the text program whose cubes meet everything and turn with every
//                    alteration of the tables; says what is missing
//   input BYTES SEED prints about so many bytes of input for the text program, of mixed families
//   altered          says whether the cubes of such an input turn with every alteration of the tables
//   text             the text program in plain Rust, over the Rust's handle_cube
//   choices          all numbers of each choice of such an input: code, row, column, centre, unsettled, unmatched,
//                    readings
//   signs            the same by signs: of each cube's corners alone, with what CASES has at the set of those above 0
#[path = "choice/altered.rs"]
mod altered;
#[path = "choice/compare.rs"]
mod compare;
#[path = "choice/cubes.rs"]
mod cubes;
#[path = "choice/families.rs"]
mod families;
#[path = "choice/library.rs"]
mod library;
#[path = "choice/list.rs"]
mod list;
#[path = "choice/met.rs"]
mod met;
#[path = "choice/rust.rs"]
mod rust;
#[path = "choice/sample.rs"]
mod sample;
#[path = "choice/signs.rs"]
mod signs;
#[path = "choice/speed.rs"]
mod speed;
#[path = "choice/text.rs"]
mod text;
#[path = "choice/voxels.rs"]
mod voxels;

fn main() {
    let words: Vec<String> = std::env::args().skip(1).collect();
    let number = |place: usize| words.get(place).and_then(|word| word.parse::<u64>().ok());
    let good = match (words.first().map(String::as_str), number(1), number(2)) {
        (Some("compare"), Some(cubes), Some(seed)) => compare::compare(cubes, seed),
        (Some("speed"), None, None) => speed::speed(),
        (Some("once"), None, None) => speed::once(words.get(1).map_or("", String::as_str)),
        (Some("families"), None, None) => signs::families(),
        (Some("sets"), None, None) => signs::sets(),
        (Some("sample"), Some(seed), None) => sample::sample(seed),
        (Some("input"), Some(bytes), Some(seed)) => text::input(bytes, seed),
        (Some("altered"), None, None) => altered::altered(),
        (Some("text"), None, None) => text::text(),
        (Some("choices"), None, None) => text::choices(),
        (Some("signs"), None, None) => text::choices_by_signs(),
        _ => {
            eprintln!("compare N SEED | families | sets | speed | once COURSE | sample SEED | input BYTES SEED | \
                altered | text | choices | signs");
            false
        }
    };
    if !good {
        std::process::exit(1);
    }
}
