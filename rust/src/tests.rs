//! What the library may say, named: each number that has a name, and those that have none.
use super::refusal::NO_NAME;
use super::*;

const PLAIN: Mc33Choice = Mc33Choice {
    refusal: 0,
    code: 4,
    row: 1,
    column: 2,
    centre: 1,
    unsettled: 3,
    unmatched: 2,
    readings: 7,
};

#[test]
fn the_versions_are_one() {
    let cargo = [
        env!("CARGO_PKG_VERSION_MAJOR"),
        env!("CARGO_PKG_VERSION_MINOR"),
    ];
    assert_eq!(
        cargo.map(|number| number.parse()),
        [Ok(VERSION.0), Ok(VERSION.1)]
    );
    assert_eq!(version(), VERSION);
}

#[test]
fn a_cube_is_its_corners() {
    let corners = [0.0, 1.0, 2.0, 3.0, 4.0, 5.0, 6.0, 7.0];
    assert_eq!(Cube::from(corners), Cube(corners));
    assert_eq!(<[f32; 8]>::from(Cube(corners)), corners);
}

/// The examples of document 01, 'What is refused'.
#[test]
fn each_refusal_of_the_library_has_its_name() {
    let cube = Cube([1.0; 8]);
    let infinite = Cube([1.0, 1.0, 1.0, 1.0, 1.0, 1.0, 1.0, f32::INFINITY]);
    let listed = |numbers, answers| choose_list(&cube.0, numbers, answers).unwrap_err();
    let refusals = [
        (choose(15, 0, cube).unwrap_err(), Refusal::NoCase),
        (choose(4, 8, cube).unwrap_err(), Refusal::NoConfiguration),
        (choose(4, 0, infinite).unwrap_err(), Refusal::NotFinite),
        (test_face(cube, 0).unwrap_err(), Refusal::NoFace),
        (read_edge(cube, 12).unwrap_err(), Refusal::NoEdge),
        (
            listed(&[3, 0, 4, 0], &mut [0; 2 * ROW_BYTES]).refusal,
            Refusal::UnevenLists,
        ),
        (
            listed(&[3, 0], &mut [0; ROW_BYTES - 1]).refusal,
            Refusal::NoRoom,
        ),
    ];
    for (number, (refusal, name)) in (1..).zip(refusals) {
        assert_eq!((refusal, refusal.number()), (name, number));
    }
}

#[test]
fn an_unknown_refusal_keeps_its_number() {
    let refusal = 12;
    let unknown = Refusal::Unknown { number: 12 };
    assert_eq!(choice_said(Mc33Choice { refusal, ..PLAIN }), Err(unknown));
    assert_eq!(face_said(Mc33Face { refusal, answer: 1 }), Err(unknown));
    let trusted = Mc33Trust {
        refusal,
        answer: 1,
        trust: 1,
    };
    assert_eq!(trust_said(trusted), Err(unknown));
    let edge = Mc33Edge {
        refusal,
        kind: 1,
        t: 0.0,
        product: 0.0,
    };
    assert_eq!(edge_said(edge), Err(unknown));
}

#[test]
fn a_list_keeps_a_number_above_255() {
    for number in [12, 256, 300, 1 << 40 | 3] {
        let said = Mc33Outcome {
            refusal: number,
            place: 5,
        };
        let refusal = Refusal::Unknown { number };
        assert_eq!(list_said(said), Err(ListRefused { refusal, place: 5 }));
    }
}

#[test]
fn a_choice_without_a_name_is_refused() {
    let tiling = |choice| match choice {
        Ok(Choice::Tiled(t)) => (
            (t.code, t.row, t.column, t.centre),
            (t.unsettled, t.unmatched, t.readings),
        ),
        other => panic!("{other:?}"),
    };
    assert_eq!(tiling(choice_said(PLAIN)), ((4, 1, 2, true), (3, 2, 7)));
    let [mut code, mut centre, mut unsettled, mut unmatched, mut readings] = [PLAIN; 5];
    code.code = 200;
    centre.centre = 2;
    unsettled.unsettled = 4;
    unmatched.unmatched = 4;
    readings.readings = 8;
    let nothing = Mc33Choice {
        readings: 1,
        ..Mc33Choice::default()
    };
    let untiled = Mc33Choice {
        code: 255,
        readings: 5,
        ..Mc33Choice::default()
    };
    for said in [
        code, centre, unsettled, unmatched, readings, nothing, untiled,
    ] {
        assert_eq!(choice_said(said), Err(NO_NAME));
    }
}

/// 0 and 255 have case 0; each other set is the only one of its case and configuration.
#[test]
fn each_set_has_a_family_of_its_own() {
    let mut seen = std::collections::HashSet::new();
    for set in 1..255 {
        let family = family_of(set);
        assert!((0..configurations(family.case)).contains(&family.configuration));
        assert!(seen.insert(family), "{family:?}");
    }
    let none = Family {
        case: 0,
        configuration: -1,
    };
    assert_eq!([0, 255].map(family_of), [none; 2]);
}

/// A cube with this set, whose corners off it have the same value.
fn cube_of(set: u8, off: f32) -> Cube {
    Cube(core::array::from_fn(|corner| {
        if set >> corner & 1 == 1 {
            1.0 + corner as f32
        } else {
            off
        }
    }))
}

#[test]
fn by_the_signs_it_is_the_choice_for_the_family_and_no_zero_belongs() {
    for (set, off) in (0..=255).flat_map(|set| [-2.0, 0.0, -0.0].map(|off| (set, off))) {
        let (family, cube) = (family_of(set), cube_of(set, off));
        let choice = choose(family.case, family.configuration, cube);
        assert!(choice.is_ok());
        assert_eq!(choose_signs(cube), choice);
        let mut row = [7; ROW_BYTES];
        assert_eq!(choose_list_signs(&cube.0, &mut row), Ok(()));
        assert_eq!(Choice::try_from(row).ok(), choice.ok());
    }
}

#[test]
fn by_the_signs_only_what_is_not_finite_is_refused() {
    let values = [f32::NAN, f32::INFINITY, f32::NEG_INFINITY];
    for (corner, value) in (0..8).flat_map(|corner| values.map(|value| (corner, value))) {
        let mut cube = Cube([1.0; 8]);
        cube.0[corner] = value;
        assert_eq!(choose_signs(cube), Err(Refusal::NotFinite));
    }
}

#[test]
fn a_list_by_the_signs_is_refused_whole() {
    let mut corners = [1.0; 24];
    corners[16] = f32::NAN;
    for (length, room, refusal, place) in [
        (23, 0, Refusal::UnevenLists, 0),
        (24, 3 * ROW_BYTES - 1, Refusal::NoRoom, 0),
        (24, 3 * ROW_BYTES, Refusal::NotFinite, 2),
    ] {
        let mut answers = [7; 3 * ROW_BYTES];
        let refused = choose_list_signs(&corners[..length], &mut answers[..room]);
        assert_eq!(refused, Err(ListRefused { refusal, place }));
        assert_eq!(answers, [7; 3 * ROW_BYTES]);
    }
}

#[test]
fn a_face_answer_without_a_name_is_refused() {
    let said = |answer| face_said(Mc33Face { refusal: 0, answer });
    assert_eq!([0, 1].map(said), [Ok(false), Ok(true)]);
    assert_eq!(said(2), Err(NO_NAME));
}

#[test]
fn a_trust_without_a_name_is_refused() {
    let said = |answer, trust| {
        trust_said(Mc33Trust {
            refusal: 0,
            answer,
            trust,
        })
    };
    let trusted = |answer| {
        [Trust::Sure, Trust::Turned, Trust::Unknown].map(|trust| Ok(FaceTrust { answer, trust }))
    };
    assert_eq!([1, 2, 3].map(|trust| said(0, trust)), trusted(false));
    assert_eq!([1, 2, 3].map(|trust| said(1, trust)), trusted(true));
    assert_eq!([0, 4, 255].map(|trust| said(1, trust)), [Err(NO_NAME); 3]);
    assert_eq!(said(2, 1), Err(NO_NAME));
}

/// A cube with these bits in corners 0, 3, 2 and 1, which are a, b, c and d of face 5.
fn at_face_5([a, b, c, d]: [u32; 4]) -> Cube {
    let mut cube = Cube([-1.0; 8]);
    for (corner, bits) in [(0, a), (3, b), (2, c), (1, d)] {
        cube.0[corner] = f32::from_bits(bits);
    }
    cube
}

/// Each has one that Change 6 asks for, and not the other: both products round to one number, or nearly.
#[test]
fn a_tie_may_be_turned() {
    for bits in [
        [0xba00_0000, 0x3980_0000, 0xb980_0000, 0x3980_0000],
        [0xbf0a_aaaf, 0x3f3b_1287, 0xbeec_4ec4, 0x3eaf_2982],
        [0xc504_5000, 0x42e2_0000, 0xc5f7_a800, 0x4810_fdc0],
    ] {
        for face in [5, -5] {
            let said = trust_face(at_face_5(bits), face);
            let (answer, trust) = (face > 0, Trust::Turned);
            assert_eq!(said, Ok(FaceTrust { answer, trust }));
        }
    }
}

#[test]
fn a_trusted_answer_is_that_of_the_face() {
    let mut infinite = Cube([1.0; 8]);
    infinite.0[7] = f32::INFINITY;
    for cube in (0..=255).flat_map(|set| [-2.0, -0.0].map(|off| cube_of(set, off))) {
        for face in i8::MIN..=i8::MAX {
            let said = trust_face(cube, face);
            assert_eq!(said.map(|said| said.answer), test_face(cube, face));
        }
    }
    for face in i8::MIN..=i8::MAX {
        let refused = trust_face(infinite, face).unwrap_err();
        assert_eq!(Err(refused), test_face(infinite, face));
    }
}

#[test]
fn a_reading_without_a_name_is_refused() {
    let said = |kind| {
        edge_said(Mc33Edge {
            refusal: 0,
            kind,
            t: 0.5,
            product: 2.0,
        })
    };
    let crossed = Reading::Crossed {
        t: 0.5,
        product: 2.0,
    };
    let readings = [
        Reading::Rising,
        Reading::Beyond { t: 0.5 },
        crossed,
        Reading::Blank,
    ];
    assert_eq!([1, 2, 3, 4].map(said), readings.map(Ok));
    assert_eq!([0, 5, 255].map(said), [Err(NO_NAME); 3]);
}

#[test]
fn each_case_has_its_configurations() {
    for case in i8::MIN..=i8::MAX {
        for configuration in i8::MIN..=i8::MAX {
            let own = (0..configurations(case)).contains(&configuration);
            let expected = match (case, configuration) {
                (0, -1) => None,
                (0..=14, _) => (!own).then_some(Refusal::NoConfiguration),
                _ => Some(Refusal::NoCase),
            };
            assert_eq!(choose(case, configuration, Cube([1.0; 8])).err(), expected);
        }
    }
}
