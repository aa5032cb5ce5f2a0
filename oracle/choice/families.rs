// Families: a case with one of its configurations.
use crate::rust::sets;

pub const CONFIGURATIONS: [usize; 15] = [1, 16, 24, 24, 8, 48, 48, 16, 6, 8, 6, 12, 24, 2, 12];
pub const AMBIGUOUS: [usize; 7] = [3, 4, 6, 7, 10, 12, 13];
pub const FAMILIES: usize = 255;

// Where a case's families start.
pub const STARTS: [usize; 15] = {
    let mut starts = [0; 15];
    let mut case = 1;
    while case < 15 {
        starts[case] = starts[case - 1] + CONFIGURATIONS[case - 1];
        case += 1;
    }
    starts
};

// Case and configuration of each family.
pub static GIVEN: [[i8; 2]; FAMILIES] = {
    let mut given = [[0, -1]; FAMILIES];
    let mut case = 1;
    while case < 15 {
        let mut configuration = 0;
        while configuration < CONFIGURATIONS[case] {
            given[STARTS[case] + configuration] = [case as i8, configuration as i8];
            configuration += 1;
        }
        case += 1;
    }
    given
};

pub fn family_of([case, configuration]: [i8; 2]) -> usize {
    STARTS[case as usize] + configuration.max(0) as usize
}

// For each family the set of corners that are above 0 in a suited cube.
pub static SUITED: [u8; FAMILIES] = {
    let mut suited = [0; FAMILIES];
    let mut set = 255;
    while set > 0 {
        let [case, configuration] = sets::CASES[set];
        let place = if case == 0 { 0 } else { STARTS[case as usize] + configuration as usize };
        suited[place] = set as u8;
        set -= 1;
    }
    suited
};
