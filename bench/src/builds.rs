//! The builds of the library in this program: the library itself, and a second one where bench/build.rs was given one.

use model::library::{Build, THIS};

#[derive(Clone, Copy, Debug, PartialEq, Eq)]
pub enum Which {
    This,
    Other,
}

#[cfg(other)]
mod other {
    use model::library::Build;

    extern "C" {
        fn other_crew(sheet: *const u8, sheet_len: usize, answer: *mut u8, answer_len: usize) -> u32;
        fn other_spare(sheet: *const u8, sheet_len: usize, answer: *mut u8, answer_len: usize, cap: u32) -> u32;
    }

    // What it is set beside is crews and spare counts, also where it is older than the crew by trial.
    pub const BUILD: Option<Build> = Some(Build { crew: other_crew, crew_by_trial: None, spare: other_spare });
}

#[cfg(not(other))]
mod other {
    use model::library::Build;

    pub const BUILD: Option<Build> = None;
}

/// Nothing where there is no second build.
pub fn linked(which: Which) -> Option<Build> {
    match which {
        Which::This => Some(THIS),
        Which::Other => other::BUILD,
    }
}

#[cfg(test)]
mod tests {
    use super::*;
    use model::answers::{answer, Call, MOST_CREW_BYTES};
    use model::builder::sheet_w;

    #[test]
    fn every_build_answers_w() {
        let sheet = sheet_w().bytes;
        for build in [Which::This, Which::Other].into_iter().filter_map(linked) {
            let by_trial = build.crew_by_trial.map(|_| Call::CrewByTrial);
            for call in [Call::Crew, Call::Spare { cap: 2 }].into_iter().chain(by_trial) {
                let mut area = [9; MOST_CREW_BYTES];
                let wanted = answer(call, &sheet, &area).expect("a small job");
                assert_eq!((build.run(call, &sheet, &mut area), area.to_vec()), (wanted.number, wanted.area));
            }
        }
    }
}
