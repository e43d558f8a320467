//! Practice sheets by recipe: the same numbers give the same sheet everywhere.

use crate::builder::{person_in, rule, step};
use crate::job::{Form, Job, Person, Rule};

/// The draws of a start below 2,147,483,648.
struct Draws {
    state: u64,
}

impl Draws {
    const MODULUS: u64 = 2_147_483_648;

    /// "The draw is the state divided by 65,536, rounded down."
    fn next(&mut self) -> usize {
        self.state = (self.state * 1_103_515_245 + 12_345) % Self::MODULUS;
        (self.state / 65_536) as usize
    }
}

/// "Bench 1 + i mod 8, shop 1 + i mod 4", and pairs likewise.
fn practice_classes(form: Form, i: usize) -> Vec<u16> {
    [4, 8, 16].map(|classes| 1 + (i % classes) as u16)[..form.class_levels().into()].to_vec()
}

fn practice_person(draws: &mut Draws, form: Form, i: usize, steps: usize) -> Person {
    let permitted = 1 + draws.next() % steps.div_ceil(2);
    let start = draws.next() % steps;
    let mask = (start..start + permitted).map(|k| 1 << (k % steps)).sum();
    person_in(100 + i as u32, &practice_classes(form, i), mask)
}

fn practice_rule(draws: &mut Draws, form: Form, steps: usize) -> Rule {
    let kind = 1 + draws.next() % 2;
    let level = 1 + draws.next() % usize::from(form.person_level());
    let first = draws.next() % steps;
    let second = (first + 1 + draws.next() % (steps - 1)) % steps;
    rule(kind as u8, level as u8, 0, 1 << first | 1 << second)
}

/// The job of a practice sheet: steps 2 to 12, people 1 to 64, rules 0 to 64.
pub fn practice_job(start: u32, steps: usize, people: usize, rules: usize) -> Job {
    practice_job_in(Form::First, start, steps, people, rules)
}

/// The same people and steps in another form, and rules from the same draws over its levels. No paper asks for these.
pub fn practice_job_in(form: Form, start: u32, steps: usize, people: usize, rules: usize) -> Job {
    let mut draws = Draws { state: start.into() };
    Job {
        form,
        people: (0..people).map(|i| practice_person(&mut draws, form, i, steps)).collect(),
        steps: (0..steps).map(|j| step(1 + j as u32)).collect(),
        rules: (0..rules).map(|_| practice_rule(&mut draws, form, steps)).collect(),
    }
}

#[cfg(test)]
mod tests {
    use super::*;
    use crate::builder::lay;
    use crate::reader::read;

    #[test]
    fn the_first_draw_of_start_1_is_as_stated() {
        assert_eq!(Draws { state: 1 }.next(), 16_838);
    }

    #[test]
    fn every_practice_sheet_is_readable() {
        for start in 0..200 {
            for (steps, people, rules) in [(2, 1, 0), (3, 7, 64), (12, 64, 64), (11, 20, 9)] {
                for job in Form::ALL.map(|form| practice_job_in(form, start, steps, people, rules)) {
                    assert_eq!(read(&lay(&job).bytes), Ok(job));
                }
            }
        }
    }

    #[test]
    fn a_practice_sheet_in_version_2_with_two_levels_has_the_cards_of_version_1() {
        let two = Form::Second { class_levels: 2 };
        assert_eq!(practice_job_in(two, 5, 12, 64, 20), Job { form: two, ..practice_job(5, 12, 64, 20) });
    }

    #[test]
    fn practice_people_may_do_the_same_in_every_form() {
        let permitted = |form| practice_job_in(form, 7, 12, 64, 0).people.into_iter().map(|person| person.permitted);
        assert!(Form::ALL.into_iter().all(|form| permitted(form).eq(permitted(Form::First))));
    }
}
