//! Random forms of sheets, and random classes for their people: each inside one class of the level above.

use crate::builder::person_in;
use crate::job::{Form, MOST_CLASS_LEVELS};
use crate::random::Random;
use std::collections::HashMap;

/// Version 1 in half of the draws, and version 2 with each number of class levels.
pub fn any_form(random: &mut Random) -> Form {
    match random.below(2 * MOST_CLASS_LEVELS) {
        class_levels @ 1..=MOST_CLASS_LEVELS => Form::Second { class_levels: class_levels as u8 },
        _ => Form::First,
    }
}

/// The classes of somebody, topmost first.
pub type Classes = [u16; MOST_CLASS_LEVELS];

fn classes(found: &[u16]) -> Classes {
    person_in(0, found, 0).class
}

/// Up to so many classes at each level but the last, which has more.
const MOST_ABOVE: [usize; MOST_CLASS_LEVELS - 1] = [5, 12];
const MOST_LAST: usize = 70;

/// Classes by chance: in which class of the level above one lies is drawn when it first comes up.
pub struct Scattered {
    most: Vec<usize>,
    above: HashMap<(usize, u16), u16>,
}

impl Scattered {
    pub fn new(random: &mut Random, form: Form) -> Scattered {
        let above = usize::from(form.class_levels()) - 1;
        let most = [&MOST_ABOVE[..above], &[random.within(1, MOST_LAST)]].concat();
        Scattered { most, above: HashMap::new() }
    }

    pub fn next(&mut self, random: &mut Random) -> Classes {
        let mut found = vec![0; self.most.len()];
        for level in (0..found.len()).rev() {
            let drawn = random.within(1, self.most[level]) as u16;
            found[level] = match found.get(level + 1) {
                Some(&below) => *self.above.entry((level, below)).or_insert(drawn),
                None => drawn,
            };
        }
        classes(&found)
    }
}

/// Up to so many classes at each level: few, so that several people share them.
const MOST_SHARED: [usize; MOST_CLASS_LEVELS] = [3, 5, 7];

/// Classes that several people share: of a level as many as were drawn, and each in the one above that its number gives.
pub struct Shared {
    sizes: Vec<usize>,
}

impl Shared {
    pub fn new(random: &mut Random, form: Form) -> Shared {
        let used = &MOST_SHARED[..form.class_levels().into()];
        Shared { sizes: used.iter().map(|&most| random.within(1, most)).collect() }
    }

    pub fn next(&self, random: &mut Random) -> Classes {
        let lowest = *self.sizes.last().expect("a sheet has a class level");
        let mut place = random.below(lowest);
        let mut found = vec![0; self.sizes.len()];
        for (level, size) in self.sizes.iter().enumerate().rev() {
            place %= size;
            found[level] = 1 + place as u16;
        }
        classes(&found)
    }
}

#[cfg(test)]
mod tests {
    use super::*;
    use crate::job::Person;
    use std::collections::BTreeSet;

    /// That no class lies in two, that there are as many levels as the form has, and that some class has two below it at each.
    fn check(form: Form, drawn: Vec<Classes>) -> bool {
        let people: Vec<Person> = drawn.iter().map(|found| person_in(1, found, 0)).collect();
        let levels = usize::from(form.class_levels());
        assert!(drawn.iter().all(|found| found[..levels].iter().all(|&class| class != 0)), "{form}");
        assert!(drawn.iter().all(|found| found[levels..].iter().all(|&class| class == 0)), "{form}");
        let mut pairs = people.iter().flat_map(|one| people.iter().map(move |two| (one, two)));
        assert!(!pairs.any(|(one, two)| form.nested_levels().any(|level| one.puts_in_two(two, level))), "{form}");
        let different = |level: usize| drawn.iter().map(|found| found[level]).collect::<BTreeSet<_>>().len();
        (1..levels).all(|level| different(level - 1) < different(level))
    }

    #[test]
    fn classes_are_nested_and_branch() {
        let random = &mut Random::new(21);
        for form in Form::ALL {
            let mut branched = [0; 2];
            for _ in 0..100 {
                let mut scattered = Scattered::new(random, form);
                let shared = Shared::new(random, form);
                let drawn = (0..20).map(|_| scattered.next(random)).collect();
                branched[0] += usize::from(check(form, drawn));
                let drawn = (0..20).map(|_| shared.next(random)).collect();
                branched[1] += usize::from(check(form, drawn));
            }
            assert!(branched.iter().all(|&times| times > 20), "{form}: {branched:?}");
        }
    }

    #[test]
    fn every_form_is_drawn_and_version_1_most_often() {
        let random = &mut Random::new(22);
        let drawn: Vec<Form> = (0..600).map(|_| any_form(random)).collect();
        let times = Form::ALL.map(|form| drawn.iter().filter(|&&met| met == form).count());
        assert!(times[0] > 250 && times[1..].iter().all(|&times| times > 70), "{times:?}");
    }
}
