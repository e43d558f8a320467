//! Makes sheets from people, steps and rules, and changes single fields of them.

use crate::card::{CARD, CLASSES, CLASS_LEVELS, HEADER, PERSON, RULE, SKIPPED, STEP, VERSION_1, VERSION_2};
use crate::job::{
    Form, Job, Person, Rule, Step, AT_MOST, BY_BENCH, BY_PERSON, BY_SHOP, DIFFERENT, MOST_CLASS_LEVELS, MOST_STEPS,
    SAME,
};

/// A sheet in the making. Each change gives the sheet back, so that changes can be strung together.
#[derive(Clone, Debug)]
pub struct Draft {
    pub bytes: Vec<u8>,
}

impl Draft {
    pub fn of(bytes: Vec<u8>) -> Draft {
        Draft { bytes }
    }

    /// How many whole cards there are.
    pub fn cards(&self) -> usize {
        self.bytes.len() / CARD
    }

    pub fn byte(mut self, card: usize, at: usize, value: u8) -> Draft {
        self.bytes[card * CARD + at] = value;
        self
    }

    pub fn word(mut self, card: usize, at: usize, value: u16) -> Draft {
        let start = card * CARD + at;
        self.bytes[start..start + 2].copy_from_slice(&value.to_le_bytes());
        self
    }

    pub fn long(mut self, card: usize, at: usize, value: u32) -> Draft {
        let start = card * CARD + at;
        self.bytes[start..start + 4].copy_from_slice(&value.to_le_bytes());
        self
    }

    /// The card that follows `card` on its chain.
    pub fn next(self, card: usize, to: u16) -> Draft {
        self.word(card, 2, to)
    }

    /// The version and the number of class levels that the header states.
    pub fn form(self, form: Form) -> Draft {
        let (version, class_levels) = match form {
            Form::First => (VERSION_1, 0),
            Form::Second { class_levels } => (VERSION_2, class_levels),
        };
        self.byte(0, 1, version).byte(0, CLASS_LEVELS, class_levels)
    }

    /// The class of the person on `card` at a level.
    pub fn class(self, card: usize, level: u8, class: u16) -> Draft {
        self.word(card, CLASSES[usize::from(level) - 1], class)
    }

    /// The step on `card` is skipped.
    pub fn skip(self, card: usize) -> Draft {
        self.byte(card, 1, SKIPPED)
    }

    pub fn first_person(self, to: u16) -> Draft {
        self.word(0, 4, to)
    }

    pub fn first_step(self, to: u16) -> Draft {
        self.word(0, 6, to)
    }

    pub fn first_rule(self, to: u16) -> Draft {
        self.word(0, 8, to)
    }

    /// The number of cards that the header gives.
    pub fn number(self, cards: u16) -> Draft {
        self.word(0, 10, cards)
    }

    /// The first `length` bytes.
    pub fn cut(mut self, length: usize) -> Draft {
        self.bytes.truncate(length);
        self
    }

    /// With bytes after the end; the header stays as it is.
    pub fn and(mut self, more: &[u8]) -> Draft {
        self.bytes.extend_from_slice(more);
        self
    }

    /// With a card after the last, on no chain, and the number of cards one up.
    pub fn and_card(self, card: [u8; CARD]) -> Draft {
        let longer = self.and(&card);
        let cards = longer.cards() as u16;
        longer.number(cards)
    }
}

pub fn person(tag: u32, shop: u16, bench: u16, permitted: u16) -> Person {
    person_in(tag, &[shop, bench], permitted)
}

/// Somebody in these classes, topmost first.
pub fn person_in(tag: u32, classes: &[u16], permitted: u16) -> Person {
    let mut class = [0; MOST_CLASS_LEVELS];
    class[..classes.len()].copy_from_slice(classes);
    Person { tag, class, permitted }
}

pub fn step(tag: u32) -> Step {
    Step { tag, skipped: false }
}

pub fn rule(kind: u8, level: u8, limit: u8, scope: u16) -> Rule {
    Rule { kind, level, limit, scope }
}

/// The index of the first card of a chain, 0 where it is empty.
fn first(places: &[usize]) -> u16 {
    places.first().map_or(0, |&place| place as u16)
}

/// The index that follows the `k`th card of a chain, 0 after the last.
fn after(places: &[usize], k: usize) -> u16 {
    places.get(k + 1).map_or(0, |&place| place as u16)
}

/// The sheet whose people, steps and rules, one after the other, lie at `places`.
pub fn lay_at(job: &Job, places: &[usize]) -> Draft {
    let cards = 1 + job.people.len() + job.steps.len() + job.rules.len();
    assert_eq!(places.len() + 1, cards);
    let (people, rest) = places.split_at(job.people.len());
    let (steps, rules) = rest.split_at(job.steps.len());
    let mut draft = Draft::of(vec![0; cards * CARD])
        .byte(0, 0, HEADER)
        .form(job.form)
        .first_person(first(people))
        .first_step(first(steps))
        .first_rule(first(rules))
        .number(cards as u16);
    for (k, (&card, person)) in people.iter().zip(&job.people).enumerate() {
        draft = draft.byte(card, 0, PERSON).next(card, after(people, k)).long(card, 4, person.tag).word(
            card,
            12,
            person.permitted,
        );
        for (&at, &class) in CLASSES.iter().zip(&person.class) {
            draft = draft.word(card, at, class);
        }
    }
    for (k, (&card, step)) in steps.iter().zip(&job.steps).enumerate() {
        draft = draft.byte(card, 0, STEP).next(card, after(steps, k)).long(card, 4, step.tag);
        if step.skipped {
            draft = draft.skip(card);
        }
    }
    for (k, (&card, rule)) in rules.iter().zip(&job.rules).enumerate() {
        draft = draft
            .byte(card, 0, RULE)
            .byte(card, 1, rule.kind)
            .next(card, after(rules, k))
            .byte(card, 4, rule.level)
            .byte(card, 5, rule.limit)
            .word(card, 6, rule.scope);
    }
    draft
}

/// The sheet whose cards lie in the order of the chains: header, people, steps, rules.
pub fn lay(job: &Job) -> Draft {
    let cards = job.people.len() + job.steps.len() + job.rules.len();
    lay_at(job, &(1..=cards).collect::<Vec<_>>())
}

/// A job of the given size: tags from 1,001, 2,001, all in shop 1, each at a bench, all permitted.
pub fn plain_job(people: usize, steps: usize, rules: usize) -> Job {
    plain_job_in(Form::First, people, steps, rules)
}

/// The same with other levels: each person has a class of their own at the last, and all are in class 1 of those above.
pub fn plain_job_in(form: Form, people: usize, steps: usize, rules: usize) -> Job {
    let all = ((1u32 << steps.min(MOST_STEPS)) - 1) as u16;
    let classes = |k: usize| [vec![1; usize::from(form.class_levels()) - 1], vec![1 + k as u16]].concat();
    Job {
        form,
        people: (0..people).map(|k| person_in(1_001 + k as u32, &classes(k), all)).collect(),
        steps: (0..steps).map(|k| step(2_001 + k as u32)).collect(),
        rules: (0..rules).map(|_| rule(AT_MOST, form.person_level(), 2, 3)).collect(),
    }
}

/// The job with these steps skipped, named by their places on the chain.
pub fn skipping(mut job: Job, steps: impl IntoIterator<Item = usize>) -> Job {
    steps.into_iter().for_each(|step| job.steps[step].skipped = true);
    job
}

/// A plain job that only the last person is permitted.
pub fn last_alone(people: usize, steps: usize) -> Job {
    let mut job = plain_job(people, steps, 0);
    job.people[..people - 1].iter_mut().for_each(|person| person.permitted = 0);
    job
}

pub fn plain(people: usize, steps: usize, rules: usize) -> Draft {
    lay(&plain_job(people, steps, rules))
}

pub fn plain_in(form: Form, people: usize, steps: usize, rules: usize) -> Draft {
    lay(&plain_job_in(form, people, steps, rules))
}

pub fn job_w() -> Job {
    Job {
        people: vec![person(101, 1, 1, 7), person(102, 1, 1, 7), person(103, 1, 2, 4), person(104, 2, 3, 4)],
        steps: vec![step(10), step(20), step(30)],
        rules: vec![rule(SAME, BY_BENCH, 0, 3), rule(SAME, BY_SHOP, 0, 6), rule(DIFFERENT, BY_PERSON, 0, 6)],
        ..Job::default()
    }
}

/// W in another form, its cards at the same places: its shops alone, where the rule by bench is one by shop, or with pairs, where
/// 101 and 102 are of one bench and two pairs.
pub fn job_w_in(form: Form) -> Job {
    let mut job = Job { form, ..job_w() };
    let levels = form.class_levels();
    for (person, pair) in job.people.iter_mut().zip(1..) {
        let [shop, bench, _] = person.class;
        person.class = person_in(0, &[shop, bench, pair][..levels.into()], 0).class;
    }
    job.rules[0].level = levels.min(BY_BENCH);
    job.rules[2].level = form.person_level();
    job
}

pub fn sheet_w_in(form: Form) -> Draft {
    lay(&job_w_in(form))
}

/// Sheet W: header 0, people 1 to 4, steps 5 to 7, rules 8 to 10.
pub fn sheet_w() -> Draft {
    lay(&job_w())
}

/// W with its cards mixed: people at 9, 2, 7, 4, steps at 1, 10, 5, rules at 8, 3, 6.
pub fn spread_w() -> Draft {
    lay_at(&job_w(), &[9, 2, 7, 4, 1, 10, 5, 8, 3, 6])
}

/// W with all of its steps skipped.
pub fn skipped_w() -> Draft {
    lay(&skipping(job_w(), 0..3))
}

/// W with one rule more.
pub fn w_and(kind: u8, level: u8, limit: u8, scope: u16) -> Draft {
    let mut job = job_w();
    job.rules.push(rule(kind, level, limit, scope));
    lay(&job)
}

/// W without its last rule.
pub fn shorter_w() -> Draft {
    let mut job = job_w();
    job.rules.pop();
    lay(&job)
}

/// One person and one step, both with tag 1.
pub fn one_by_one(permitted: u16) -> Draft {
    lay(&Job { people: vec![person(1, 1, 1, permitted)], steps: vec![step(1)], ..Job::default() })
}

#[cfg(test)]
mod tests {
    use super::*;
    use crate::job::{MOST_PEOPLE, MOST_RULES};
    use crate::random::Random;
    use crate::reader::read;

    #[test]
    fn what_is_laid_is_read_back() {
        for (people, steps, rules) in [(1, 1, 0), (4, 3, 3), (MOST_PEOPLE, MOST_STEPS, MOST_RULES), (1, MOST_STEPS, 0)]
        {
            for job in Form::ALL.map(|form| plain_job_in(form, people, steps, rules)) {
                for job in [skipping(job.clone(), [steps - 1]), skipping(job.clone(), 0..steps), job] {
                    assert_eq!(read(&lay(&job).bytes), Ok(job));
                }
            }
        }
    }

    #[test]
    fn w_is_laid_in_every_form() {
        assert_eq!(job_w_in(Form::First), job_w());
        let two = Form::Second { class_levels: 2 };
        assert_eq!(job_w_in(two), Job { form: two, ..job_w() });
        // What differs: two bytes of the header, the classes of the people, the levels of rules.
        let differing: [&[usize]; 4] =
            [&[], &[1, 12, 26, 42, 58, 74, 132, 164], &[1, 12], &[1, 12, 30, 46, 62, 78, 164]];
        for (form, expected) in Form::ALL.into_iter().zip(differing) {
            let sheet = sheet_w_in(form).bytes;
            assert_eq!(read(&sheet), Ok(job_w_in(form)), "{form}");
            let differs = |at: &usize| sheet[*at] != sheet_w().bytes[*at];
            assert_eq!((0..sheet.len()).filter(differs).collect::<Vec<_>>(), expected, "{form}");
        }
    }

    #[test]
    fn the_order_of_the_cards_does_not_matter() {
        let mut random = Random::new(1);
        let job = job_w();
        for _ in 0..100 {
            let places = random.order(10);
            assert_eq!(read(&lay_at(&job, &places).bytes), Ok(job.clone()));
        }
    }
}
