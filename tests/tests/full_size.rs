//! Jobs of full size, which are too large for the brute force: under work, with skipped steps, and spread over benches, in every
//! form.

use model::answers::{crew_bytes, spare_bytes, Call, MOST_CAP, MOST_CREW_BYTES, SPARE_BYTES};
use model::builder::{lay, person, person_in, rule, skipping, step};
use model::card::MOST_BYTES;
use model::job::{Form, Job, AT_MOST, BY_BENCH, BY_PERSON, MAX_LOAD, MOST_PEOPLE, MOST_RULES, MOST_STEPS, SAME};
use model::library::{open, run, sign};
use model::plans::{is_valid, plan_by};
use model::random::Random;
use model::recipe::{practice_job, practice_job_in};
use model::shortened::shortened;
use model::signing::Work;
use sheet_tests::numbers::{GRANTED, REFUSED, SIGNED, UNKNOWN};

/// Every card that there may be: each person may do one step, the last one the last step. One rule binds: step 0 and the last
/// are done at one bench.
fn longest_sheet() -> Vec<u8> {
    let all = (1 << MOST_STEPS) - 1;
    let may = |i: usize| 1 << (MOST_STEPS - 1 - (MOST_PEOPLE - 1 - i) % MOST_STEPS);
    let mut rules = vec![rule(AT_MOST, BY_PERSON, MOST_STEPS as u8, all); MOST_RULES - 1];
    rules.push(rule(SAME, BY_BENCH, 0, 1 | 1 << (MOST_STEPS - 1)));
    let job = Job {
        people: (0..MOST_PEOPLE).map(|i| person(1 + i as u32, 1, 1 + i as u16 / 32, may(i))).collect(),
        steps: (0..MOST_STEPS).map(|j| step(1 + j as u32)).collect(),
        rules,
        ..Job::default()
    };
    lay(&job).bytes
}

#[test]
fn the_longest_sheet_is_held_and_signed_to_its_end() {
    let sheet = longest_sheet();
    assert_eq!(sheet.len(), MOST_BYTES);
    let mut work = Work::NEW;
    assert_eq!(open(&mut work, &sheet), 0);
    assert_eq!(work, Work::holding(&sheet));
    let last = MOST_STEPS as u32;
    // Of those who may do the first step 53 sits at the bench of 64, and 5 at the other.
    assert_eq!(sign(&mut work, last, 64), GRANTED);
    assert_eq!(sign(&mut work, 1, 5), REFUSED);
    assert_eq!(sign(&mut work, 1, 53), GRANTED);
    for (step, person) in (2..last).rev().map(|step| (step, 52 + step)) {
        assert_eq!(sign(&mut work, step, 1 + person), REFUSED);
        assert_eq!(sign(&mut work, step, person), GRANTED);
        assert_eq!(sign(&mut work, step, person), SIGNED);
    }
    let signer = std::array::from_fn(|step| 53 + step as u8);
    assert_eq!(work, Work { refusals: 1 + 2 * (last - 2), signer, ..Work::holding(&sheet) });
}

/// The sheet on which each signed step is permitted to its signer alone.
fn narrowed(job: &Job, work: &Work) -> Vec<u8> {
    let mut job = job.clone();
    for (at, person) in job.people.iter_mut().enumerate() {
        let barred = |step: &usize| work.signer[*step] != 0 && usize::from(work.signer[*step]) != at + 1;
        person.permitted &= !(0..MOST_STEPS).filter(barred).map(|step| 1 << step).sum::<u16>();
    }
    lay(&job).bytes
}

/// Too large for the brute force: the crew call tells whether a plan agrees.
#[test]
fn full_size_jobs_are_granted_what_the_crew_call_finds() {
    let random = &mut Random::new(5);
    let (mut jobs, mut granted, mut refused) = (0, 0, 0);
    let mut forms = vec![];
    for job in practice_jobs(12, &[0, 4, 8, 10, 12]) {
        let name = format!("{}, {} rules", job.form, job.rules.len());
        let mut work = Work::NEW;
        if open(&mut work, &lay(&job).bytes) != 0 {
            continue;
        }
        for step in random.order(MOST_STEPS).into_iter().map(|step| step - 1) {
            for person in random.order(MOST_PEOPLE).into_iter().map(|person| person - 1) {
                let mut signed = work.clone();
                signed.signer[step] = person as u8 + 1;
                let planned = run(Call::Crew, &narrowed(&job, &signed), &mut [0; MOST_CREW_BYTES]) == 0;
                let number = sign(&mut work, job.steps[step].tag, job.people[person].tag);
                assert_eq!(number, if planned { GRANTED } else { REFUSED }, "{name}");
                if planned {
                    granted += 1;
                    break;
                }
                refused += 1;
            }
        }
        let plan = plan_by(&job, work.signer.map(|signer| usize::from(signer) - 1));
        assert!(is_valid(&job, &plan), "{name}");
        jobs += 1;
        forms.push(job.form);
    }
    assert!(Form::ALL.iter().all(|form| forms.contains(form)));
    assert!(jobs >= 30 && granted == MOST_STEPS * jobs && refused > granted, "{jobs} {granted} {refused}");
}

/// Practice jobs of full size with so many rules: those of version 1 with so many starts, those of version 2 with a third.
fn practice_jobs(starts: u32, rules: &[usize]) -> Vec<Job> {
    let mut jobs = vec![];
    for form in Form::ALL {
        let starts = if form == Form::First { starts } else { starts.div_ceil(3) };
        let sizes = (1..=starts).flat_map(|start| rules.iter().map(move |&rules| (start, rules)));
        jobs.extend(sizes.map(|(start, rules)| practice_job_in(form, start, MOST_STEPS, MOST_PEOPLE, rules)));
    }
    jobs
}

/// Practice jobs of full size, some of their steps skipped: at least one of twelve remains.
fn skipping_jobs() -> impl Iterator<Item = Job> {
    let mut random = Random::new(7);
    practice_jobs(40, &[0, 4, 8, 12, 20, 64]).into_iter().map(move |job| {
        let order = random.order(MOST_STEPS);
        let left = random.within(1, MOST_STEPS - 1);
        skipping(job, order[left..].iter().map(|step| step - 1))
    })
}

#[test]
fn full_size_jobs_are_planned_as_the_sheets_without_their_skipped_steps() {
    let (mut planned, mut refused) = (vec![], 0);
    for job in skipping_jobs() {
        for call in [Call::Crew, Call::Spare { cap: MOST_CAP }] {
            let [found, expected] = [lay(&job), lay(&shortened(&job))].map(|sheet| {
                let mut area = [0xA5; MOST_CREW_BYTES];
                (run(call, &sheet.bytes, &mut area), area)
            });
            assert!(found == expected, "{call:?}, {job:?}");
            match found.0 {
                0 => planned.push(job.form),
                _ => refused += 1,
            }
        }
    }
    let times = Form::ALL.map(|form| planned.iter().filter(|&&met| met == form).count());
    assert!(times[0] > 100 && times[1..].iter().all(|&times| times > 30) && refused > 100, "{times:?} {refused}");
}

/// On both sheets some people in turn try to sign every step; a skipped one is not on the second, and unknown on both.
#[test]
fn full_size_jobs_are_signed_as_the_sheets_without_their_skipped_steps() {
    let random = &mut Random::new(8);
    let mut numbers = vec![];
    for job in skipping_jobs() {
        let sheets = [lay(&job), lay(&shortened(&job))];
        let mut works = [Work::NEW, Work::NEW];
        let opened = [0, 1].map(|at| open(&mut works[at], &sheets[at].bytes));
        assert_eq!(opened[0], opened[1], "{job:?}");
        if opened[0] != 0 {
            continue;
        }
        for step in random.order(MOST_STEPS).into_iter().map(|step| step - 1) {
            for person in random.order(MOST_PEOPLE).into_iter().take(6).map(|person| person - 1) {
                let signed = works.each_mut().map(|work| sign(work, job.steps[step].tag, job.people[person].tag));
                assert_eq!(signed[0], signed[1], "{job:?}");
                assert!(!job.steps[step].skipped || signed[0] == UNKNOWN, "{job:?}");
                numbers.push(signed[0]);
            }
        }
        assert_eq!(
            works[0],
            Work { refusals: works[1].refusals, signer: works[1].signer, ..Work::holding(&sheets[0].bytes) }
        );
    }
    for number in [GRANTED, UNKNOWN, SIGNED, REFUSED] {
        assert!(numbers.iter().filter(|&&met| met == number).count() > 50, "{number}");
    }
}

#[test]
fn a_full_sheet_with_all_steps_skipped_needs_nobody() {
    let sheet = lay(&skipping(practice_job(3, MOST_STEPS, MOST_PEOPLE, MOST_RULES), 0..MOST_STEPS)).bytes;
    assert_eq!(sheet.len(), MOST_BYTES);
    for call in [Call::Crew, Call::CrewByTrial] {
        assert_eq!(run(call, &sheet, &mut []), 0);
        let mut area = [0xA5; MOST_CREW_BYTES];
        assert_eq!((run(call, &sheet, &mut area), area), (0, [0xA5; MOST_CREW_BYTES]));
    }
    let mut work = Work::NEW;
    assert_eq!(open(&mut work, &sheet), 0);
    assert_eq!(work, Work::holding(&sheet));
    assert_eq!(sign(&mut work, 1, 100), UNKNOWN);
    assert_eq!(work, Work { refusals: 1, ..Work::holding(&sheet) });
}

/// 64 people who may do all 12 steps, by turns at four classes of the first level; below it each is in a class of their own. No
/// class of the first level holds more steps than the limit, skipped ones aside.
fn spread(form: Form, limit: u8, skipped: usize) -> Job {
    let all = (1 << MOST_STEPS) - 1;
    let classes = |i: usize| [1 + i as u16 % 4, 1 + i as u16, 1 + i as u16];
    let held = |i: usize| person_in(1 + i as u32, &classes(i)[..form.class_levels().into()], all);
    let job = Job {
        form,
        people: (0..MOST_PEOPLE).map(held).collect(),
        steps: (0..MOST_STEPS).map(|j| step(1 + j as u32)).collect(),
        rules: vec![rule(MAX_LOAD, 1, limit, all)],
    };
    skipping(job, 0..skipped)
}

/// The first of each class in turn does as many steps as the limit allows.
#[test]
fn twelve_steps_are_spread_over_four_classes() {
    for (form, limit, skipped) in
        Form::ALL.into_iter().flat_map(|form| [(form, 3, 0), (form, 4, 0), (form, 11, 0), (form, 2, 4), (form, 2, 9)])
    {
        let sheet = lay(&spread(form, limit, skipped)).bytes;
        let left = skipped..MOST_STEPS;
        let given = |j: usize| (1 + j as u32, 1 + ((j - skipped) / usize::from(limit)) as u32);
        let crew = crew_bytes(&left.map(given).collect::<Vec<_>>());
        let mut area = [0; MOST_CREW_BYTES];
        assert_eq!(run(Call::Crew, &sheet, &mut area), 0, "{form}, {limit}");
        assert_eq!(area[..crew.len()], crew, "{form}, {limit}");
        // Each class has sixteen people.
        let mut area = [0; SPARE_BYTES];
        assert_eq!(run(Call::Spare { cap: MOST_CAP }, &sheet, &mut area), 0, "{form}, {limit}");
        assert_eq!(area[..], spare_bytes(3, &[]), "{form}, {limit}");
    }
    for (form, skipped) in Form::ALL.into_iter().flat_map(|form| [0, 3].map(|skipped| (form, skipped))) {
        let sheet = lay(&spread(form, 2, skipped)).bytes;
        assert_eq!(run(Call::Crew, &sheet, &mut [0; MOST_CREW_BYTES]), 13 * 256, "{form}, {skipped} skipped");
    }
}
