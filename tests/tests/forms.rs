//! The library on sheets of both versions that mean the same: every number and every byte is the same.

use model::answers::{Call, MOST_CAP, MOST_CREW_BYTES};
use model::builder::{lay, Draft};
use model::card::{CLASS_LEVELS, MOST_BYTES};
use model::forms::{in_version_2, Variant};
use model::garble::{sample, sample_of};
use model::job::{Form, Job, MOST_PEOPLE, MOST_STEPS};
use model::jobs::{laid, small_job, tried_job};
use model::library::{open, refusals, run, sign};
use model::plans::is_small;
use model::random::Random;
use model::reader::{read, stated_form};
use model::recipe::practice_job;
use model::signing::Work;

const TWO: Form = Form::Second { class_levels: 2 };

/// What each call leaves; the engine that tries every plan is asked only where it soon ends.
fn outcomes(sheet: &[u8], room: usize, tried: bool) -> Vec<(u32, Vec<u8>)> {
    let mut calls: Vec<Call> = (0..=MOST_CAP + 1).map(|cap| Call::Spare { cap }).collect();
    calls.push(Call::Crew);
    calls.extend(tried.then_some(Call::CrewByTrial));
    let outcome = |call| {
        let mut area: Vec<u8> = (0..room).map(|k| 0xA5 ^ k as u8).collect();
        (run(call, sheet, &mut area), area)
    };
    calls.into_iter().map(outcome).collect()
}

/// Opens both sheets and has the same people sign the same steps: numbers, signers and counts are the same.
fn are_signed_alike(random: &mut Random, sheets: [&[u8]; 2]) -> u32 {
    let mut works = [Work::NEW, Work::NEW];
    let opened = [0, 1].map(|at| open(&mut works[at], sheets[at]));
    assert_eq!(opened[0], opened[1]);
    let Ok(job) = read(sheets[0]) else {
        return opened[0];
    };
    for _ in 0..20 {
        let step = job.steps[random.below(job.steps.len())].tag;
        let person = job.people[random.below(job.people.len())].tag;
        let numbers = works.each_mut().map(|work| sign(work, step, person));
        assert_eq!(numbers[0], numbers[1], "{job:?}");
    }
    assert_eq!(works[0].signer, works[1].signer);
    assert_eq!(refusals(&works[0]), refusals(&works[1]));
    opened[0]
}

fn can_be_tried(sheet: &[u8]) -> bool {
    read(sheet).map_or(true, |job| is_small(&job))
}

/// A garbled or good sheet with the header of version 1, or of version 2 with two levels.
fn any_sheet(random: &mut Random) -> Vec<u8> {
    loop {
        let sheet = if random.once_in(2) { sample(random).sheet } else { sample_of(random, small_job).sheet };
        if matches!(stated_form(&sheet), Some(Form::First | TWO)) && can_be_tried(&sheet) {
            return sheet;
        }
    }
}

#[test]
fn a_version_2_sheet_with_two_levels_is_answered_as_the_version_1_sheet_with_its_cards() {
    let random = &mut Random::new(31);
    let mut met = [0; 14];
    for _ in 0..20_000 {
        let sheet = any_sheet(random);
        let [first, second] = [Form::First, TWO].map(|form| Draft::of(sheet.clone()).form(form).bytes);
        let room = random.below(MOST_CREW_BYTES + 1);
        assert!(outcomes(&first, room, true) == outcomes(&second, room, true), "{sheet:?}");
        met[are_signed_alike(random, [&first, &second]) as usize / 256] += 1;
    }
    // Every refusal of an opening, and none.
    assert!(met[0] > 1_000 && met[3..].iter().all(|&times| times > 20), "{met:?}");
}

/// The first sheet, and one of version 2 with the same plans.
fn check_variants(random: &mut Random, job: &Job, tried: bool) -> usize {
    let sheet = laid(random, job).bytes;
    let variants = in_version_2(job);
    for Variant { name, job: other } in &variants {
        let changed = laid(random, other).bytes;
        let both = [&sheet, &changed].map(|sheet| outcomes(sheet, MOST_CREW_BYTES, tried));
        assert!(both[0] == both[1], "{name}: {other:?}");
        are_signed_alike(random, [&sheet, &changed]);
    }
    variants.len()
}

#[test]
fn levels_that_no_rule_names_change_no_answer() {
    let random = &mut Random::new(32);
    let mut checked = 0;
    for round in 0..4_000 {
        let job = if round % 20 == 0 { tried_job(random) } else { small_job(random) };
        if job.form == Form::First {
            checked += check_variants(random, &job, true);
        }
    }
    assert!(checked > 6_000, "{checked}");
}

#[test]
fn levels_that_no_rule_names_change_no_answer_on_sheets_of_full_size() {
    let random = &mut Random::new(33);
    for (start, rules) in (1..=10).flat_map(|start| [0, 2, 4, 8, 12, 20, 64].map(|rules| (start, rules))) {
        let job = practice_job(start, MOST_STEPS, MOST_PEOPLE, rules);
        assert!(check_variants(random, &job, false) >= 3);
    }
}

#[test]
fn a_sheet_that_states_no_good_number_of_levels_is_refused_with_4() {
    let job = practice_job(3, MOST_STEPS, MOST_PEOPLE, 64);
    let sheet = lay(&job);
    assert_eq!(sheet.bytes.len(), MOST_BYTES);
    for (version, levels) in (0..=255).flat_map(|version| (0..=255).map(move |levels| (version, levels))) {
        let is_good = (version, levels) == (1, 0) || version == 2 && (1..=3).contains(&levels);
        if !is_good {
            let changed = sheet.clone().byte(0, 1, version).byte(0, CLASS_LEVELS, levels);
            let mut area = [0xA5; MOST_CREW_BYTES];
            assert_eq!(run(Call::Crew, &changed.bytes, &mut area), 4 * 256, "version {version}, {levels} levels");
            assert_eq!(area, [0xA5; MOST_CREW_BYTES]);
        }
    }
}
