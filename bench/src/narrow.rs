//! Narrowing of domains: arc consistency on pairs, what a count forces once it is at one of its ends, and what a class that is full
//! forces.

use crate::problem::{Count, Domains, Load, Pair, Problem};

/// Everybody who shares a class with somebody of the domain.
fn classes_of(class: &[u64], mut domain: u64) -> u64 {
    let mut found = 0;
    while domain != 0 {
        let one = class[domain.trailing_zeros() as usize];
        found |= one;
        domain &= !one;
    }
    found
}

/// The class in which the whole domain lies, if there is one.
fn single_class(class: &[u64], domain: u64) -> Option<u64> {
    let one = class[domain.trailing_zeros() as usize];
    (domain & !one == 0).then_some(one)
}

fn narrow_pair(problem: &Problem, pair: &Pair, domains: &mut Domains) {
    let class = &problem.class[pair.level];
    let [a, b] = pair.steps;
    for (one, other) in [(a, b), (b, a)] {
        if domains[other] == 0 {
            return;
        }
        if pair.same {
            domains[one] &= classes_of(class, domains[other]);
        } else if let Some(taken) = single_class(class, domains[other]) {
            domains[one] &= !taken;
        }
    }
}

/// False where the count cannot be met any more.
fn narrow_count(problem: &Problem, count: &Count, domains: &mut Domains) -> bool {
    let class = &problem.class[count.level];
    let (mut used, mut groups, mut open) = (0, 0, 0);
    for &step in &count.scope {
        match single_class(class, domains[step]) {
            None => open += 1,
            Some(one) if used & one == 0 => {
                used |= one;
                groups += 1;
            }
            Some(_) => {}
        }
    }
    if groups > count.high || groups + open < count.low {
        return false;
    }
    let joins = groups == count.high;
    let avoids = groups + open == count.low;
    for &step in &count.scope {
        if single_class(class, domains[step]).is_some() {
            continue;
        }
        if joins {
            domains[step] &= used;
        }
        if avoids {
            domains[step] &= !used;
        }
        if domains[step] == 0 {
            return false;
        }
    }
    true
}

/// Whether the classes can hold all steps of the scope: each as many as it may, of those that somebody of it can do.
fn has_room(class: &[u64], load: &Load, domains: &Domains) -> bool {
    let wanted = load.scope.len();
    let mut left = load.scope.iter().fold(0, |left, &step| left | domains[step]);
    let mut room = 0;
    while left != 0 && room < wanted {
        let one = class[left.trailing_zeros() as usize];
        left &= !one;
        room += load.scope.iter().filter(|&&step| domains[step] & one != 0).count().min(load.most);
    }
    room >= wanted
}

/// A class that holds as many steps as it may takes no other. False where one holds more, or the steps left have no room.
fn narrow_load(problem: &Problem, load: &Load, domains: &mut Domains) -> bool {
    let class = &problem.class[load.level];
    let (mut seen, mut full) = (0, 0);
    for &step in &load.scope {
        let Some(one) = single_class(class, domains[step]).filter(|one| seen & one == 0) else {
            continue;
        };
        seen |= one;
        let held = load.scope.iter().filter(|&&step| domains[step] & !one == 0).count();
        if held > load.most {
            return false;
        }
        if held == load.most {
            full |= one;
        }
    }
    for &step in &load.scope {
        if domains[step] & full != 0 && single_class(class, domains[step]).is_none() {
            domains[step] &= !full;
        }
        if domains[step] == 0 {
            return false;
        }
    }
    has_room(class, load, domains)
}

/// Narrows until nothing changes; false where some step has nobody left.
pub fn narrow(problem: &Problem, domains: &mut Domains) -> bool {
    loop {
        let before = *domains;
        for pair in &problem.pairs {
            narrow_pair(problem, pair, domains);
        }
        if domains[..problem.steps].contains(&0) {
            return false;
        }
        if !problem.counts.iter().all(|count| narrow_count(problem, count, domains)) {
            return false;
        }
        if !problem.loads.iter().all(|load| narrow_load(problem, load, domains)) {
            return false;
        }
        if *domains == before {
            return true;
        }
    }
}
