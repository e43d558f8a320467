//! Needs as clauses. A count goes through a sequential counter: a variable for "so many among the first so many".

use super::needs::{Need, Needs, Var};

/// A variable, negative for its contrary.
pub type Lit = i64;
pub type Clause = Vec<Lit>;

pub struct Clauses {
    pub vars: Var,
    pub all: Vec<Clause>,
}

impl Clauses {
    pub fn new(needs: &Needs) -> Clauses {
        let mut clauses = Clauses { vars: needs.vars, all: vec![] };
        for need in &needs.all {
            clauses.add(need);
        }
        clauses
    }

    fn add(&mut self, need: &Need) {
        let lits = |of: &[Var]| of.iter().map(|var| Lit::from(*var)).collect::<Vec<Lit>>();
        let lit = |var: &Var| Lit::from(*var);
        match need {
            Need::Between { of, low, high } => {
                self.at_least(&lits(of), *low);
                self.at_most(&lits(of), *high);
            }
            Need::Join { of, whole } => {
                self.all.extend(of.iter().map(|one| vec![-lit(one), lit(whole)]));
                self.backed(lits(of), lit(whole));
            }
            Need::Backed { of, whole } => self.backed(lits(of), lit(whole)),
            Need::Same(a, b) => self.all.extend([vec![-lit(a), lit(b)], vec![lit(a), -lit(b)]]),
            Need::NotBoth(a, b) => self.all.push(vec![-lit(a), -lit(b)]),
            Need::Then(a, b) => self.all.push(vec![-lit(a), lit(b)]),
            Need::Never(a) => self.all.push(vec![-lit(a)]),
        }
    }

    fn backed(&mut self, mut of: Vec<Lit>, whole: Lit) {
        of.push(-whole);
        self.all.push(of);
    }

    fn new_row(&mut self, length: usize) -> Vec<Lit> {
        let first = Lit::from(self.vars) + 1;
        self.vars += length as Var;
        (first..first + length as Lit).collect()
    }

    /// `row[j]` is true when more than j of those so far are.
    fn at_most(&mut self, of: &[Lit], high: usize) {
        if high >= of.len() {
            return;
        }
        if high == 0 {
            self.all.extend(of.iter().map(|one| vec![-one]));
            return;
        }
        let mut before: Vec<Lit> = vec![];
        for one in of {
            if let Some(full) = before.get(high - 1) {
                self.all.push(vec![-one, -full]);
            }
            let row = self.new_row((before.len() + 1).min(high));
            self.all.push(vec![-one, row[0]]);
            for j in 0..before.len() {
                self.all.push(vec![-before[j], row[j]]);
                if j + 1 < row.len() {
                    self.all.push(vec![-one, -before[j], row[j + 1]]);
                }
            }
            before = row;
        }
    }

    /// `row[j]` is true only when more than j of those so far are.
    fn at_least(&mut self, of: &[Lit], low: usize) {
        if low == 0 {
            return;
        }
        if low == 1 {
            self.all.push(of.to_vec());
            return;
        }
        let mut before: Vec<Lit> = vec![];
        for one in of {
            let row = self.new_row((before.len() + 1).min(low));
            for (j, lit) in row.iter().enumerate() {
                let still: Vec<Lit> = before.get(j).copied().into_iter().collect();
                self.all.push([&[-lit, *one], &still[..]].concat());
                if j > 0 {
                    self.all.push([&[-lit, before[j - 1]], &still[..]].concat());
                }
            }
            before = row;
        }
        self.all.push(before.get(low - 1).copied().into_iter().collect());
    }
}

/// The clauses and some more in the DIMACS format.
pub fn text(clauses: &Clauses, more: &[Clause]) -> String {
    let all = clauses.all.iter().chain(more);
    let line = |clause: &Clause| clause.iter().map(|lit| format!("{lit} ")).collect::<String>() + "0\n";
    let head = format!("p cnf {} {}\n", clauses.vars.max(1), clauses.all.len() + more.len());
    head + &all.map(line).collect::<String>()
}

#[cfg(test)]
mod tests {
    use super::*;

    fn is_met(clause: &Clause, set: u64) -> bool {
        clause.iter().any(|lit| (set >> lit.unsigned_abs() & 1 == 1) == (*lit > 0))
    }

    /// Every count of every few variables: some values of the counter's own go with it exactly when it is within bounds.
    #[test]
    fn counters_count() {
        for wide in 0..=4u32 {
            for low in 0..=wide as usize + 1 {
                for high in 0..=wide as usize {
                    let mut clauses = Clauses { vars: wide, all: vec![] };
                    clauses.add(&Need::Between { of: (1..=wide).collect(), low, high });
                    let own = clauses.vars - wide;
                    for set in 0..1u64 << wide {
                        let all = (0..1u64 << own).map(|own| (own << wide | set) << 1);
                        let met = all.into_iter().any(|all| clauses.all.iter().all(|clause| is_met(clause, all)));
                        assert_eq!(met, (low..=high).contains(&(set.count_ones() as usize)), "{wide} {low} {high}");
                    }
                }
            }
        }
    }

    #[test]
    fn clauses_are_written_in_lines() {
        let clauses = Clauses { vars: 2, all: vec![vec![1, -2]] };
        assert_eq!(text(&clauses, &[vec![2]]), "p cnf 2 2\n1 -2 0\n2 0\n");
    }
}
