//! Needs as a pseudo-Boolean problem in the format of the competitions.

use super::needs::{Need, Needs, Var};

fn sum(of: &[Var], sign: char) -> String {
    of.iter().map(|var| format!("{sign}1 x{var} ")).collect()
}

/// A sum of nothing has no place in the format: a bound that it keeps needs no line, one that it breaks needs two.
fn bound(of: &[Var], sign: char, least: i64) -> Vec<String> {
    match of {
        [] if least <= 0 => vec![],
        [] => vec!["+1 x1 >= 1 ;".to_string(), "-1 x1 >= 0 ;".to_string()],
        of => vec![format!("{}>= {least} ;", sum(of, sign))],
    }
}

fn lines(need: &Need) -> Vec<String> {
    match need {
        Need::Between { of, low, high } if low == high && !of.is_empty() => vec![format!("{}= {low} ;", sum(of, '+'))],
        Need::Between { of, low, high } => {
            let above = bound(of, '+', *low as i64);
            let below = if *high < of.len() { bound(of, '-', -(*high as i64)) } else { vec![] };
            [above, below].concat()
        }
        Need::Join { of, whole } => vec![format!("{}-1 x{whole} = 0 ;", sum(of, '+'))],
        Need::Backed { of, whole } => vec![format!("{}-1 x{whole} >= 0 ;", sum(of, '+'))],
        Need::Same(a, b) => vec![format!("+1 x{a} -1 x{b} = 0 ;")],
        Need::NotBoth(a, b) => vec![format!("-1 x{a} -1 x{b} >= -1 ;")],
        Need::Then(a, b) => vec![format!("+1 x{b} -1 x{a} >= 0 ;")],
        Need::Never(a) => vec![format!("-1 x{a} >= 0 ;")],
    }
}

pub fn text(needs: &Needs) -> String {
    let lines: Vec<String> = needs.all.iter().flat_map(lines).collect();
    format!("* #variable= {} #constraint= {}\n{}\n", needs.vars.max(1), lines.len(), lines.join("\n"))
}

#[cfg(test)]
mod tests {
    use super::*;

    #[test]
    fn needs_are_written_as_sums() {
        let of = vec![1, 2];
        assert_eq!(lines(&Need::Between { of: of.clone(), low: 1, high: 1 }), ["+1 x1 +1 x2 = 1 ;"]);
        assert_eq!(
            lines(&Need::Between { of: vec![1, 2, 3], low: 0, high: 2 }).last().unwrap(),
            "-1 x1 -1 x2 -1 x3 >= -2 ;"
        );
        assert_eq!(lines(&Need::Between { of: vec![], low: 1, high: 1 }), ["+1 x1 >= 1 ;", "-1 x1 >= 0 ;"]);
        assert_eq!(lines(&Need::Join { of, whole: 3 }), ["+1 x1 +1 x2 -1 x3 = 0 ;"]);
        assert_eq!(lines(&Need::Then(4, 5)), ["+1 x5 -1 x4 >= 0 ;"]);
    }
}
