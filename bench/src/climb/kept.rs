//! The worst sheets of a run.

use model::job::Job;
use std::time::Duration;

/// Where a climb ended.
#[derive(Clone)]
pub struct Place {
    pub job: Job,
    pub time: Duration,
    pub changes: usize,
}

pub struct Kept {
    most: usize,
    /// Slowest first.
    places: Vec<(String, Place)>,
}

impl Kept {
    pub fn new(most: usize) -> Kept {
        Kept { most, places: vec![] }
    }

    /// Takes a place in. The name given back is that of the one which is then too many, perhaps this one.
    pub fn offer(&mut self, name: &str, place: &Place) -> Option<String> {
        let at = self.places.partition_point(|(_, other)| other.time >= place.time);
        self.places.insert(at, (name.to_string(), place.clone()));
        if self.places.len() <= self.most {
            return None;
        }
        self.places.pop().map(|(name, _)| name)
    }

    pub fn worst_first(&self) -> &[(String, Place)] {
        &self.places
    }
}

#[cfg(test)]
mod tests {
    use super::*;

    #[test]
    fn the_quickest_goes_out() {
        let mut kept = Kept::new(2);
        let place = |millis| Place { job: Job::default(), time: Duration::from_millis(millis), changes: 0 };
        assert_eq!(kept.offer("a", &place(5)), None);
        assert_eq!(kept.offer("b", &place(9)), None);
        assert_eq!(kept.offer("c", &place(7)), Some("a".to_string()));
        assert_eq!(kept.offer("d", &place(6)), Some("d".to_string()));
        let names: Vec<&str> = kept.worst_first().iter().map(|(name, _)| name.as_str()).collect();
        assert_eq!(names, ["b", "c"]);
    }
}
