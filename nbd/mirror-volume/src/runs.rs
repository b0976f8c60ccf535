//! Sectors that are not whole, neighbours joined.

use std::fmt;

use mirror::Place;

/// Why a sector is not whole, in the order of repair.
#[derive(Clone, Copy, Debug, PartialEq, Eq)]
pub enum Kind {
    Lost,
    Clashing,
    Doubtful(Place),
}

impl Kind {
    pub fn name(self) -> &'static str {
        match self {
            Kind::Lost => "lost",
            Kind::Clashing => "clashing",
            Kind::Doubtful(_) => "doubtful",
        }
    }

    /// The place that is in doubt, if it is known.
    pub fn place(self) -> Option<Place> {
        match self {
            Kind::Doubtful(place) => Some(place),
            Kind::Lost | Kind::Clashing => None,
        }
    }
}

impl fmt::Display for Kind {
    fn fmt(&self, f: &mut fmt::Formatter<'_>) -> fmt::Result {
        f.write_str(self.name())?;
        match self.place() {
            Some(place) => write!(f, " at {place}"),
            None => Ok(()),
        }
    }
}

/// Neighbours of one kind, from the first to the last.
#[derive(Clone, Copy, Debug, PartialEq, Eq)]
pub struct Run {
    pub first: u64,
    pub last: u64,
    pub kind: Kind,
}

impl fmt::Display for Run {
    fn fmt(&self, f: &mut fmt::Formatter<'_>) -> fmt::Result {
        match self.first == self.last {
            true => write!(f, "sector {}: {}", self.first, self.kind),
            false => write!(f, "sectors {} to {}: {}", self.first, self.last, self.kind),
        }
    }
}

/// Adds a sector behind the runs, to the last of them if it is its neighbour.
pub fn push(runs: &mut Vec<Run>, sector: u64, kind: Kind) {
    match runs.last_mut() {
        Some(run) if run.kind == kind && run.last + 1 == sector => run.last = sector,
        _ => runs.push(Run {
            first: sector,
            last: sector,
            kind,
        }),
    }
}

#[cfg(test)]
mod tests {
    use super::*;

    #[test]
    fn neighbours_of_one_kind_are_joined() {
        let (local, tag) = (Kind::Doubtful(Place::Local), Kind::Doubtful(Place::Tag));
        let mut runs = Vec::new();
        for (sector, kind) in [
            (3, local),
            (4, local),
            (5, tag),
            (7, tag),
            (8, tag),
            (9, tag),
            (2, Kind::Lost),
            (3, Kind::Clashing),
        ] {
            push(&mut runs, sector, kind);
        }
        let texts: Vec<String> = runs.iter().map(Run::to_string).collect();
        assert_eq!(
            texts,
            [
                "sectors 3 to 4: doubtful at the local sector",
                "sector 5: doubtful at the tag",
                "sectors 7 to 9: doubtful at the tag",
                "sector 2: lost",
                "sector 3: clashing",
            ]
        );
    }
}
