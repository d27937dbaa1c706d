//! Groups of tests that are run once each, whichever test asks first, so that a last test can add up what all of them
//! reached.

use std::sync::OnceLock;
use std::time::Instant;

/// What was compared.
#[derive(Clone, Copy, Default)]
pub struct Tally {
    /// Outcomes that were compared as wholes, each once, though it is called for in two ways.
    pub outcomes: u64,
    /// Cells of the sheets with reply 0, all of whose counts were right.
    pub cells: u64,
    /// How often each of the paper's replies was the right one.
    pub replies: [u64; 12],
}

impl Tally {
    pub fn add(&mut self, other: &Tally) {
        self.outcomes += other.outcomes;
        self.cells += other.cells;
        for (sum, more) in self.replies.iter_mut().zip(other.replies) {
            *sum += more;
        }
    }
}

type Work = fn(&mut Tally) -> Result<(), String>;

pub struct Group {
    name: &'static str,
    work: Work,
    found: OnceLock<Result<Tally, String>>,
}

impl Group {
    pub const fn new(name: &'static str, work: Work) -> Group {
        Group {
            name,
            work,
            found: OnceLock::new(),
        }
    }

    /// What the group compared, or what differs.
    pub fn found(&self) -> &Result<Tally, String> {
        self.found.get_or_init(|| {
            let start = Instant::now();
            let mut tally = Tally::default();
            (self.work)(&mut tally)?;
            println!(
                "{}: {} outcomes, {} cells, {:.1} s",
                self.name,
                tally.outcomes,
                tally.cells,
                start.elapsed().as_secs_f64()
            );
            Ok(tally)
        })
    }

    /// A panic with what differs, if something does.
    pub fn passes(&self) {
        if let Err(difference) = self.found() {
            panic!("{}: {difference}", self.name);
        }
    }
}

/// What all the groups compared together; a panic if one of them fails, as the tally would not be whole.
pub fn whole_tally(groups: &[&Group]) -> Tally {
    let mut whole = Tally::default();
    for group in groups {
        match group.found() {
            Ok(tally) => whole.add(tally),
            Err(_) => panic!("no whole tally, as this group fails: {}", group.name),
        }
    }
    whole
}

/// Whether the longer run was asked for.
pub fn long_run() -> bool {
    std::env::var("DRAINAGE_LONG").is_ok_and(|value| value == "1")
}

/// How many sheets or changes a group draws: ten times as many in the longer run.
pub fn many(ordinarily: u64) -> u64 {
    if long_run() {
        10 * ordinarily
    } else {
        ordinarily
    }
}
