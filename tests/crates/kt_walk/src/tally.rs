//! What was played, counted.

use kt_core::Step;
use kt_history::{Note, What};
use kt_store::{MemStore, Verdict};

/// How much work walks did.
#[derive(Clone, Copy, Debug)]
pub struct Tally {
    pub scenes: u64,
    /// The steps that were tried.
    pub tried: u64,
    /// The steps that were made, by kind: issue, repeat, deliver, take, serve, check, decide, abandon, learn, fail,
    /// restart.
    pub made: [u64; 11],
    /// The refusals, by number.
    pub refusals: [u64; 7],
    /// The notes: issue, repeat, heard, served, again, accepted, ignored, cut.
    pub notes: [u64; 8],
    /// The checks that ended with Yes, and those that ended with No.
    pub checks: [u64; 2],
    /// The rollbacks that ended with Yes, and those that ended with No.
    pub rollbacks: [u64; 2],
    /// The instances that were begun while another was open.
    pub overlapping: u64,
    /// How many worlds were compared with what the slow functions compute.
    pub compared: u64,
    /// How many of these were steady, and how many of those with some act lost.
    pub steady: u64,
    pub steady_with_lost: u64,
    /// The services that survive in the end, and those that do not.
    pub survivors: u64,
    pub lost: u64,
}

impl Tally {
    /// Nothing was done.
    pub const NONE: Tally = Tally {
        scenes: 0,
        tried: 0,
        made: [0; 11],
        refusals: [0; 7],
        notes: [0; 8],
        checks: [0; 2],
        rollbacks: [0; 2],
        overlapping: 0,
        compared: 0,
        steady: 0,
        steady_with_lost: 0,
        survivors: 0,
        lost: 0,
    };

    /// How many steps were made.
    pub fn steps(&self) -> u64 {
        let mut steps = 0u64;
        for made in &self.made {
            steps = steps.saturating_add(*made);
        }
        steps
    }

    /// Whether it is as much as this, of each kind.
    pub fn is_at_least(&self, least: &Tally) -> bool {
        let others = [
            least.scenes,
            least.tried,
            least.overlapping,
            least.compared,
            least.steady,
            least.steady_with_lost,
        ];
        let ours = [
            self.scenes,
            self.tried,
            self.overlapping,
            self.compared,
            self.steady,
            self.steady_with_lost,
        ];
        are_at_least(&ours, &others)
            && are_at_least(&self.made, &least.made)
            && are_at_least(&self.refusals, &least.refusals)
            && are_at_least(&self.notes, &least.notes)
            && are_at_least(&self.checks, &least.checks)
            && are_at_least(&self.rollbacks, &least.rollbacks)
            && are_at_least(&[self.survivors, self.lost], &[least.survivors, least.lost])
    }

    pub(crate) fn add_instance(&mut self, is_check: bool, verdict: Option<Verdict>) {
        let counts = if is_check {
            &mut self.checks
        } else {
            &mut self.rollbacks
        };
        match verdict {
            Some(Verdict::Yes) => count(counts, 0),
            Some(Verdict::No) => count(counts, 1),
            _ => {}
        }
    }
}

/// Whether each count is at least the other at its place.
fn are_at_least(counts: &[u64], least: &[u64]) -> bool {
    counts
        .iter()
        .zip(least)
        .all(|(count, least)| *count >= *least)
}

/// One more.
pub(crate) fn add_one(counted: &mut u64) {
    *counted = counted.saturating_add(1);
}

/// One more of this number.
pub(crate) fn count(counts: &mut [u64], number: usize) {
    if let Some(counted) = counts.get_mut(number) {
        add_one(counted);
    }
}

/// The step's kind, by number.
pub(crate) fn step_number(step: Step) -> usize {
    match step {
        Step::Issue { .. } => 0,
        Step::Repeat { .. } => 1,
        Step::Deliver { .. } => 2,
        Step::Take { .. } => 3,
        Step::Serve { .. } => 4,
        Step::Check { .. } => 5,
        Step::Decide { .. } => 6,
        Step::Abandon { .. } => 7,
        Step::Learn { .. } => 8,
        Step::Fail { .. } => 9,
        Step::Restart { .. } => 10,
    }
}

/// The note's kind, by number.
pub(crate) fn note_number(note: &Note) -> usize {
    match note {
        Note::Act(act) => match &act.what {
            What::Issue => 0,
            What::Repeat => 1,
            What::Heard => 2,
            What::Served(_) => 3,
            What::Again(_) => 4,
            What::Accepted(_) => 5,
            What::Ignored(_) => 6,
        },
        Note::Cut { .. } => 7,
    }
}

/// How many of the instances that were begun are open.
pub(crate) fn count_open(store: &MemStore) -> usize {
    store.board().iter().filter(|row| row.verdict == Verdict::Open).count()
}
