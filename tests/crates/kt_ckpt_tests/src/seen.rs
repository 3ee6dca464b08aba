//! Which operations, answers, values and acts were among the checkpoints.

use kt_ckpt::{LogAct, State};
use kt_history::What;
use kt_tuple::{Answer, Op, Value};

/// What was seen so far.
#[derive(Drop)]
pub(crate) struct Seen {
    ops: [bool; 5],
    answers: [bool; 3],
    values: [bool; 3],
    whats: [bool; 8],
}

impl Seen {
    pub(crate) fn nothing() -> Seen {
        Seen {
            ops: [false; 5],
            answers: [false; 3],
            values: [false; 3],
            whats: [false; 8],
        }
    }

    /// Whether all that there can be was seen.
    pub(crate) fn is_all(&self) -> bool {
        self.ops == [true; 5]
            && self.answers == [true; 3]
            && self.values == [true; 3]
            && self.whats == [true; 8]
    }

    /// What the state holds is seen.
    pub(crate) fn see(&mut self, state: &State) {
        match state {
            State::Worker(worker) => {
                if let Some(op) = worker.asked() {
                    self.see_op(op);
                }
                for value in worker.variables() {
                    self.see_value(value);
                }
            }
            State::Shard(shard) => {
                for entry in shard.waiting() {
                    self.see_op(&entry.1.op);
                }
                for entry in shard.cached() {
                    self.see_op(&entry.1.request.op);
                    self.see_answer(&entry.1.answer);
                }
            }
        }
    }

    /// These acts are seen.
    pub(crate) fn see_acts(&mut self, acts: &[&LogAct]) {
        for act in acts {
            let place = match act.what {
                What::Issue => 0,
                What::Repeat => 1,
                What::Heard => 2,
                What::Served(_) => 3,
                What::Again(_) => 4,
                What::Accepted(_) => 5,
                What::Ignored(None) => 6,
                What::Ignored(Some(_)) => 7,
            };
            self.whats[place] = true;
        }
    }

    fn see_op(&mut self, op: &Op) {
        let place = match op {
            Op::Out(_) => 0,
            Op::In(_) => 1,
            Op::Rd(_) => 2,
            Op::Inp(_) => 3,
            Op::Rdp(_) => 4,
        };
        self.ops[place] = true;
    }

    fn see_answer(&mut self, answer: &Answer) {
        let place = match answer {
            Answer::Done => 0,
            Answer::Got(_) => 1,
            Answer::None => 2,
        };
        self.answers[place] = true;
    }

    fn see_value(&mut self, value: &Value) {
        let place = match value {
            Value::Int(_) => 0,
            Value::Str(_) => 1,
            Value::Bool(_) => 2,
        };
        self.values[place] = true;
    }
}
