//! What comes of a call to a node by itself.

use crate::line::Line;
use crate::making::{Call, call_of};
use crate::named::named;
use crate::solo::Solo;
use crate::words::{first_word, number};
use kt_ckpt::MAX_PEERS;
use kt_history::Note;
use kt_node::{BodyChange, Change, Plan, Write};
use kt_shard::SESSIONS;
use kt_store::{Tentative, Verdict};
use kt_tuple::NodeId;
use std::alloc::{AllocError, Global};
use std::process::Abort;
use std::test::Fail;

/// Whether the node has a place in a neighbour's tables.
fn is_placed(node: NodeId) -> bool {
    node.number() <= MAX_PEERS
}

fn has_session(change: &BodyChange) -> bool {
    match change {
        BodyChange::Wait { worker, .. } => *worker < SESSIONS,
        BodyChange::Serve { worker, .. } => *worker < SESSIONS,
        BodyChange::Stay | BodyChange::Work(_) => true,
    }
}

/// Whether all whom the change names have their places.
fn can_be_made(change: &Change) -> bool {
    let Change::Update(update) = change else {
        return true;
    };
    let update = update.get();
    let is_heard = match update.heard {
        Some((from, _)) => is_placed(from),
        None => true,
    };
    let is_said = match update.said {
        Some(to) => is_placed(to),
        None => true,
    };
    is_heard && is_said && has_session(&update.body)
}

impl Solo {
    /// The node begins an instance.
    fn begin(&mut self) -> Result<u64, AllocError> {
        let instance = self.instances.saturating_add(1);
        self.app(instance, Verdict::Open)?;
        self.own = Some(instance);
        Ok(instance)
    }

    fn write(&mut self, write: Write) -> Result<(), AllocError> {
        match write {
            Write::BeginCheck(checkpoint) => {
                let instance = self.begin()?;
                self.tentative = Some(Tentative {
                    instance,
                    checkpoint,
                });
            }
            Write::PutTentative {
                instance,
                checkpoint,
            } => {
                self.tentative = Some(Tentative {
                    instance,
                    checkpoint,
                });
            }
            Write::Promote => {
                if let Some(tentative) = self.tentative.take() {
                    self.permanent = Some(tentative.checkpoint);
                }
            }
            Write::Discard => self.tentative = None,
            Write::BeginRestart => {
                self.begin()?;
                self.incarnation = self.incarnation.saturating_add(1);
            }
            Write::Bump => self.incarnation = self.incarnation.saturating_add(1),
            Write::Decide { instance, yes } => self.app(instance, Verdict::of(yes))?,
        }
        Ok(())
    }

    /// The log gets the act, or is cut back.
    fn note(&mut self, note: Note) -> Result<(), AllocError> {
        self.past.make_room(note.node())?;
        self.past.add(note);
        self.own_notes = self.own_notes.saturating_add(1);
        Ok(())
    }

    /// The call as it is among all that happened: what it hears is an act of another.
    fn placed(&mut self, alloc: Global, call: Call) -> Result<Call, AllocError> {
        let Call::AppMessage(from, mut app) = call else {
            return Ok(call);
        };
        let act = self.sending(alloc, from, &app)?;
        app.by = self.hears_of(act, app.by)?;
        Ok(Call::AppMessage(from, app))
    }

    /// The numbers of acts, each with the one that the case gives it: of what was heard, and of the next note.
    fn told(&self, alloc: Global) -> Result<Vec<(u64, u64)>, AllocError> {
        let mut told = Vec::from_slice(alloc, &self.heard)?;
        let next = self.past.history().notes().len() as u64 + 1;
        told.push((next, self.own_notes.saturating_add(1)))?;
        Ok(told)
    }

    #[tactic(auto, using(crate::proofs::Bounds::can_change, crate::proofs::Bounds::sends, crate::proofs::Bounds::puts))]
    fn change(&mut self, change: Change) -> Result<(), Fail> {
        if !can_be_made(&change) {
            return Err(Fail::from("a number that no node has"));
        }
        self.node.reserve()?;
        self.node.change(change);
        self.made += 1;
        Ok(())
    }

    /// Carries the plan out.
    fn carry_out(&mut self, plan: Plan) -> Result<(), Fail> {
        let Plan {
            change,
            note,
            write,
            ..
        } = plan;
        self.change(change)?;
        if let Some(note) = note {
            self.note(note)?;
        }
        match write {
            Some(write) => Ok(self.write(write)?),
            None => Ok(()),
        }
    }

    /// Makes the steps, with `; ` between them. None of them is refused.
    pub(crate) fn does(&mut self, rt: &impl Abort, alloc: Global, steps: &str) -> Result<(), Fail> {
        for step in steps.split("; ") {
            self.does_named(rt, alloc, named(step))?;
        }
        Ok(())
    }

    fn does_named(&mut self, rt: &impl Abort, alloc: Global, steps: &str) -> Result<(), Fail> {
        for step in steps.split("; ") {
            let found = self.tell(alloc, step)?;
            assert!(rt; !found.as_str().starts_with("refused"), "{step}: {found}");
        }
        Ok(())
    }

    /// What comes of the text: `board 7 no` writes on the board, `worker` reads the worker, all else is a call.
    pub(crate) fn tell(&mut self, alloc: Global, text: &str) -> Result<String, Fail> {
        let mut line = Line::new(alloc);
        if let Some(entry) = text.strip_prefix("board ") {
            self.app_text(entry)?;
        } else if text == "worker" {
            line.worker(&self.node)?;
        } else {
            let call = call_of(alloc, text)?;
            let call = self.placed(alloc, call)?;
            line.names_acts(self.told(alloc)?);
            self.make(alloc, &call, &mut line)?;
        }
        line.into_text()
    }

    fn app_text(&mut self, text: &str) -> Result<(), Fail> {
        let (instance, word) = first_word(text)?;
        let verdict = match word {
            "open" => Verdict::Open,
            "yes" => Verdict::Yes,
            "no" => Verdict::No,
            _ => return Err(Fail::from("another verdict")),
        };
        Ok(self.app(number(instance)?, verdict)?)
    }

    /// Makes the call, and tells what comes of it, or why it is refused.
    fn make(&mut self, alloc: Global, call: &Call, line: &mut Line) -> Result<(), Fail> {
        if self.made >= 1000 {
            return Err(Fail::from("too many steps"));
        }
        match self.plan(alloc, call) {
            Ok(plan) => {
                line.plan(&plan)?;
                self.carry_out(plan)?;
                Ok(line.stands(&self.node)?)
            }
            Err(refusal) => Ok(line.refusal(alloc, refusal)?),
        }
    }
}
