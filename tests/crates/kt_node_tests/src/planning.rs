//! What a node by itself makes of a call.

use crate::making::Call;
use crate::solo::Solo;
use kt_ckpt::{Ckpt, CkptHeader};
use kt_node::{Change, Mode, Plan, Refusal, Role, Stored, View};
use kt_tuple::NodeId;
use std::alloc::{AllocError, Global};

/// All of the checkpoint but its state.
fn header_of(alloc: Global, checkpoint: Option<&Ckpt>) -> Result<Option<CkptHeader>, AllocError> {
    match checkpoint {
        Some(checkpoint) => Ok(Some(checkpoint.header(alloc)?)),
        None => Ok(None),
    }
}

/// The plan, which loads nothing: only learning and coming back do.
fn loading_nothing(plan: Plan, made: u64) -> Result<Plan, Refusal> {
    match &plan.change {
        Change::Load(_) => Err(Refusal::OutOfMemory),
        _ => Ok(plan),
    }
}

/// Whether a checkpoint of the node can be taken.
#[tactic(auto, using(crate::proofs::Saves::down_saves))]
fn can_save(view: View<'_>) -> bool {
    match (view.role.id, view.node.worker()) {
        (NodeId::Worker(_), Some(worker)) => worker.pc() <= 200 && worker.values().len() <= 64,
        (NodeId::Worker(_), None) => view.node.mode() == Mode::Down,
        (NodeId::Shard(_), None) => true,
        (NodeId::Shard(_), Some(_)) => false,
    }
}

impl Solo {
    /// What the node sees.
    #[tactic(auto, using(crate::proofs::Bounds::can_speak))]
    fn view(&self) -> View<'_> {
        View {
            role: Role {
                id: self.id,
                peers: self.peers,
                script: &self.script,
            },
            node: &self.node,
            past: &self.past,
        }
    }

    fn permanent_header(&self, alloc: Global) -> Result<Option<CkptHeader>, AllocError> {
        header_of(alloc, self.permanent.as_ref())
    }

    fn tentative_header(&self, alloc: Global) -> Result<Option<CkptHeader>, AllocError> {
        match &self.tentative {
            Some(tentative) => header_of(alloc, Some(&tentative.checkpoint)),
            None => Ok(None),
        }
    }

    fn stored(&self, alloc: Global) -> Result<Stored, AllocError> {
        let permanent = match &self.permanent {
            Some(checkpoint) => Some(checkpoint.copy(alloc)?),
            None => None,
        };
        Ok(Stored {
            incarnation: self.incarnation.min(999),
            permanent,
        })
    }

    /// What the node makes of the call.
    pub(crate) fn plan(&self, alloc: Global, call: &Call) -> Result<Plan, Refusal> {
        match call {
            Call::Learn => self.learn(alloc),
            Call::Restart => self.restart(alloc),
            Call::Verdict { instance, yes } => self.hear_verdict(alloc, *instance, *yes),
            Call::Check | Call::CheckAsk(_, _) => loading_nothing(
                self.saving(alloc, call)?,
                self.made,
            ),
            Call::RollAsk(_, _) | Call::Fail => loading_nothing(
                self.reading(alloc, call)?,
                self.made,
            ),
            _ => loading_nothing(self.acting(alloc, call)?, self.made),
        }
    }

    fn learn(&self, alloc: Global) -> Result<Plan, Refusal> {
        let stored = self.stored(alloc)?;
        let is_tentative = self.tentative.is_some();
        self.view()
            .learn(alloc, stored, is_tentative, self.own_verdict())
    }

    fn restart(&self, alloc: Global) -> Result<Plan, Refusal> {
        let stored = self.stored(alloc)?;
        let next = self.instances.saturating_add(1);
        let is_tentative = self.tentative.is_some();
        let (undecided, verdict) = (self.undecided(), self.own_verdict());
        self.view()
            .restart(alloc, stored, next, is_tentative, undecided, verdict)
    }

    fn hear_verdict(&self, alloc: Global, instance: u64, yes: bool) -> Result<Plan, Refusal> {
        let stored = self.stored(alloc)?;
        self.view().hear_verdict(alloc, stored, instance, yes)
    }

    /// Calls that take a checkpoint.
    fn saving(&self, alloc: Global, call: &Call) -> Result<Plan, Refusal> {
        let view = self.view();
        if !can_save(view) {
            return Err(Refusal::OutOfMemory);
        }
        let permanent = self.permanent_header(alloc)?;
        let Call::CheckAsk(from, ask) = call else {
            let next = self.instances.saturating_add(1);
            return view.check(alloc, next, permanent.as_ref());
        };
        let tentative = self.tentative_header(alloc)?;
        let verdict = self.verdict(ask.instance);
        view.hear_check(
            alloc,
            *from,
            *ask,
            verdict,
            permanent.as_ref(),
            tentative.as_ref(),
        )
    }

    /// Calls that read the header of a checkpoint.
    fn reading(&self, alloc: Global, call: &Call) -> Result<Plan, Refusal> {
        let view = self.view();
        let permanent = self.permanent_header(alloc)?;
        let Call::RollAsk(from, ask) = call else {
            let tentative = self.tentative_header(alloc)?;
            return view.fail(
                alloc,
                self.own_verdict(),
                permanent.as_ref(),
                tentative.as_ref(),
            );
        };
        let verdict = self.verdict(ask.instance);
        view.hear_rollback(alloc, *from, *ask, verdict, permanent.as_ref())
    }

    /// Calls that read no checkpoint.
    fn acting(&self, alloc: Global, call: &Call) -> Result<Plan, Refusal> {
        let view = self.view();
        match call {
            Call::Issue => view.issue(alloc),
            Call::Repeat => view.repeat(alloc),
            Call::Take => view.take(alloc),
            Call::Serve { worker, place, by } => {
                view.serve(alloc, *worker, *place, self.act_told(*by))
            }
            Call::AppMessage(from, app) => view.hear_app(alloc, *from, app),
            Call::Vote(from, vote) => view.hear_vote(alloc, *from, *vote),
            Call::Abandon => view.abandon(alloc, self.own_verdict(), self.undecided()),
            _ => view.decide(alloc, self.own_verdict()),
        }
    }
}
