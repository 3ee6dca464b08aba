//! A node by itself, with all that a world would hold of it: its row of the store, the board, what happened.

use crate::making::script;
use kt_ckpt::{Ckpt, MAX_PEERS, Past};
use kt_history::{Act, Note, What};
use kt_node::{Node, AppMessage, Role, Talk};
use kt_script::Script;
use kt_store::{Tentative, Verdict};
use kt_tuple::NodeId;
use std::alloc::{AllocError, Global};
use std::test::Fail;

/// Who the node is.
#[derive(Clone, Copy, Debug)]
pub(crate) struct Setting {
    pub(crate) id: NodeId,
    /// How many neighbours it has.
    pub(crate) peers: u8,
    /// A worker's commands.
    pub(crate) script: &'static [&'static str],
}

/// The node, and what stands of it elsewhere.
#[derive(Drop)]
pub(crate) struct Solo {
    pub(crate) id: NodeId,
    pub(crate) peers: u8,
    pub(crate) script: Script,
    pub(crate) node: Node,
    /// How many changes it went through.
    pub(crate) made: u64,
    /// What happened: what it did itself, and of others the acts by which it heard something.
    pub(crate) past: Past,
    /// How many notes of its own there are.
    pub(crate) own_notes: u64,
    /// The acts of others, each by its number and by the one that the case gives it. A case counts the node's own notes
    /// alone, and names by any number what the node hears.
    pub(crate) heard: Vec<(u64, u64)>,
    pub(crate) incarnation: u64,
    pub(crate) permanent: Option<Ckpt>,
    pub(crate) tentative: Option<Tentative>,
    /// Instances with what became of them. The last entry of an instance is the one that counts.
    pub(crate) board: Vec<(u64, Verdict)>,
    /// The greatest number of an instance so far.
    pub(crate) instances: u64,
    /// The instance that the node began last.
    pub(crate) own: Option<u64>,
}

/// Whether there can be a node with this number, or so many neighbours.
fn is_number(number: u8) -> bool {
    1 <= number && number <= MAX_PEERS
}

impl Setting {
    /// The node with which a world opens.
    pub(crate) fn open(self, alloc: Global) -> Result<Solo, Fail> {
        let (NodeId::Worker(number) | NodeId::Shard(number)) = self.id;
        if !(is_number(number) && is_number(self.peers)) {
            return Err(Fail::from("a node of a scene"));
        }
        let script = script(alloc, self.script)?;
        let role = Role {
            id: self.id,
            peers: self.peers,
            script: &script,
        };
        let node = Node::open(alloc, role)?;
        Ok(Solo {
            id: self.id,
            peers: self.peers,
            script,
            node,
            made: 0,
            past: Past::new(alloc),
            own_notes: 0,
            heard: Vec::new(alloc),
            incarnation: 1,
            permanent: None,
            tentative: None,
            board: Vec::new(alloc),
            instances: 0,
            own: None,
        })
    }
}

impl Solo {
    /// What the board has of the instance.
    pub(crate) fn verdict(&self, instance: u64) -> Option<Verdict> {
        let entry = self.board.iter().rev().find(|entry| entry.0 == instance)?;
        Some(entry.1)
    }

    /// What the board has of the ballot's instance, or, of a node that has none, of the tentative checkpoint's.
    pub(crate) fn own_verdict(&self) -> Option<Verdict> {
        match self.node.ballot() {
            Some(ballot) => self.verdict(ballot.instance()),
            None => self.verdict(self.tentative.as_ref()?.instance),
        }
    }

    /// The open instance that the node began.
    pub(crate) fn undecided(&self) -> Option<u64> {
        let instance = self.own?;
        match self.verdict(instance) {
            Some(Verdict::Open) => Some(instance),
            _ => None,
        }
    }

    /// The board gets an entry, and so many instances were begun at least.
    pub(crate) fn app(&mut self, instance: u64, verdict: Verdict) -> Result<(), AllocError> {
        self.board.push((instance, verdict))?;
        self.instances = self.instances.max(instance);
        Ok(())
    }

    /// Another's act by which this node hears what the case says is by so much: its number.
    pub(crate) fn hears_of(&mut self, act: Act, told: u64) -> Result<u64, AllocError> {
        self.past.make_room(act.node)?;
        self.past.add(Note::Act(act));
        let number = self.past.history().notes().len() as u64;
        self.heard.push((number, told))?;
        Ok(number)
    }

    /// The act by which another sent this.
    pub(crate) fn sending(
        &self,
        alloc: Global,
        from: NodeId,
        app: &AppMessage,
    ) -> Result<Act, AllocError> {
        let (request, what) = match &app.talk {
            Talk::Request(request) => (request, What::Issue),
            Talk::Reply { request, answer } => (request, What::Served(answer.copy(alloc)?)),
        };
        let worker = match self.id {
            NodeId::Worker(number) => number,
            NodeId::Shard(_) => from.number(),
        };
        Ok(Act {
            node: from,
            by: 0,
            worker,
            number: request.number,
            op: request.op.copy(alloc)?,
            what,
        })
    }

    /// The number of the act that the case says something is by: 0 where there is none.
    pub(crate) fn act_told(&self, told: u64) -> u64 {
        match self.heard.iter().rev().find(|heard| heard.1 == told) {
            Some(heard) => heard.0,
            None => 0,
        }
    }

    /// Its tentative checkpoint.
    pub(crate) fn into_tentative(self) -> Result<Ckpt, Fail> {
        let Solo { tentative, .. } = self;
        Ok(tentative.ok_or("a tentative checkpoint")?.checkpoint)
    }
}
