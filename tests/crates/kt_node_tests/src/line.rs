//! What comes of a call, as a line of text.

use itoa::Buffer;
use kt_ckpt::{Ckpt, State};
use kt_history::{Act, Note, What};
use kt_link::Label;
use kt_node::{Ask, Message, Mode, Node, Plan, AppMessage, Refusal, Talk, Write};
use kt_tuple::{Answer, NodeId, Op};
use kt_vote::{Asker, Ballot, Vote};
use std::alloc::{AllocError, Global};
use std::test::Fail;

/// A text that grows.
#[derive(Drop)]
pub(crate) struct Line {
    bytes: Vec<u8>,
    /// Numbers of acts, each with the one that stands for it.
    told: Vec<(u64, u64)>,
}

impl Line {
    pub(crate) fn new(alloc: Global) -> Line {
        Line {
            bytes: Vec::new(alloc),
            told: Vec::new(alloc),
        }
    }

    /// From now on each of these numbers of acts is told by the one beside it.
    pub(crate) fn names_acts(&mut self, told: Vec<(u64, u64)>) {
        self.told = told;
    }

    pub(crate) fn into_text(self) -> Result<String, Fail> {
        String::from_utf8(self.bytes).map_err(|_| Fail::from("no text"))
    }

    pub(crate) fn word(&mut self, word: &str) -> Result<(), AllocError> {
        self.bytes.extend_from_slice(word.as_bytes())
    }

    fn number(&mut self, number: u64) -> Result<(), AllocError> {
        let mut buffer = Buffer::new();
        self.word(buffer.format(number))
    }

    /// The number of an act, as it is told.
    fn act_number(&mut self, number: u64) -> Result<(), AllocError> {
        let told = match self.told.iter().find(|told| told.0 == number) {
            Some(told) => told.1,
            None => number,
        };
        self.number(told)
    }

    fn node(&mut self, node: NodeId) -> Result<(), AllocError> {
        let (kind, number) = match node {
            NodeId::Worker(number) => ("w", number),
            NodeId::Shard(number) => ("s", number),
        };
        self.word(kind)?;
        self.number(u64::from(number))
    }

    fn nodes(&mut self, nodes: &[NodeId]) -> Result<(), AllocError> {
        for node in nodes {
            self.word(" ")?;
            self.node(*node)?;
        }
        Ok(())
    }

    /// A label, as ` 1.1`.
    fn label(&mut self, label: Label) -> Result<(), AllocError> {
        self.word(" ")?;
        self.number(label.incarnation)?;
        self.word(".")?;
        self.number(label.count)
    }

    fn labels(&mut self, labels: &[Label]) -> Result<(), AllocError> {
        for label in labels {
            self.label(*label)?;
        }
        Ok(())
    }

    fn yes(&mut self, yes: bool) -> Result<(), AllocError> {
        self.word(if yes { " yes" } else { " no" })
    }

    fn op(&mut self, op: &Op) -> Result<(), AllocError> {
        self.word(" ")?;
        op.write_to(&mut self.bytes)
    }

    fn answer(&mut self, answer: &Answer) -> Result<(), AllocError> {
        self.word(" ")?;
        answer.write_to(&mut self.bytes)
    }

    /// The item, with ` / ` before it unless it is the first. An empty one is left out.
    pub(crate) fn item(&mut self, item: &str) -> Result<(), AllocError> {
        if item.is_empty() {
            return Ok(());
        }
        if !self.bytes.is_empty() {
            self.word(" / ")?;
        }
        self.word(item)
    }

    /// A refusal, as `refused: WrongMode`.
    pub(crate) fn refusal(&mut self, alloc: Global, refusal: Refusal) -> Result<(), AllocError> {
        self.word("refused: ")?;
        let name = refusal.to_string(alloc)?;
        self.word(name.as_str())
    }

    /// All that the plan does but for the node's change, each with ` / ` behind it.
    pub(crate) fn plan(&mut self, plan: &Plan) -> Result<(), AllocError> {
        for (to, message) in plan.send.messages() {
            self.word("to ")?;
            self.node(*to)?;
            self.message(message)?;
            self.word(" / ")?;
        }
        if let Some(note) = &plan.note {
            self.note(note)?;
            self.word(" / ")?;
        }
        if let Some(write) = &plan.write {
            self.write(write)?;
            self.word(" / ")?;
        }
        Ok(())
    }

    fn message(&mut self, message: &Message) -> Result<(), AllocError> {
        match message {
            Message::App(app) => self.app(app),
            Message::CheckAsk(ask) => self.ask(": check-ask ", *ask),
            Message::RollAsk(ask) => self.ask(": roll-ask ", *ask),
            Message::Vote(vote) => self.vote(*vote),
            Message::Verdict { instance, yes } => {
                self.word(": verdict ")?;
                self.number(*instance)?;
                self.yes(*yes)
            }
        }
    }

    fn app(&mut self, app: &AppMessage) -> Result<(), AllocError> {
        match &app.talk {
            Talk::Request(request) => {
                self.head(": request ", request.number, app)?;
                self.op(&request.op)
            }
            Talk::Reply { request, answer } => {
                self.head(": reply ", request.number, app)?;
                self.answer(answer)?;
                self.word(" to")?;
                self.op(&request.op)
            }
        }
    }

    fn head(&mut self, kind: &str, number: u64, app: &AppMessage) -> Result<(), AllocError> {
        self.word(kind)?;
        self.number(number)?;
        self.label(app.label)?;
        self.word(" by ")?;
        self.act_number(app.by)
    }

    fn ask(&mut self, kind: &str, ask: Ask) -> Result<(), AllocError> {
        self.word(kind)?;
        self.number(ask.instance)?;
        self.label(ask.label)?;
        self.word(" ")?;
        self.number(ask.incarnation)
    }

    fn vote(&mut self, vote: Vote) -> Result<(), AllocError> {
        self.word(": vote ")?;
        self.number(vote.instance)?;
        self.word(" ")?;
        self.number(vote.incarnation)?;
        self.yes(vote.yes)
    }

    fn note(&mut self, note: &Note) -> Result<(), AllocError> {
        match note {
            Note::Act(act) => self.act(act),
            Note::Cut { node, keep } => {
                self.node(*node)?;
                self.word(" is cut to ")?;
                self.number(*keep)
            }
        }
    }

    /// An act, as `s1 by 3: w1.2 in (?int) served got (1)`.
    fn act(&mut self, act: &Act) -> Result<(), AllocError> {
        self.node(act.node)?;
        self.word(" by ")?;
        self.act_number(act.by)?;
        self.word(": ")?;
        self.node(NodeId::Worker(act.worker))?;
        self.word(".")?;
        self.number(act.number)?;
        self.op(&act.op)?;
        self.what(&act.what)
    }

    fn what(&mut self, what: &What) -> Result<(), AllocError> {
        match what {
            What::Issue => self.word(" issue"),
            What::Repeat => self.word(" repeat"),
            What::Heard => self.word(" heard"),
            What::Served(answer) => self.done(" served", answer),
            What::Again(answer) => self.done(" again", answer),
            What::Accepted(answer) => self.done(" accepted", answer),
            What::Ignored(None) => self.word(" ignored"),
            What::Ignored(Some(answer)) => self.done(" ignored", answer),
        }
    }

    fn done(&mut self, what: &str, answer: &Answer) -> Result<(), AllocError> {
        self.word(what)?;
        self.answer(answer)
    }

    fn write(&mut self, write: &Write) -> Result<(), AllocError> {
        match write {
            Write::BeginCheck(checkpoint) => {
                self.word("begins check:")?;
                self.checkpoint(checkpoint)
            }
            Write::PutTentative {
                instance,
                checkpoint,
            } => {
                self.word("tentative in ")?;
                self.number(*instance)?;
                self.word(":")?;
                self.checkpoint(checkpoint)
            }
            Write::Promote => self.word("promotes"),
            Write::Discard => self.word("discards"),
            Write::BeginRestart => self.word("begins restart"),
            Write::Bump => self.word("bumps"),
            Write::Decide { instance, yes } => {
                self.word("decides ")?;
                self.number(*instance)?;
                self.yes(*yes)
            }
        }
    }

    /// A checkpoint, as ` w1 acts 3 sent 1.1 0.0 received 1.1 0.0 number 1 answered`.
    fn checkpoint(&mut self, checkpoint: &Ckpt) -> Result<(), AllocError> {
        self.word(" ")?;
        self.node(checkpoint.node())?;
        self.word(" acts ")?;
        self.number(checkpoint.line_len())?;
        self.word(" sent")?;
        self.labels(checkpoint.sent())?;
        self.word(" received")?;
        self.labels(checkpoint.received())?;
        self.state(checkpoint.state())
    }

    fn state(&mut self, state: &State) -> Result<(), AllocError> {
        match state {
            State::Worker(worker) => {
                self.word(" ")?;
                self.standing(worker.number(), worker.asked().is_some())
            }
            State::Shard(shard) => {
                self.word(" tuples ")?;
                self.number(shard.bag().len() as u64)?;
                self.word(" waiting ")?;
                self.number(shard.waiting().len() as u64)?;
                self.word(" kept ")?;
                self.number(shard.cached().len() as u64)
            }
        }
    }

    fn standing(&mut self, number: u64, is_asked: bool) -> Result<(), AllocError> {
        self.word("number ")?;
        self.number(number)?;
        self.word(if is_asked { " asked" } else { " answered" })
    }

    /// The worker that the node is, as `number 1 asked`.
    pub(crate) fn worker(&mut self, node: &Node) -> Result<(), AllocError> {
        match node.worker() {
            Some(worker) => self.standing(worker.number(), worker.asked().is_some()),
            None => self.word("none"),
        }
    }

    /// The node's mode and ballot, as `Held in 7 for w1.1, asked s1 s2, awaits s2, refused, voted`.
    pub(crate) fn stands(&mut self, node: &Node) -> Result<(), AllocError> {
        self.word(match node.mode() {
            Mode::Up => "Up",
            Mode::Held => "Held",
            Mode::Rolling => "Rolling",
            Mode::Down => "Down",
        })?;
        match node.ballot() {
            Some(ballot) => self.ballot(ballot),
            None => Ok(()),
        }
    }

    fn ballot(&mut self, ballot: &Ballot) -> Result<(), AllocError> {
        self.word(" in ")?;
        self.number(ballot.instance())?;
        if let Some(parent) = ballot.parent() {
            self.parent(parent)?;
        }
        self.word(", asked")?;
        self.nodes(ballot.asked())?;
        if !ballot.complete() {
            self.word(", awaits")?;
            self.awaited(ballot)?;
        }
        if ballot.refused() {
            self.word(", refused")?;
        }
        if ballot.has_voted() {
            self.word(", voted")?;
        }
        Ok(())
    }

    fn parent(&mut self, parent: Asker) -> Result<(), AllocError> {
        self.word(" for ")?;
        self.node(parent.node)?;
        self.word(".")?;
        self.number(parent.incarnation)
    }

    fn awaited(&mut self, ballot: &Ballot) -> Result<(), AllocError> {
        for node in ballot.asked() {
            if ballot.awaits(*node) {
                self.word(" ")?;
                self.node(*node)?;
            }
        }
        Ok(())
    }
}
