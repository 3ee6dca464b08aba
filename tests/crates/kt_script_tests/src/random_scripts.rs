//! Random scripts and answers, each operation compared with a slow reading of the script from its beginning.

use kt_script::{
    Actual, Actuals, Command, Env, MAX_COMMANDS, Name, Operation, Pattern, Script, ScriptError,
    Slot,
};
use kt_tuple::{Answer, Kind, Op, Place, Str, Template, Tuple, Value};
use std::alloc::{AllocError, Global};
use std::process::Abort;
use std::test::Fail;

const SCRIPTS: usize = 2_000;

/// Numbers that look random and are the same in each run.
#[derive(Drop)]
struct Dice {
    state: u64,
}

impl Dice {
    /// A number below this one, or 0.
    fn below(&mut self, end: u64) -> u64 {
        self.state = self
            .state
            .wrapping_mul(6_364_136_223_846_793_005)
            .wrapping_add(1_442_695_040_888_963_407);
        match (self.state >> 33).checked_rem(end) {
            Some(number) => number,
            None => 0,
        }
    }

    /// One of six names.
    fn name(&mut self) -> Result<Name, Fail> {
        let names = [b"a", b"b", b"c", b"d", b"e", b"f"];
        let name = names.get(self.below(6) as usize).ok_or("a name")?;
        Ok(Name::new(name.as_slice()).ok_or("a name")?)
    }

    fn kind(&mut self) -> Kind {
        match self.below(6) {
            0 => Kind::Str,
            1 => Kind::Bool,
            _ => Kind::Int,
        }
    }

    fn int(&mut self) -> i64 {
        match self.below(8) {
            0 => i64::MAX,
            1 => i64::MIN,
            2 => -1,
            3 | 4 => 0,
            5 => 1,
            _ => 2,
        }
    }

    fn value(&mut self, kind: Kind) -> Result<Value, Fail> {
        match kind {
            Kind::Int => Ok(Value::Int(self.int())),
            Kind::Str => self.string(),
            Kind::Bool => Ok(Value::Bool(self.below(2) == 0)),
        }
    }

    fn string(&mut self) -> Result<Value, Fail> {
        let texts = [b"".as_slice(), b"x", b"y z"];
        let text = texts.get(self.below(3) as usize).ok_or("a text")?;
        Ok(Value::Str(Str::new(text).ok_or("a string")?))
    }

    fn actual(&mut self) -> Result<Actual, Fail> {
        if self.below(2) == 0 {
            return Ok(Actual::Variable(self.name()?));
        }
        let kind = self.kind();
        Ok(Actual::Literal(self.value(kind)?))
    }

    fn slot(&mut self) -> Result<Slot, Fail> {
        let kind = self.kind();
        match self.below(5) {
            0 => Ok(Slot::Formal(kind, None)),
            1 | 2 | 3 => Ok(Slot::Formal(kind, Some(self.name()?))),
            _ => Ok(Slot::Actual(self.actual()?)),
        }
    }

    fn actuals(&mut self, alloc: Global) -> Result<Actuals, Fail> {
        let mut actuals = Vec::new(alloc);
        for _ in 0..=self.below(3) {
            actuals.push(self.actual()?)?;
        }
        Ok(Actuals::new(actuals).ok_or("a tuple")?)
    }

    fn pattern(&mut self, alloc: Global) -> Result<Pattern, Fail> {
        let mut slots = Vec::new(alloc);
        for _ in 0..=self.below(3) {
            slots.push(self.slot()?)?;
        }
        Ok(Pattern::new(slots).ok_or("a template")?)
    }

    fn command(&mut self, alloc: Global) -> Result<Command, Fail> {
        Ok(match self.below(9) {
            0 | 1 => Command::Ask(Operation::Out(self.actuals(alloc)?)),
            2 => Command::Ask(Operation::In(self.pattern(alloc)?)),
            3 => Command::Ask(Operation::Rd(self.pattern(alloc)?)),
            4 => Command::Ask(Operation::Inp(self.pattern(alloc)?)),
            5 => Command::Ask(Operation::Rdp(self.pattern(alloc)?)),
            6 | 7 => Command::Set {
                variable: self.name()?,
                source: self.name()?,
                plus: self.int(),
            },
            _ => Command::Unless(match self.below(5) {
                0 => 0,
                1 => 1,
                2 => 2,
                3 => 3,
                _ => 200,
            }),
        })
    }

    /// Up to so many commands, those left out that may not follow.
    fn script(&mut self, alloc: Global, most: u64) -> Result<Script, Fail> {
        let mut script = Script::new(alloc);
        for _ in 0..most {
            let command = self.command(alloc)?;
            match script.push(command) {
                Ok(()) | Err(ScriptError::Variable | ScriptError::Limit) => {}
                Err(ScriptError::OutOfMemory) => return Err(Fail::from("memory")),
            }
        }
        Ok(script)
    }

    /// A tuple of the template's kinds, or of others.
    fn tuple(&mut self, alloc: Global, template: &Template) -> Result<Tuple, Fail> {
        let mut values = Vec::new(alloc);
        for place in template.places() {
            let kind = if self.below(12) == 0 {
                self.kind()
            } else {
                place.kind()
            };
            values.push(self.value(kind)?)?;
        }
        Ok(Tuple::new(alloc, values)?.ok_or("a tuple")?)
    }

    fn answer(&mut self, alloc: Global, op: &Op) -> Result<Answer, Fail> {
        match (self.below(3), op) {
            (0, _) => Ok(Answer::None),
            (_, Op::Out(_)) => Ok(Answer::Done),
            (_, Op::In(template) | Op::Rd(template) | Op::Inp(template) | Op::Rdp(template)) => {
                Ok(Answer::Got(self.tuple(alloc, template)?))
            }
        }
    }
}

/// What was bound so far, the last binding last.
#[derive(Drop)]
struct Bindings<'a> {
    script: &'a Script,
    bound: Vec<(Name, Value)>,
}

impl Bindings<'_> {
    fn value(&self, name: &Name) -> Result<Value, Fail> {
        for (bound, value) in self.bound.iter().rev() {
            if bound == name {
                return Ok(value.copy());
            }
        }
        match self.script.kind_of(name) {
            Some(Kind::Str) => Ok(Value::Str(Str::new(b"").ok_or("a string")?)),
            Some(Kind::Bool) => Ok(Value::Bool(false)),
            Some(Kind::Int) | None => Ok(Value::Int(0)),
        }
    }

    fn actual(&self, actual: &Actual) -> Result<Value, Fail> {
        match actual {
            Actual::Literal(value) => Ok(value.copy()),
            Actual::Variable(name) => self.value(name),
        }
    }

    fn tuple(&self, alloc: Global, actuals: &Actuals) -> Result<Tuple, Fail> {
        let mut values = Vec::new(alloc);
        for actual in actuals.as_slice() {
            values.push(self.actual(actual)?)?;
        }
        Ok(Tuple::new(alloc, values)?.ok_or("a tuple")?)
    }

    fn template(&self, alloc: Global, pattern: &Pattern) -> Result<Template, Fail> {
        let mut places = Vec::new(alloc);
        for slot in pattern.as_slice() {
            places.push(match slot {
                Slot::Actual(actual) => Place::Actual(self.actual(actual)?),
                Slot::Formal(kind, _) => Place::Formal(*kind),
            })?;
        }
        Ok(Template::new(alloc, places)?.ok_or("a template")?)
    }

    fn op(&self, alloc: Global, operation: &Operation) -> Result<Op, Fail> {
        Ok(match operation {
            Operation::Out(actuals) => Op::Out(self.tuple(alloc, actuals)?),
            Operation::In(pattern) => Op::In(self.template(alloc, pattern)?),
            Operation::Rd(pattern) => Op::Rd(self.template(alloc, pattern)?),
            Operation::Inp(pattern) => Op::Inp(self.template(alloc, pattern)?),
            Operation::Rdp(pattern) => Op::Rdp(self.template(alloc, pattern)?),
        })
    }

    /// Binds the formals of an operation that was answered, where the tuple is of its kinds.
    fn hear(&mut self, operation: &Operation, op: &Op, answer: &Answer) -> Result<(), AllocError> {
        let Answer::Got(tuple) = answer else {
            return Ok(());
        };
        if op.signature() != tuple.signature() {
            return Ok(());
        }
        for (slot, value) in operation.slots().iter().zip(tuple.values()) {
            if let Slot::Formal(_, Some(name)) = slot {
                self.bound.push((name.copy(), value.copy()))?;
            }
        }
        Ok(())
    }

    fn set(&mut self, variable: &Name, source: &Name, plus: i64) -> Result<(), Fail> {
        let Value::Int(number) = self.value(source)? else {
            return Err(Fail::from("no int in `set`"));
        };
        let sum = Value::Int(number.saturating_add(plus));
        Ok(self.bound.push((variable.copy(), sum))?)
    }
}

/// What the script asks after these answers, read from its beginning.
fn slowly(alloc: Global, script: &Script, answers: &[Answer]) -> Result<Option<Op>, Fail> {
    let mut bindings = Bindings {
        script,
        bound: Vec::new(alloc),
    };
    let mut left = answers;
    let mut skipped = 0;
    let mut none = false;
    for command in script.commands() {
        if skipped > 0 {
            skipped -= 1;
            continue;
        }
        match command {
            Command::Unless(count) => skipped = if none { *count } else { 0 },
            Command::Set {
                variable,
                source,
                plus,
            } => bindings.set(variable, source, *plus)?,
            Command::Ask(operation) => {
                let op = bindings.op(alloc, operation)?;
                let Some((answer, later)) = left.split_first() else {
                    return Ok(Some(op));
                };
                bindings.hear(operation, &op, answer)?;
                none = *answer == Answer::None;
                left = later;
            }
        }
    }
    Ok(None)
}

/// The environment made again of what is read of it.
fn made_again(alloc: Global, script: &Script, env: &Env) -> Result<Env, Fail> {
    let mut values = Vec::with_capacity(alloc, env.values().len())?;
    for value in env.values() {
        values.push(value.copy())?;
    }
    Ok(Env::from_parts(script, values, env.was_none()).ok_or("other values")?)
}

/// Drives the script through its answers; each answer's environment is made again of its parts. Answers how many
/// operations it asked.
fn drive(rt: &impl Abort, alloc: Global, dice: &mut Dice, script: &Script) -> Result<usize, Fail> {
    let mut pc = 0;
    let mut env = Env::new(alloc, script)?;
    let mut answers = Vec::new(alloc);
    for _ in 0..=MAX_COMMANDS {
        let next = script.next(alloc, pc, &env)?;
        assert_eq!(rt; script.has_next(pc, &env), next.is_some());
        let expected = slowly(alloc, script, &answers)?;
        let Some(next) = next else {
            assert!(rt; expected.is_none());
            break;
        };
        assert!(rt; expected.as_ref() == Some(&next.op));
        let answer = dice.answer(alloc, &next.op)?;
        let bound = next.env.bind(alloc, script, next.pc, &answer)?;
        env = made_again(alloc, script, &bound)?;
        pc = next.pc;
        answers.push(answer)?;
    }
    Ok(answers.len())
}

#[test]
fn random_scripts(rt: HostRuntime) -> Result<(), Fail> {
    let mut dice = Dice { state: 1 };
    let mut asked = 0usize;
    let mut longest = 0;
    for i in 0..SCRIPTS {
        // Most are short; some fill all 200 commands.
        let most = if i % 50 == 0 { 600 } else { 30 };
        let script = dice.script(rt.alloc(), most)?;
        longest = longest.max(script.commands().len());
        asked = asked.saturating_add(drive(&rt, rt.alloc(), &mut dice, &script)?);
    }
    assert_eq!(rt; longest, MAX_COMMANDS);
    assert!(rt; asked > 10_000, "{asked} operations");
    Ok(())
}
