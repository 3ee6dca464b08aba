//! Scenarios with a byte dropped, changed or doubled, two lines swapped or a number enlarged. What is accepted
//! is written as it stood and read again; what is not has its fault on a line of the text or just behind it.

use crate::streams::replayed;
use kt_core::{Step, World};
use kt_scene::{
    ReplayFault, Scenario, SceneFault, Sink, WorkKind, read_scene, write_report, write_scene,
};
use kt_store::MemStore;
use kt_streams::{Feed, empty, whole};
use std::alloc::Global;
use std::process::Abort;
use std::test::Fail;

/// How many mutants are read.
const MUTANTS: usize = 20_000;

/// Of so many mutants one is replayed too.
const REPLAYED: usize = 10;

/// Scenarios with all kinds of lines.
const SEEDS: [&[u8]; 9] = [
    b"linda-kt 1\nshards 1\nworker\nout (\"a\", 1)\nin (\"a\", ?int x)\nsteps\nissue w1\ndeliver w1 s1\n\
serve s1 w1 0\ndeliver s1 w1\nissue w1\ndeliver w1 s1\nserve s1 w1 0\nend\n",
    b"# a counter\nlinda-kt 1\nshards 1\n# begins at 0\nworker\ninp (\"counter\", ?int n)\nunless 1\n\
set n = n + 1\nout (\"counter\", n)\nsteps\nissue w1\ndeliver w1 s1\nserve s1 w1 0\ndeliver s1 w1\n\
issue w1\ndeliver w1 s1\n# one is put\nserve s1 w1 0\nend\n",
    b"linda-kt 1\nshards 1\nworker\nin (?int x, ?str s)\nrd (x, ?str t)\nout (s, x, -7)\n\
set y = x + 9223372036854775807\nset x = y + -9223372036854775808\nrdp (\"\", ?int, s)\nunless 200\n\
out (y, t)\nworker\nout (\"\\\"\\\\ ~\", 0)\nsteps\nend\n",
    b"linda-kt 1\nshards 1\n# the results\nworker\nin (\"result\", 10, ?int ten)\nout (\"all\", ten)\n\
# the work\nworker\nin (\"task\", ?int n)\nset r = n + 1\nout (\"result\", n, r)\nworker\n\
out (\"task\", 10)\nsteps\nissue w3\ndeliver w3 s1\nserve s1 w3 0\nissue w2\ndeliver w2 s1\nserve s1 w2 0\n\
end\n",
    b"linda-kt 1\nshards 1\nworker\nout (1)\nworker\nout (2)\nworker\nout (3)\nworker\ninp (?int)\nworker\n\
rdp (?int)\nworker\nrd (?int)\nworker\nworker\n# none is left\nin (?int, ?str)\nsteps\nissue w1\nissue w2\n\
deliver w2 s1\ndeliver w1 s1\nserve s1 w1 0\nserve s1 w2 0\nissue w4\ndeliver w4 s1\nserve s1 w4 1\nend\n",
    b"linda-kt 1\nshards 1\nworker\nunless 3\nin (?int v)\nset abcdefghijklmn_1 = v + 1\n\
out (abcdefghijklmn_1)\nsteps\nend\n",
    b"linda-kt 1\nshards 1\nworker\nout (\"a\", 1)\nworker\nin (\"a\", ?int)\nsteps\nissue w1\n\
deliver w1 s1\nserve s1 w1 0\ncheck w1\ndeliver s1 w1\ndecide w1\nlearn w1\ntake w1\ncheck w1\n\
deliver w1 s1\ndeliver s1 w1\ndeliver w1 s1\ndeliver s1 w1\ndecide w1\nfail s1\nlearn s1\n\
# the check was not in vain\nlearn w1\nrestart s1\nabandon s1\ncheck w2\nabandon w2\nlearn w2\nissue w2\n\
check w2\nend\n",
    b"linda-kt 1\nshards 3\nworker\nout (\"a\", 1)\n# its answer is lost sight of\nworker\nout (7)\nsteps\n\
issue w1\nrepeat w1\ndeliver w1 s3\nserve s3 w1 0\ndeliver w1 s3\nissue w2\ndeliver w2 s2\nrepeat w2\n\
serve s2 w2 0\ndeliver s3 w1\ndeliver s3 w1\ndeliver w2 s2\nend\n",
    b"linda-kt 1\nshards 2\nworker\nout (true, 1)\nin (?bool truex, 1)\nout (truex, false)\n\
rd (?bool, false, ?int, \"p\", 5, 6, 7, true, 9, 10, 11, 12, 13, 14, 15, ?bool y)\nworker\nworker\nworker\n\
worker\nworker\nworker\nworker\nworker\nworker\nworker\nworker\nworker\nworker\nworker\nworker\nin (?bool)\n\
steps\nissue w1\n\
deliver w1 s1\nissue w16\ndeliver w16 s2\nend\n",
];

/// Bytes that a mutant gets.
const BYTES: &[u8] = b"\0\t\n\r !\"#()+,-/0123456789:=?AZ\\_`abceilnoprstuwxyz{~\x7f\xff";

/// Numbers that look random and are the same in each run.
#[derive(Drop)]
struct Dice {
    state: u64,
}

impl Dice {
    /// A number below this one, or 0.
    fn below(&mut self, end: usize) -> usize {
        self.state = self
            .state
            .wrapping_mul(6_364_136_223_846_793_005)
            .wrapping_add(1_442_695_040_888_963_407);
        match ((self.state >> 33) as usize).checked_rem(end) {
            Some(number) => number,
            None => 0,
        }
    }

    /// One of these.
    fn one_of<'a, T>(&mut self, things: &'a [T]) -> Result<&'a T, Fail> {
        Ok(things.get(self.below(things.len())).ok_or("none")?)
    }
}

/// The lines of the text, each with its line feed; what stands behind the last one is left out.
fn lines_of(alloc: Global, text: &[u8]) -> Result<Vec<&[u8]>, Fail> {
    let mut lines = Vec::new(alloc);
    let mut begin = 0;
    for (i, c) in text.iter().enumerate() {
        if *c == b'\n' {
            let end = i.saturating_add(1);
            lines.push(text.get(begin..end).ok_or("a line")?)?;
            begin = end;
        }
    }
    Ok(lines)
}

/// The text with these bytes in the stead of those from one place up to another.
fn spliced(
    alloc: Global,
    text: &[u8],
    from: usize,
    to: usize,
    bytes: &[u8],
) -> Result<Vec<u8>, Fail> {
    let mut mutant = Vec::from_slice(alloc, text.get(..from).ok_or("a front")?)?;
    mutant.extend_from_slice(bytes)?;
    mutant.extend_from_slice(text.get(to..).ok_or("a rest")?)?;
    Ok(mutant)
}

/// The text with two of its lines swapped, each with its line feed.
fn swapped(alloc: Global, dice: &mut Dice, text: &[u8]) -> Result<Vec<u8>, Fail> {
    let lines = lines_of(alloc, text)?;
    let first = dice.below(lines.len());
    let second = dice.below(lines.len());
    let mut mutant = Vec::new(alloc);
    for i in 0..lines.len() {
        let from = if i == first {
            second
        } else if i == second {
            first
        } else {
            i
        };
        mutant.extend_from_slice(lines.get(from).ok_or("a line")?)?;
    }
    Ok(mutant)
}

/// The text with nines before one of its digits.
fn enlarged(alloc: Global, dice: &mut Dice, text: &[u8]) -> Result<Vec<u8>, Fail> {
    let mut digits = Vec::new(alloc);
    for (i, c) in text.iter().enumerate() {
        if c.is_ascii_digit() {
            digits.push(i)?;
        }
    }
    let at = *dice.one_of(&digits)?;
    let nines = [b"9".as_slice(), b"99", b"9999", b"99999999999999999999"];
    let more = dice.one_of(&nines)?;
    spliced(alloc, text, at, at, more)
}

/// The text with one change.
fn mutant_of(alloc: Global, dice: &mut Dice, text: &[u8]) -> Result<Vec<u8>, Fail> {
    let at = dice.below(text.len());
    let behind = at.saturating_add(1);
    match dice.below(5) {
        0 => spliced(alloc, text, at, behind, b""),
        1 => spliced(alloc, text, at, behind, &[*dice.one_of(BYTES)?]),
        2 => spliced(alloc, text, at, at, &[*text.get(at).ok_or("a byte")?]),
        3 => swapped(alloc, dice, text),
        _ => enlarged(alloc, dice, text),
    }
}

/// The scenario that these lines spell is written as they stand, without those that are ignored, and what is
/// written is read as the same scenario.
fn is_written_again(
    rt: &impl Abort,
    alloc: Global,
    lines: &[&[u8]],
    scenario: &Scenario,
) -> Result<(), Fail> {
    let mut told = Vec::new(alloc);
    for line in lines {
        if line.first() != Some(&b'#') {
            told.extend_from_slice(line)?;
        }
    }
    let written = write_scene(alloc, &scenario.scene, &scenario.work)?;
    assert_eq!(rt; written.as_slice(), told.as_slice());
    let again = read_scene(alloc, &written, scenario.work.kind())?;
    assert_eq!(rt; again.work.steps(), scenario.work.steps());
    let parts = format!(in alloc; "{scenario:?}")?;
    assert_eq!(rt; format!(in alloc; "{again:?}")?.as_str(), parts.as_str());
    Ok(())
}

/// The number of the text's fault, 0 where it is accepted. What is answered is as it should be.
fn judged(rt: &impl Abort, alloc: Global, text: &[u8], kind: WorkKind) -> Result<u8, Fail> {
    let lines = lines_of(alloc, text)?;
    match read_scene(alloc, text, kind) {
        Ok(scenario) => {
            is_written_again(rt, alloc, &lines, &scenario)?;
            Ok(0)
        }
        Err(fault) => {
            let last = lines.len().saturating_add(1);
            assert!(rt;
                1 <= fault.line && fault.line <= last,
                "{fault:?} of {text:?}"
            );
            Ok(fault.cause.number())
        }
    }
}

/// What a replay answers, and what it writes.
type Told = (Result<(), ReplayFault>, Vec<u8>);

/// What a replay of the text must answer and write: what `read_scene` answers, then what the steps of what was read
/// do, then the report.
fn told_of(alloc: Global, text: &[u8]) -> Result<Told, Fail> {
    match read_scene(alloc, text, WorkKind::Steps) {
        Ok(scenario) => told_by(alloc, scenario),
        Err(SceneFault { line, cause }) => {
            Ok((Err(ReplayFault::Scene { line, cause }), Vec::new(alloc)))
        }
    }
}

fn told_by(alloc: Global, scenario: Scenario) -> Result<Told, Fail> {
    let Scenario { scene, work } = scenario;
    let mut world = World::open(alloc, scene, MemStore::new(alloc)).map_err(|_| Fail::from(
        "no world",
    ))?;
    let mut sink = Sink::new(Vec::new(alloc));
    let answer = match first_refused(alloc, &mut world, work.steps()) {
        Some(fault) => Err(fault),
        None => write_report(alloc, &mut world, &mut sink),
    };
    Ok((answer, sink.into_inner()))
}

/// Makes the steps up to the first that is refused, and says which.
fn first_refused(
    alloc: Global,
    world: &mut World<MemStore>,
    steps: &[Step],
) -> Option<ReplayFault> {
    let mut at = 0usize;
    for step in steps {
        at = at.saturating_add(1);
        if let Err(cause) = world.step(alloc, *step) {
            return Some(ReplayFault::Step { at, cause });
        }
    }
    None
}

/// A replay answers and writes what reading, stepping and reporting do by themselves, also where the bytes come one
/// at a time. Whether it ended with a report.
fn replayed_as_told(rt: &impl Abort, alloc: Global, text: &[u8]) -> Result<bool, Fail> {
    let (expected, report) = told_of(alloc, text)?;
    for at_once in [1, 1_000_000] {
        let feed = Feed {
            at_once,
            ..whole(text)
        };
        let (answer, left) = replayed(alloc, feed, empty(alloc));
        assert_eq!(rt; answer, expected, "{text:?}");
        assert_eq!(rt; left.bytes.as_slice(), report.as_slice(), "{text:?}");
    }
    Ok(expected.is_ok())
}

/// How many mutants have at least which fault's number; 0 is none.
const LEAST: [(u8, usize); 7] = [
    (0, 1_000),
    (1, 100),
    (2, 100),
    (3, 100),
    (4, 100),
    (5, 100),
    (7, 100),
];

/// How often the number stands there.
fn count_of(numbers: &[u8], number: u8) -> usize {
    numbers.iter().filter(|other| **other == number).count()
}

/// There are so many of each number, and no others.
fn assert_counts(rt: &impl Abort, numbers: &[u8], rows: &[(u8, usize)]) {
    let mut counted = 0usize;
    for (number, least) in rows {
        let count = count_of(numbers, *number);
        assert!(rt; count >= *least, "{count} mutants of number {number}");
        counted = counted.saturating_add(count);
    }
    assert_eq!(rt; counted, numbers.len());
}

/// Scenarios with fault lines.
const FAULT_SEEDS: [&[u8]; 3] = [
    b"linda-kt 1\nshards 2\nworker\nout (\"k\")\nworker\nin (\"k\")\nfaults\nfail s1 after 3\n\
check w2 after 0\nfail w1 after 100000\nend\n",
    b"# nobody fails\nlinda-kt 1\nshards 1\nworker\n# but a check is made\nfaults\n#\ncheck w1 after 12\n\
check s1 after 7\nend\n",
    b"linda-kt 1\nshards 8\nworker\nworker\nworker\nworker\nworker\nworker\nworker\nworker\n\
worker\nworker\nworker\nworker\nworker\nworker\nworker\nworker\nfaults\n\
fail s8 after 9\nfail w8 after 99\nfail w16 after 99\ncheck s3 after 10000\nfail s5 after 0\nend\n",
];

/// How many mutants of these there are.
const FAULT_MUTANTS: usize = 6_000;

/// How many of them have at least which fault's number.
const LEAST_OF_FAULTS: [(u8, usize); 8] = [
    (0, 300),
    (1, 100),
    (2, 100),
    (3, 1),
    (4, 0),
    (5, 100),
    (6, 20),
    (7, 50),
];

#[test]
fn mutants_of_faults(rt: HostRuntime) -> Result<(), Fail> {
    let alloc = rt.alloc();
    let mut dice = Dice { state: 2 };
    let mut numbers = Vec::new(alloc);
    for seed in &FAULT_SEEDS {
        assert_eq!(rt; judged(&rt, alloc, seed, WorkKind::Faults)?, 0, "{seed:?}");
    }
    for _ in 0..FAULT_MUTANTS {
        let seed = dice.one_of(&FAULT_SEEDS)?;
        let text = mutant_of(alloc, &mut dice, seed)?;
        numbers.push(judged(&rt, alloc, &text, WorkKind::Faults)?)?;
    }
    assert_counts(&rt, &numbers, &LEAST_OF_FAULTS);
    Ok(())
}

#[test]
fn mutants(rt: HostRuntime) -> Result<(), Fail> {
    let alloc = rt.alloc();
    for seed in &SEEDS {
        assert_eq!(rt; judged(&rt, alloc, seed, WorkKind::Steps)?, 0, "{seed:?}");
    }
    let mut dice = Dice { state: 1 };
    let mut numbers = Vec::new(alloc);
    let mut reports = Vec::new(alloc);
    for i in 0..MUTANTS {
        let seed = dice.one_of(&SEEDS)?;
        let text = mutant_of(alloc, &mut dice, seed)?;
        numbers.push(judged(&rt, alloc, &text, WorkKind::Steps)?)?;
        if i % REPLAYED == 0 {
            reports.push(u8::from(replayed_as_told(&rt, alloc, &text)?))?;
        }
    }
    assert_counts(&rt, &numbers, &LEAST);
    let (ended, refused) = (count_of(&reports, 1), count_of(&reports, 0));
    assert!(rt;
        ended >= 100 && refused >= 500,
        "{ended} reports, {refused} faults"
    );
    Ok(())
}
