//! Traces, pictures and pages from text to text, with growths refused in turn.

ghost use Rattle.std.specs.Prelude.{◌≤◌};

use crate::fresh::sink;
use crate::refusing::{MOST, Turns, never, refuse, was_spared};
use crate::runs::{Ended, is_of_replay};
use kt_look::{DrawFault, Drawing, Form, Kind, write_drawing, write_trace};
use kt_scene::{Nobody, ReplayFault, Sink, Source};
use kt_tell::Choice;
use std::alloc::Global;
use std::test::Fail;

/// What a person looks at.
#[derive(Clone, Copy, Debug, PartialEq, Eq)]
enum Look {
    Words,
    Json,
    Picture,
    Page,
}

impl Look {
    fn name(self) -> &'static str {
        match self {
            Look::Words | Look::Json => "write_trace",
            Look::Picture | Look::Page => "write_drawing",
        }
    }

    /// Of so many growths in a row one is refused: a page has thousands, and for each that is refused it is made anew.
    fn stride(self) -> usize
        ensures { 1 ≤ result }
    {
        match self {
            Look::Words | Look::Json => 1,
            Look::Picture => 7,
            Look::Page => 97,
        }
    }

    /// Writes it of the text.
    fn write(self, alloc: Global, text: &[u8], sink: &mut Sink<Vec<u8>>) -> Result<(), DrawFault> {
        match self {
            Look::Words => traced(alloc, text, sink, Form::Words),
            Look::Json => traced(alloc, text, sink, Form::Json),
            Look::Picture => drawn(alloc, text, sink, Kind::Picture),
            Look::Page => drawn(alloc, text, sink, Kind::Page),
        }
    }

    /// Writes it with the growth of this number refused.
    fn once(self, alloc: Global, text: &[u8], number: usize) -> Result<Ended<DrawFault>, Fail> {
        let mut sink = sink(alloc)?;
        refuse(alloc, number)?;
        let answer = self.write(alloc, text, &mut sink);
        let is_spared = was_spared(alloc, number)?;
        Ok((answer, is_spared, sink.into_inner()))
    }

    /// Writes it, each time from the bytes of the text. Refused, it leaves nothing written.
    fn in_turn(self, rt: &HostRuntime, alloc: Global, text: &[u8]) -> Result<(), Fail> {
        let (_, _, expected) = self.once(alloc, text, 0)?;
        let mut turns = Turns::new(self.name());
        turns.hold(rt, !expected.is_empty(), "nothing written")?;
        for number in (1..MOST).step_by(self.stride()) {
            let (answer, is_spared, written) = self.once(alloc, text, number)?;
            let is_right = match answer {
                Ok(()) => written == expected,
                Err(fault) => is_of_memory(fault) && written.is_empty(),
            };
            turns.hold(rt, is_right, "another end")?;
            if is_spared {
                return turns.end(rt, number);
            }
            if answer.is_ok() {
                turns.bear();
            }
        }
        Err(never())
    }
}

fn traced(
    alloc: Global,
    text: &[u8],
    sink: &mut Sink<Vec<u8>>,
    form: Form,
) -> Result<(), DrawFault> {
    let mut source = Source::new(text);
    match write_trace(alloc, &mut source, sink, form, Choice::ALL, &mut Nobody) {
        Ok(()) => Ok(()),
        Err(fault) => Err(DrawFault::Replay(fault)),
    }
}

fn drawn(
    alloc: Global,
    text: &[u8],
    sink: &mut Sink<Vec<u8>>,
    kind: Kind,
) -> Result<(), DrawFault> {
    let mut source = Source::new(text);
    let drawing = Drawing {
        kind,
        from: 1,
        to: u64::MAX,
    };
    write_drawing(alloc, &mut source, sink, drawing, &mut Nobody)
}

/// Whether memory ran out. Where a step is refused, what was made until then is written.
fn is_of_memory(fault: DrawFault) -> bool {
    match fault {
        DrawFault::Replay(ReplayFault::Step { .. }) | DrawFault::TooMany { .. } => false,
        DrawFault::Replay(fault) => is_of_replay(fault),
    }
}

/// Shows what happens in the scenario.
pub(crate) fn looks_in_turn(rt: &HostRuntime, alloc: Global, text: &[u8]) -> Result<(), Fail> {
    for look in [Look::Words, Look::Json, Look::Picture, Look::Page] {
        look.in_turn(rt, alloc, text)?;
    }
    Ok(())
}
