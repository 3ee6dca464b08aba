//! Scripts for shells and the manual page, with each growth refused in turn.

use crate::refusing::{MOST, Turns, never, refuse, was_spared};
use kt_words::{Shell, completion, manual};
use std::alloc::{AllocError, Global};
use std::test::Fail;

/// A text of the program's words.
#[derive(Clone, Copy, Debug, PartialEq, Eq)]
enum Text {
    Script(Shell),
    Page,
}

impl Text {
    fn name(self) -> &'static str {
        match self {
            Text::Script(_) => "completion",
            Text::Page => "manual",
        }
    }

    fn written(self, alloc: Global) -> Result<Vec<u8>, AllocError> {
        match self {
            Text::Script(shell) => completion(alloc, shell),
            Text::Page => manual(alloc),
        }
    }

    /// Writes it.
    fn in_turn(self, rt: &HostRuntime, alloc: Global) -> Result<(), Fail> {
        let expected = self.written(alloc)?;
        let mut turns = Turns::new(self.name());
        turns.hold(rt, !expected.is_empty(), "nothing written")?;
        for number in 1..MOST {
            refuse(alloc, number)?;
            let answer = self.written(alloc);
            let is_spared = was_spared(alloc, number)?;
            if let Ok(text) = answer {
                turns.hold(rt, text == expected, "another text")?;
                if is_spared {
                    return turns.end(rt, number);
                }
                turns.bear();
            } else {
                turns.hold(rt, !is_spared, "refused with memory")?;
            }
        }
        Err(never())
    }
}

/// Writes a script for each shell, and the page.
pub(crate) fn words_in_turn(rt: &HostRuntime, alloc: Global) -> Result<(), Fail> {
    for shell in [Shell::Bash, Shell::Zsh, Shell::Fish] {
        Text::Script(shell).in_turn(rt, alloc)?;
    }
    Text::Page.in_turn(rt, alloc)
}
