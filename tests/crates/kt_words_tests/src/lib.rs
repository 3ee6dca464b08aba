//! How the scripts and the page begin, that each word of the table stands in each of them, and what the two lists of
//! words in the table are.
#![tactic(auto)]

use kt_words::{COMMAND, COMMANDS, SHELL, Shell, completion, manual};
use std::test::Fail;

/// The text begins so, and has the name of each command and each option behind these signs.
fn check_text(text: &[u8], begin: &str, signs: &str) -> Result<(), Fail> {
    let text = str::from_utf8(text).ok().ok_or("text")?;
    if !text.starts_with(begin) {
        return Err(Fail::new("another beginning"));
    }
    if !text.contains(signs) {
        return Err(Fail::new("no option"));
    }
    for command in COMMANDS {
        if !text.contains(command.name) {
            return Err(Fail::new(command.name));
        }
        for option in command.options {
            if !text.contains(option.long) {
                return Err(Fail::new(option.long));
            }
        }
    }
    Ok(())
}

#[test]
fn scripts_have_the_words(rt: HostRuntime) -> Result<(), Fail> {
    let alloc = rt.alloc();
    check_text(
        &completion(alloc, Shell::Bash)?,
        "# Completes the words of linda_kt in bash.",
        " --journal",
    )?;
    check_text(
        &completion(alloc, Shell::Zsh)?,
        "#compdef linda_kt\n# Completes the words of linda_kt in zsh.",
        "'--journal[",
    )?;
    check_text(
        &completion(alloc, Shell::Fish)?,
        "# Completes the words of linda_kt in fish.",
        " -l journal -d '",
    )
}

#[test]
fn the_page_has_the_words(rt: HostRuntime) -> Result<(), Fail> {
    check_text(
        &manual(rt.alloc())?,
        ".TH LINDA_KT 1 \"\" \"linda_kt 0.1.0\" \"User Commands\"\n",
        "\\fB\\-\\-journal\\fR\nWrites the report as remarks",
    )
}

#[test]
fn lists_of_words(rt: HostRuntime) -> Result<(), Fail> {
    let shells = [Shell::Bash, Shell::Zsh, Shell::Fish];
    assert_eq!(&rt; SHELL.values.len(), shells.len());
    for (name, shell) in SHELL.values.iter().zip(&shells) {
        assert!(&rt; Shell::of_name(name) == Some(*shell));
        assert!(&rt; shell.name() == *name);
    }
    assert!(&rt; Shell::of_name("Bash").is_none());
    assert_eq!(&rt; COMMAND.values.len(), COMMANDS.len());
    for (name, command) in COMMAND.values.iter().zip(COMMANDS) {
        assert!(&rt; *name == command.name);
    }
    Ok(())
}
