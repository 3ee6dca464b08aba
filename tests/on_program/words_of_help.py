"""The words that `--help` prints, command by command, are those that the scripts of `completion` offer and those of which
the page of `manual` tells. What bash offers is asked of bash itself."""

import re
import subprocess

from on_program.starting import SECONDS, start, told

# A line of the help of `clap` that names a command, and the long option of one that names an option.
COMMAND = re.compile(r"^  ([a-z]+)(?:  |$)", re.MULTILINE)
OPTION = re.compile(r"^ {2,6}(?:-\w, )?--([a-z]+)", re.MULTILINE)
# A section of the page on a command, and an option in it.
SECTION = re.compile(r"^\.SS (\S+)\n(.*?)(?=^\.S[HS] )", re.MULTILINE | re.DOTALL)
PAGE_OPTION = re.compile(r"^(?:\\fB\\-\w\\fR, )?\\fB\\-\\-([a-z]+)\\fR", re.MULTILINE)
# What zsh and fish are told of a command.
ZSH_CASE = re.compile(r"^ {12}(\w+)\)\n(.*?);;", re.MULTILINE | re.DOTALL)
ZSH_OPTION = re.compile(r"^ +'--(\w+)", re.MULTILINE)
FISH_OPTION = re.compile(r"^complete -c linda_kt -n '__linda_kt_has_command (\w+)' -l (\w+) ", re.MULTILINE)
# `clap` has the help of this command itself.
OF_CLAP = "help"


def text_of(*words):
    """What the program writes on these words."""
    said, errors, status = start(list(words), b"", b"")
    return said.decode("ascii") if (errors, status) == (b"", 0) else f"status {status}: {errors!r}"


def offered(script, *words):
    """What bash offers for the last of these words behind the program's name."""
    call = f"{script}\nCOMP_WORDS=(linda_kt \"$@\")\nCOMP_CWORD=$#\n_linda_kt\nprintf '%s\\n' \"${{COMPREPLY[@]}}\"\n"
    ran = subprocess.run(
        ["bash", "-euc", call, "bash", *words], stdin=subprocess.DEVNULL, stdout=subprocess.PIPE,
        stderr=subprocess.STDOUT, timeout=SECONDS,
    )
    return sorted(ran.stdout.decode().split())


def long_of(names):
    """The names as long options, and `--help`, which each command has."""
    return sorted(f"--{name}" for name in {*names, "help"})


def words_of_help():
    """All of it."""
    whole = text_of("--help")
    names = COMMAND.findall(whole.split("Commands:", 1)[-1].split("Options:", 1)[0])
    scripts = {shell: text_of("completion", shell) for shell in ("bash", "zsh", "fish")}
    page = text_of("manual")
    sections = dict(SECTION.findall(page))
    cases = dict(ZSH_CASE.findall(scripts["zsh"]))
    yield told("commands of the help: some", True, len(names) > 5)
    yield told("commands that bash offers", sorted(names), offered(scripts["bash"], ""))
    yield told("commands of the page", names, list(sections))
    yield told("commands that zsh knows", names, list(cases))
    yield told("options before a command that bash offers", long_of(OPTION.findall(whole)), offered(scripts["bash"], "--"))
    general = page.split(".SH OPTIONS\n", 1)[-1].split(".SH ", 1)[0]
    yield told("options before a command on the page", long_of(OPTION.findall(whole)), long_of(PAGE_OPTION.findall(general)))
    for name in names:
        if name == OF_CLAP:
            continue
        wanted = sorted(f"--{option}" for option in OPTION.findall(text_of(name, "--help")))
        yield told(f"options of {name} that bash offers", wanted, offered(scripts["bash"], name, "--"))
        yield told(f"options of {name} on the page", wanted, long_of(PAGE_OPTION.findall(sections.get(name, ""))))
        yield told(f"options of {name} that zsh knows", wanted, long_of(ZSH_OPTION.findall(cases.get(name, ""))))
        of_fish = [option for command, option in FISH_OPTION.findall(scripts["fish"]) if command == name]
        yield told(f"options of {name} that fish knows", wanted, long_of(of_fish))
