//! Mistakes in scripts, tuples and templates aside.
use crate::Row;

/// Where commands are wanted, in a scenario of steps.
pub(crate) static IN_SCRIPT: &[Row] = &[
    (
        "a tab",
        "out\t(\"a\", 1)\n",
        r#"  out\t("a", 1)
     ^
  a tab, shown as `\t`: write one space in its place
"#,
    ),
    (
        "indented",
        "  out (\"a\", 1)\n",
        r#"    out ("a", 1)
  ^
  a line begins with its first word: take away the spaces or tabs before it
"#,
    ),
    (
        "an empty line",
        "\n",
        r#"  line 6 is empty: take it away, or write `#` on it
"#,
    ),
    (
        "a remark behind a command",
        "set y = x + 1 # more\n",
        r#"  set y = x + 1 # more
                ^
  a remark needs a line of its own, which begins with `#`: write it above this line
"#,
    ),
    (
        "an indented remark",
        " # more\n",
        r#"   # more
  ^
  a remark's line begins with `#`: take away the spaces or tabs before it
"#,
    ),
    (
        "large letters",
        "OUT (\"a\", 1)\n",
        r#"  OUT ("a", 1)
  ^
  did you mean `out`?
"#,
    ),
    (
        "`put`, which is near to `out`",
        "put (\"a\", 1)\n",
        r#"  put ("a", 1)
  ^
  did you mean `out`?
"#,
    ),
    (
        "fault lines given to replay",
        "faults\n",
        r#"  faults
  ^
  `faults` is for `linda_kt run`: type `linda_kt run FILE`; for `replay` write `steps` here, and steps below
"#,
    ),
    (
        "`steps` left out",
        "issue w1\n",
        r#"  issue w1
  ^
  a line `steps` must stand above the first step: write it above this line
"#,
    ),
    (
        "`steps` left out, and no step",
        "end\n",
        r#"  end
  ^
  a line `steps` must stand above `end`, even with no step between: write it above this line
"#,
    ),
    (
        "a word that is none",
        "eval (\"a\")\n",
        r#"  eval ("a")
  ^
  there is no `eval`: take this line away, and write one more worker below, a line `worker` and its commands
"#,
    ),
    (
        "a verb alone",
        "out\n",
        r#"  out
     ^
  a tuple or template in parentheses is wanted here, as in `out ("a", 1)` and `in ("a", ?int)`
"#,
    ),
    (
        "no space behind the verb",
        "out(\"a\", 1)\n",
        r#"  out("a", 1)
     ^
  one space stands between the word and `(`: put it here
"#,
    ),
    (
        "two spaces",
        "set y  = x + 1\n",
        r#"  set y  = x + 1
        ^
  one space is enough between two words: take this one away
"#,
    ),
    (
        "the text ends",
        "",
        r#"  the text ends too early: write `steps` as line 6, then steps or none, and `end`
"#,
    ),
    (
        "no line feed",
        "out (\"a\", 1)",
        r#"  out ("a", 1)
              ^
  no line feed ends this line: press Enter at its end, and go on with the scenario down to `end`
"#,
    ),
    (
        "a line of spaces",
        "   \n",
        "     \n  ^\n  line 6 has spaces or tabs alone: take it away, or write `#` as its first byte\n",
    ),
    (
        "`take`, a word of another space",
        "take (\"a\", ?int)\n",
        r#"  take ("a", ?int)
  ^
  did you mean `in`?
"#,
    ),
    (
        "`Get`, a word of another space",
        "Get (\"a\", ?int)\n",
        r#"  Get ("a", ?int)
  ^
  did you mean `in`?
"#,
    ),
    (
        "another word that is none",
        "frob (\"a\")\n",
        r#"  frob ("a")
  no command begins so. `out ("a", 1)` puts a tuple, `in ("a", ?int)` takes one, `rd ("a", ?int)` reads one;
  `inp` and `rdp` do so without waiting; `set x = x + 1`, `unless 1`; `worker` and `steps` begin the next part
"#,
    ),
    (
        "a colon behind the verb",
        "out: (\"a\", 1)\n",
        r#"  out: ("a", 1)
     ^
  a tuple or template in parentheses is wanted here, as in `out ("a", 1)` and `in ("a", ?int)`
"#,
    ),
    (
        "`steps` with more on its line",
        "steps 1\n",
        r#"  steps 1
        ^
  the first word of this line stands alone: take away what comes after it
"#,
    ),
    (
        "a control byte",
        "out\x01 (\"a\", 1)\n",
        r#"  out\x01 ("a", 1)
     ^
  a control byte, shown as `\x..`: take it away
"#,
    ),
    (
        "a word that is no ASCII",
        "\u{f6}ut (\"a\", 1)\n",
        r#"  \xc3\xb6ut ("a", 1)
  ^
  no ASCII character, its bytes are shown as `\x..`: write letters, digits and signs of ASCII alone
"#,
    ),
    (
        "CR within the line",
        "out \r (\"a\", 1)\n",
        r#"  out \r ("a", 1)
      ^
  a carriage return, shown as `\r`: take it away, lines end with LF alone
"#,
    ),
];

/// Where commands are wanted, in a scenario of fault lines.
pub(crate) static IN_SCRIPT_OF_RUN: &[Row] = &[
    (
        "steps given to run",
        "steps\n",
        r#"  steps
  ^
  `steps` is for `linda_kt replay`: type `linda_kt replay FILE`; for `run` write `faults` here, and no steps
"#,
    ),
    (
        "`faults` left out",
        "end\n",
        r#"  end
  ^
  a line `faults` must stand above `end`, even with no fault line between: write it above this line
"#,
    ),
    (
        "`faults` left out before a fault line",
        "fail w1 after 3\n",
        r#"  fail w1 after 3
  ^
  a line `faults` must stand above the first fault line: write it above this line
"#,
    ),
    (
        "a step",
        "issue w1\n",
        r#"  issue w1
  ^
  a step is for `linda_kt replay`, below `steps`; for `run` write `faults` here, then lines as `fail w1 after 3`
"#,
    ),
    (
        "the text ends",
        "",
        r#"  the text ends too early: write `faults` as line 6, then fault lines or none, and `end`
"#,
    ),
    (
        "a word that is none",
        "frob (\"a\")\n",
        r#"  frob ("a")
  no command begins so. `out ("a", 1)` puts a tuple, `in ("a", ?int)` takes one, `rd ("a", ?int)` reads one;
  `inp` and `rdp` do so without waiting; `set x = x + 1`, `unless 1`; `worker` and `faults` begin the next part
"#,
    ),
];

/// A journal that is given to run.
pub(crate) static IN_JOURNAL: &[Row] = &[(
    "a journal given to run",
    "steps\n",
    r#"  steps
  ^
  this is a journal, the steps that a run made: type `linda_kt replay FILE`
"#,
)];

/// A journal of a run that went on.
pub(crate) static IN_RESUMED: &[Row] = &[(
    "the journal of a run that went on",
    "steps\n",
    r#"  steps
  ^
  a journal of a run that went on: type `linda_kt resume --store COPY FILE`, COPY its store from before the run
"#,
)];

/// The rules of names.
pub(crate) static IN_NAMES: &[Row] = &[
    (
        "a name that is not bound",
        "out (\"a\", y)\n",
        r#"  out ("a", y)
            ^
  no command above binds this name: write one above, as `in ("a", ?int x)`; a str stands in quotes, as `"x"`
"#,
    ),
    (
        "a name that is bound in the same template",
        "in (?int x, x)\n",
        r#"  in (?int x, x)
              ^
  this name has a value only below this line: use it there, or write a new formal here, as `?int y`
"#,
    ),
    (
        "another kind",
        "in (\"a\", ?str n)\n",
        r#"  in ("a", ?str n)
           ^
  this name stands for ints since it was first bound: take another name here
"#,
    ),
    (
        "two kinds in one template",
        "in (?int x, ?str x)\n",
        r#"  in (?int x, ?str x)
              ^
  this name stands for ints since it was first bound: take another name here
"#,
    ),
    (
        "a str that is added to",
        "set n = s + 1\n",
        r#"  set n = s + 1
          ^
  `set` adds to an int, and this name stands for strs: write a name that was bound by `?int`
"#,
    ),
    (
        "`set` from nothing",
        "set x = y + 1\n",
        r#"  set x = y + 1
          ^
  no command above binds this name: write one above that binds it to an int, as `in ("a", ?int x)`
"#,
    ),
    (
        "a bool misspelt",
        "out (tru)\n",
        r#"  out (tru)
       ^
  no command above binds this name: did you mean `true`?
"#,
    ),
    (
        "a str that is set",
        "set s = n + 1\n",
        r#"  set s = n + 1
      ^
  this name stands for strs since it was first bound: take another name here
"#,
    ),
];
