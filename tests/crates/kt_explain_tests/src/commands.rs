//! Mistakes in `set` and `unless`.
use crate::Row;

/// The forms of `set` and `unless`, and their numbers.
pub(crate) static IN_COMMANDS: &[Row] = &[
    (
        "minus",
        "set x = x - 1\n",
        r#"  set x = x - 1
            ^
  `set` only adds: for minus write `+ -` and the int, as in `set x = x + -1`
"#,
    ),
    (
        "a constant",
        "set x = 5\n",
        r#"  set x = 5
          ^
  `set` only adds to a name: for `set x = 5` write `out ("k", 5)` and below it `in ("k", ?int x)`
"#,
    ),
    (
        "no spaces around +",
        "set x = x+1\n",
        r#"  set x = x+1
           ^
  write one space before `+` and one after it, as in `set x = x + 1`
"#,
    ),
    (
        "no spaces around =",
        "set x=x + 1\n",
        r#"  set x=x + 1
       ^
  `=` is wanted here, with one space before it and one after it, as in `set x = x + 1`
"#,
    ),
    (
        "nothing is added",
        "set y = x\n",
        r#"  set y = x
           ^
  `set` always adds an int: to copy a value write ` + 0` at the end of the line, as in `set y = x + 0`
"#,
    ),
    (
        "two names are added",
        "set y = x + x\n",
        r#"  set y = x + x
              ^
  no command adds two names: write an int here, as in `set y = x + 1`
"#,
    ),
    (
        "`set` with a bad name",
        "set Y = x + 1\n",
        r#"  set Y = x + 1
      ^
  a name begins with a small letter, a to z: write it so, as `x1`
"#,
    ),
    (
        "64 bits behind `set`",
        "set y = x + 9223372036854775808\n",
        r#"  set y = x + 9223372036854775808
              ^
  an int has 64 bits: write one from -9223372036854775808 to 9223372036854775807
"#,
    ),
    (
        "unless 0",
        "unless 0\n",
        r#"  unless 0
         ^
  `unless N` skips the next N commands where the last answer was none: write 1 or more, or take this line away
"#,
    ),
    (
        "unless 201",
        "unless 201\n",
        r#"  unless 201
         ^
  a script has at most 200 commands: write `unless 200`, which skips all that follow where the last answer was none
"#,
    ),
    (
        "`set` alone",
        "set\n",
        r#"  set
     ^
  the form is `set x = y + K`, K an int, as in `set x = x + 1`
"#,
    ),
    (
        "no `=`",
        "set y x + 1\n",
        r#"  set y x + 1
        ^
  `=` is wanted here, with one space before it and one after it, as in `set x = x + 1`
"#,
    ),
    (
        "times",
        "set y = x * 2\n",
        r#"  set y = x * 2
            ^
  `set` only adds: write ` + ` and an int here, as in `set x = y + 1`
"#,
    ),
    (
        "a str is added",
        "set y = x + \"a\"\n",
        r#"  set y = x + "a"
              ^
  write an int here, as `1` or `-1`: `set` adds ints alone
"#,
    ),
    (
        "zeros in front of what is added",
        "set y = x + 01\n",
        r#"  set y = x + 01
              ^
  an int has no zeros in front: take them away
"#,
    ),
    (
        "two ints are added",
        "set y = x + 1 + 1\n",
        r#"  set y = x + 1 + 1
                ^
  `set` adds one int, with which the line ends: take away what comes after it
"#,
    ),
    (
        "`unless` alone",
        "unless\n",
        r#"  unless
        ^
  `unless N` skips the next N commands where the last answer was none: write N, from 1 to 200, with no zeros in front
"#,
    ),
    (
        "zeros in front behind `unless`",
        "unless 01\n",
        r#"  unless 01
         ^
  `unless N` skips the next N commands where the last answer was none: write N, from 1 to 200, with no zeros in front
"#,
    ),
];
