//! Mistakes above the first command, and behind the end.
use crate::Row;

/// The first line.
pub(crate) static IN_TITLE: &[Row] = &[
    (
        "CR LF",
        "linda-kt 1\r\n",
        r#"  linda-kt 1\r
            ^
  the line ends with CR LF, the CR is shown as `\r`: save the text with Unix line ends, LF alone
"#,
    ),
    (
        "a byte order mark",
        "\u{feff}linda-kt 1\n",
        r#"  \xef\xbb\xbflinda-kt 1
  ^
  a byte order mark, shown as `\xef\xbb\xbf`, stands in front: save the text as ASCII, without the mark
"#,
    ),
    (
        "the title forgotten",
        "shards 1\n",
        r#"  shards 1
  ^
  a scenario begins with the line `linda-kt 1`: write it above this line
"#,
    ),
    (
        "another version",
        "linda-kt 2\n",
        r#"  linda-kt 2
           ^
  this program reads version 1: write `linda-kt 1`
"#,
    ),
    (
        "the title misspelt",
        "linda_kt 1\n",
        r#"  linda_kt 1
  ^
  did you mean `linda-kt 1`?
"#,
    ),
    (
        "nothing",
        "",
        r#"  the input is empty: give a file that holds a scenario, whose first line is `linda-kt 1`
"#,
    ),
    (
        "a report",
        "survivors 2\n",
        r#"  survivors 2
  ^
  this is a report, which a command wrote: give the scenario instead, with its first line `linda-kt 1`
"#,
    ),
    (
        "a database",
        "SQLite format 3\0\x10\0\x01\x01\n",
        r#"  SQLite format 3\x00\x10\x00\x01\x01
  ^
  a database: give the scenario instead, or to go on from it type `linda_kt resume --store DATABASE SCENARIO`
"#,
    ),
    (
        "UTF-16",
        "l\0i\0n\0\n",
        r#"  l\x00i\x00n\x00
  ^
  the text is in UTF-16: save it as ASCII
"#,
    ),
    (
        "a database without a line feed",
        "SQLite format 3\0\x10\0\x01\x01",
        r#"  SQLite format 3\x00\x10\x00\x01\x01
  ^
  a database: give the scenario instead, or to go on from it type `linda_kt resume --store DATABASE SCENARIO`
"#,
    ),
    (
        "line ends of CR alone",
        "linda-kt 1\rshards 1\r",
        r#"  linda-kt 1\rshards 1\r
            ^
  the lines end with CR, shown as `\r`: save the text with Unix line ends, LF alone
"#,
    ),
    (
        "remarks alone",
        "# nothing\n",
        r#"  the text ends too early: write `linda-kt 1` as line 2, below the remarks, and the scenario below it
"#,
    ),
    (
        "an empty line above all",
        "\n",
        r#"  line 1 is empty: take it away, or write `#` on it
"#,
    ),
];

/// The first line, given to run.
pub(crate) static IN_TITLE_OF_RUN: &[Row] = &[
    (
        "CR LF in run",
        "linda-kt 1\r\n",
    r#"  linda-kt 1\r
            ^
  the line ends with CR LF, the CR is shown as `\r`: save the text with Unix line ends, LF alone
"#,
    ),
    (
        "a database given to run",
        "SQLite format 3\0\n",
        r#"  SQLite format 3\x00
  ^
  a database: give the scenario instead, or to go on from it type `linda_kt run --resume --store DATABASE SCENARIO`
"#,
    ),
];

/// The second line, given to run.
pub(crate) static IN_SHARDS_OF_RUN: &[Row] = &[
    (
        "the text ends, in run",
        "",
        r#"  the text ends too early: write `shards 1` as line 2, then `worker`, its commands, `faults` and `end`
"#,
    ),
];

/// Where the first worker is wanted, in run.
pub(crate) static IN_WORKERS_OF_RUN: &[Row] = &[
    (
        "the text ends, in run",
        "",
        r#"  the text ends too early: write `worker` as line 3, then its commands, `faults` and `end`
"#,
    ),
];

/// The second line.
pub(crate) static IN_SHARDS: &[Row] = &[
    (
        "the shards forgotten",
        "worker\n",
        r#"  worker
  ^
  the second line says how many shards hold the tuples, 1 to 8: write `shards 1` above this line
"#,
    ),
    (
        "`shard`",
        "shard 1\n",
        r#"  shard 1
  ^
  did you mean `shards`?
"#,
    ),
    (
        "nine shards",
        "shards 9\n",
        r#"  shards 9
         ^
  the form is `shards N`, N from 1 to 8 with no zeros in front, as in `shards 1`
"#,
    ),
    (
        "no number, but a word",
        "shards two\n",
        r#"  shards two
         ^
  the form is `shards N`, N from 1 to 8 with no zeros in front, as in `shards 1`
"#,
    ),
    (
        "the text ends",
        "",
        r#"  the text ends too early: write `shards 1` as line 2, then `worker`, its commands, `steps` and `end`
"#,
    ),
    (
        "two shards in words",
        "shards: 2\n",
        r#"  shards: 2
        ^
  the form is `shards N`, N from 1 to 8 with no zeros in front, as in `shards 1`
"#,
    ),
];

/// Where the first worker is wanted.
pub(crate) static IN_WORKERS: &[Row] = &[
    (
        "a space at the end",
        "worker \n",
        "  worker \n        ^\n  a space at the end of the line: take it away\n",
    ),
    (
        "no worker",
        "steps\n",
        r#"  steps
  ^
  a scenario has at least one worker: write a line `worker` above this one, and its commands below `worker`
"#,
    ),
    (
        "a command above `worker`",
        "out (\"a\", 1)\n",
        r#"  out ("a", 1)
  ^
  commands stand below a line `worker`: write that line above this one
"#,
    ),
    (
        "`worker w1`",
        "worker w1\n",
        r#"  worker w1
         ^
  the first word of this line stands alone: take away what comes after it
"#,
    ),
    (
        "the text ends",
        "",
        r#"  the text ends too early: write `worker` as line 3, then its commands, `steps` and `end`
"#,
    ),
    (
        "no word of a script",
        "thread 1\n",
        r#"  thread 1
  ^
  a line `worker` is wanted in place of this one, and below it commands as `out ("a", 1)`
"#,
    ),
    (
        "`workers`",
        "workers\n",
        r#"  workers
  ^
  did you mean `worker`?
"#,
    ),
];

/// Behind `end`.
pub(crate) static BEHIND_END: &[Row] = &[
    (
        "an empty line at the end",
        "\n",
        r#"  line 6 is empty and stands below `end`, the last line: take it away
"#,
    ),
    (
        "a second scenario",
        "linda-kt 1\n",
        r#"  linda-kt 1
  ^
  a second scenario begins here: put it into a text of its own, `end` is the last line
"#,
    ),
    (
        "something behind `end`",
        "issue w1\n",
        r#"  issue w1
  ^
  `end` is the last line: take this one away and all below it, or move them above `end`
"#,
    ),
];
