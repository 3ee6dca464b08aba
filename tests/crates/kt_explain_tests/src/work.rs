//! Mistakes in steps and in fault lines.
use crate::Row;

/// Steps.
pub(crate) static IN_STEPS: &[Row] = &[
    (
        "`delivr`",
        "delivr w1 s1\n",
        r#"  delivr w1 s1
  ^
  did you mean `deliver`?
"#,
    ),
    (
        "`worker1`",
        "issue worker1\n",
        r#"  issue worker1
        ^
  write a node here: `w1`, `w2` and so on are the workers, `s1`, `s2` and so on the shards
"#,
    ),
    (
        "w0",
        "issue w0\n",
        r#"  issue w0
        ^
  nodes are counted from 1: the first worker is `w1`, the first shard `s1`
"#,
    ),
    (
        "a node too great",
        "issue w100\n",
        r#"  issue w100
        ^
  there is no such node: write one of `w1` and `s1`, which this scenario has
"#,
    ),
    (
        "serve without its place",
        "serve s1 w1\n",
        r#"  serve s1 w1
             ^
  the form is `serve SHARD WORKER PLACE`, as in `serve s1 w1 0`: 0 picks the oldest tuple that matches
"#,
    ),
    (
        "a place too great",
        "serve s1 w1 100000\n",
        r#"  serve s1 w1 100000
              ^
  the last number picks one of the tuples that match, 0 the oldest: write 0, or one up to 99999
"#,
    ),
    (
        "deliver with one node",
        "deliver w1\n",
        r#"  deliver w1
            ^
  the form is `deliver SENDER RECEIVER`, one a worker and one a shard, as in `deliver w1 s1`
"#,
    ),
    (
        "two nodes for one",
        "issue w1 s1\n",
        r#"  issue w1 s1
           ^
  the form is `issue NODE`, with one node alone, as in `issue w1`
"#,
    ),
    (
        "a remark behind a step",
        "issue w1 # it asks\n",
        r#"  issue w1 # it asks
           ^
  a remark needs a line of its own, which begins with `#`: write it above this line
"#,
    ),
    (
        "a space behind a step",
        "issue w1 \n",
        "  issue w1 \n          ^\n  a space at the end of the line: take it away\n",
    ),
    (
        "a fault line among steps",
        "fail w1 after 3\n",
        r#"  fail w1 after 3
          ^
  a step has the node alone, as `fail w1`: take this away; `after` is for the fault lines of `linda_kt run`
"#,
    ),
    (
        "a command among steps",
        "out (\"b\", 1)\n",
        r#"  out ("b", 1)
  ^
  workers and commands stand above the line `steps`: move this line up, below the `worker` that it belongs to
"#,
    ),
    (
        "fault lines behind steps",
        "faults\n",
        r#"  faults
  ^
  fault lines are for `linda_kt run`, and this scenario has steps: take this line away, and fault lines below it
"#,
    ),
    (
        "a step that is none",
        "commit w1\n",
        r#"  commit w1
  no step begins so. Asking: `issue w1`, `deliver w1 s1`, `serve s1 w1 0`, `deliver s1 w1`, once more `repeat w1`.
  Saving: `check w1`, `decide w1`, `learn w1`; `abandon w1`. Failing: `fail w1`, `restart w1`. Or `take w1`, `end`
"#,
    ),
    (
        "no `end`",
        "",
        r#"  the text ends too early: write `end` as line 7, the last one
"#,
    ),
    (
        "no line feed at the end",
        "end",
        r#"  end
     ^
  no line feed ends the last line: press Enter at its end
"#,
    ),
    (
        "`end` with more on its line",
        "end of it\n",
        r#"  end of it
      ^
  the first word of this line stands alone: take away what comes after it
"#,
    ),
    (
        "zeros in front of a node's number",
        "issue w01\n",
        r#"  issue w01
        ^
  a node's number has no zeros in front, as in `w1`
"#,
    ),
    (
        "a place that is no number",
        "serve s1 w1 x\n",
        r#"  serve s1 w1 x
              ^
  the form is `serve SHARD WORKER PLACE`, as in `serve s1 w1 0`: 0 picks the oldest tuple that matches
"#,
    ),
    (
        "a second line `steps`",
        "steps\n",
        r#"  steps
  ^
  this word stands on a line above already: take this line away
"#,
    ),
    (
        "a step without its node",
        "fail\n",
        r#"  fail
      ^
  the form is `fail NODE`, with one node alone, as in `fail w1`
"#,
    ),
];

/// Fault lines.
pub(crate) static IN_FAULTS: &[Row] = &[
    (
        "`fail s1`",
        "fail s1\n",
        r#"  fail s1
         ^
  the form is `fail s1 after 3` or `check s1 after 3`: 3 says how many steps of its own the node makes first
"#,
    ),
    (
        "after 100001",
        "fail w1 after 100001\n",
        r#"  fail w1 after 100001
                ^
  the number says how many steps of its own the node makes first: write one from 0 to 100000, with no zeros in front
"#,
    ),
    (
        "a node that is not there",
        "check w2 after 1\n",
        r#"  check w2 after 1
        ^
  there is no such node: write one of `w1` and `s1`, which this scenario has
"#,
    ),
    (
        "a word in place of `after`",
        "fail w1 at 3\n",
        r#"  fail w1 at 3
          ^
  the form is `fail s1 after 3` or `check s1 after 3`: 3 says how many steps of its own the node makes first
"#,
    ),
    (
        "a step among fault lines",
        "issue w1\n",
        r#"  issue w1
  ^
  steps are for `linda_kt replay`, below `steps` in place of `faults`; here write `fail w1 after 3` or the like
"#,
    ),
    (
        "`chek`",
        "chek w1 after 1\n",
        r#"  chek w1 after 1
  ^
  did you mean `check`?
"#,
    ),
    (
        "a fault line that is none",
        "crash w1 after 3\n",
        r#"  crash w1 after 3
  ^
  no fault line begins so: write one as `fail w1 after 3` or `check w1 after 3`, or `end` as the last line
"#,
    ),
    (
        "steps below fault lines",
        "steps\n",
        r#"  steps
  ^
  steps are for `linda_kt replay`, and this scenario has fault lines: take this line away, and steps below it
"#,
    ),
    (
        "a second line `faults`",
        "faults\n",
        r#"  faults
  ^
  this word stands on a line above already: take this line away
"#,
    ),
    (
        "zeros in front behind `after`",
        "fail w1 after 03\n",
        r#"  fail w1 after 03
                ^
  the number says how many steps of its own the node makes first: write one from 0 to 100000, with no zeros in front
"#,
    ),
    (
        "a command among fault lines",
        "out (\"b\", 1)\n",
        r#"  out ("b", 1)
  ^
  workers and commands stand above the line `faults`: move this line up, below the `worker` that it belongs to
"#,
    ),
    (
        "a node too great",
        "fail w100 after 1\n",
        r#"  fail w100 after 1
       ^
  there is no such node: write one of `w1` and `s1`, which this scenario has
"#,
    ),
    (
        "no node",
        "fail worker1 after 1\n",
        r#"  fail worker1 after 1
       ^
  write a node here: `w1`, `w2` and so on are the workers, `s1`, `s2` and so on the shards
"#,
    ),
    (
        "`end` with more on its line",
        "end of it\n",
        r#"  end of it
      ^
  the first word of this line stands alone: take away what comes after it
"#,
    ),
    (
        "no `end`",
        "",
        r#"  the text ends too early: write `end` as line 7, the last one
"#,
    ),
];

/// Fault lines where there are more nodes.
pub(crate) static IN_MORE_NODES: &[Row] = &[(
    "a node that is not there",
    "fail s4 after 0\n",
    r#"  fail s4 after 0
       ^
  there is no such node: write one of `w1` to `w2` and `s1` to `s3`, which this scenario has
"#,
)];
