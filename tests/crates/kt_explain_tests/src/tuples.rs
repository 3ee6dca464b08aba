//! Mistakes in tuples and templates.
use crate::Row;

/// Tuples and templates.
pub(crate) static IN_TUPLES: &[Row] = &[
    (
        "no space after the comma",
        "out (\"a\",1)\n",
        r#"  out ("a",1)
           ^
  one space stands after a comma: put it here
"#,
    ),
    (
        "single quotes",
        "out ('a', 1)\n",
        r#"  out ('a', 1)
       ^
  a str stands in double quotes, as in `"a"`
"#,
    ),
    (
        "a float",
        "out (\"a\", 1.5)\n",
        r#"  out ("a", 1.5)
             ^
  no floats: write an int, or a str as in `"1.5"`
"#,
    ),
    (
        "`True`",
        "out (\"a\", True)\n",
        r#"  out ("a", True)
            ^
  did you mean `true`?
"#,
    ),
    (
        "an empty tuple",
        "out ()\n",
        r#"  out ()
      ^
  an empty tuple: write at least one value in it, as in `(1)`
"#,
    ),
    (
        "a formal in `out`",
        "out (\"a\", ?int)\n",
        r#"  out ("a", ?int)
            ^
  `out` takes values alone: write one here, as `1`; what begins with `?` is for `in`, `rd`, `inp` and `rdp`
"#,
    ),
    (
        "too many places",
        "out (1, 2, 3, 4, 5, 6, 7, 8, 9, 10, 11, 12, 13, 14, 15, 16, 17)\n",
        r#"  out (1, 2, 3, 4, 5, 6, 7, 8, 9, 10, 11, 12, 13, 14, 15, 16, 17)
                                                              ^
  a tuple or template has at most 16 places: take away this one and those after it
"#,
    ),
    (
        "too long a str",
        "out (\"aaaaaaaaaaaaaaaaaaaaaaaaaaaaaaaaaaaaaaaaaaaaaaaaaaaaaaaaaaaaaaaaa\")\n",
        r#"  out ("aaaaaaaaaaaaaaaaaaaaaaaaaaaaaaaaaaaaaaaaaaaaaaaaaaaaaaaaaaaaaaaaa")
       ^
  a str has at most 64 characters: make it shorter
"#,
    ),
    (
        "an umlaut",
        "out (\"\u{e4}\")\n",
        r#"  out ("\xc3\xa4")
        ^
  no printable ASCII, its bytes are shown as `\x..`: a str holds characters from space to `~` alone
"#,
    ),
    (
        "an int too great",
        "out (\"a\", 9223372036854775808)\n",
        r#"  out ("a", 9223372036854775808)
            ^
  an int has 64 bits: write one from -9223372036854775808 to 9223372036854775807
"#,
    ),
    (
        "too long a name",
        "in (?int abcdefghijklmnopq)\n",
        r#"  in (?int abcdefghijklmnopq)
           ^
  a name has at most 16 characters: make it shorter
"#,
    ),
    (
        "a large letter",
        "in (?int Xy)\n",
        r#"  in (?int Xy)
           ^
  a name begins with a small letter, a to z: write it so, as `x1`
"#,
    ),
    (
        "a large letter within a name",
        "in (\"a\", ?int countUp)\n",
        r#"  in ("a", ?int countUp)
                     ^
  a name has small letters, digits and `_` alone: write it so, as `count_up`
"#,
    ),
    (
        "a name that means something else",
        "in (?int int)\n",
        r#"  in (?int int)
           ^
  `int`, `str`, `bool`, `true` and `false` are no names: write another name here
"#,
    ),
    (
        "no `?`",
        "in (\"a\", int)\n",
        r#"  in ("a", int)
           ^
  `?` is missing before it: write `?int`, `?str` or `?bool`
"#,
    ),
    (
        "a formal that is none",
        "in (\"a\", ?string)\n",
        r#"  in ("a", ?string)
           ^
  write `?int`, `?str` or `?bool` here, alone or with a space and a name after it, as `?int x`
"#,
    ),
    (
        "a remark behind a tuple",
        "out (\"a\", 1) # one\n",
        r#"  out ("a", 1) # one
               ^
  a remark needs a line of its own, which begins with `#`: write it above this line
"#,
    ),
    (
        "a space behind a tuple",
        "out (\"a\", 1) \n",
        "  out (\"a\", 1) \n              ^\n  a space at the end of the line: take it away\n",
    ),
    (
        "CR behind a tuple",
        "out (\"a\", 1)\r\n",
        r#"  out ("a", 1)\r
              ^
  the line ends with CR LF, the CR is shown as `\r`: save the text with Unix line ends, LF alone
"#,
    ),
    (
        "two spaces behind the verb",
        "out  (\"a\", 1)\n",
        r#"  out  ("a", 1)
      ^
  one space is enough before `(`: take this one away
"#,
    ),
    (
        "no parenthesis",
        "out \"a\", 1\n",
        r#"  out "a", 1
      ^
  a tuple or template in parentheses is wanted here, as in `out ("a", 1)` and `in ("a", ?int)`
"#,
    ),
    (
        "nothing behind the verb and its space",
        "out \n",
        "  out \n      ^\n  a tuple or template in parentheses is wanted here, as in `out (\"a\", 1)` and `in (\"a\", ?int)`\n",
    ),
    (
        "no closing parenthesis",
        "out (\"a\", 1\n",
        r#"  out ("a", 1
             ^
  the line ends within the tuple: write `)` at its end
"#,
    ),
    (
        "no closing quote",
        "out (\"a, 1)\n",
        r#"  out ("a, 1)
       ^
  this quote opens a str, and none closes it: write `"` where the str ends (`\"` is a quote within it)
"#,
    ),
    (
        "an escape that is none",
        "out (\"a\\n\")\n",
        r#"  out ("a\n")
          ^
  `\` and this are no escape: take both away (a str has no line break), or write `\\` for a backslash
"#,
    ),
    (
        "a tab in a str",
        "out (\"a\tb\", x)\n",
        r#"  out ("a\tb", x)
         ^
  a tab, shown as `\t`: a str holds no tab, write a space in its place
"#,
    ),
    (
        "a comma at the end",
        "out (\"a\", 1,)\n",
        r#"  out ("a", 1,)
             ^
  no comma stands before `)`: take it away
"#,
    ),
    (
        "zeros in front",
        "out (007)\n",
        r#"  out (007)
       ^
  an int has no zeros in front: take them away
"#,
    ),
    (
        "a tuple in a tuple",
        "out (\"a\", (1, 2))\n",
        r#"  out ("a", (1, 2))
            ^
  no tuple stands in a tuple: write its values as values of this one, as in `("a", 1, 2)`
"#,
    ),
    (
        "quotes that are no ASCII",
        "out (\u{201c}a\u{201d})\n",
        r#"  out (\xe2\x80\x9ca\xe2\x80\x9d)
       ^
  no ASCII, its bytes are shown as `\x..`: a str stands in the double quotes of ASCII, as in `"a"`
"#,
    ),
    (
        "a long line",
        "out (1.5, \"aaaaaaaaaaaaaaaaaaaaaaaaaaaaaaaaaaaaaaaaaaaaaaaaaaaaaaaaa\
         aaa\", \"bbbbbbbbbbbbbbbbbbbbbbbbbbbbbbbbbbbbbbbbbbbbbbbbbbbbbbbbbbbb\")\n",
        r#"  out (1.5, "aaaaaaaaaaaaaaaaaaaaaaaaaaaaaaaaaaaaaaaaaaaaaaaaaaaaaaaaaaaa", "bbbbbbbbbbbbbbbbbbbbbbbbb...
        ^
  no floats: write an int, or a str as in `"1.5"`
"#,
    ),
    (
        "far to the right",
        "out (\"aaaaaaaaaaaaaaaaaaaaaaaaaaaaaaaaaaaaaaaaaaaaaaaaaaaaaaaaaaaa\"\
         , \"bbbbbbbbbbbbbbbbbbbbbbbbbbbbbbbbbbbbbbbbbbbbbbbbbbbbbbbbbbbb\", 1.5, 1)\n",
        r#"  ...bbbbbbbbbbbbbbbbbbbbbbbbbbbbbbbbbbbbbbbbbbbbbb", 1.5, 1)
                                                       ^
  no floats: write an int, or a str as in `"1.5"`
"#,
    ),
    (
        "nothing behind `(`",
        "out (\n",
        r#"  out (
       ^
  the line ends where a value is wanted: write one here, and `)` after it
"#,
    ),
    (
        "`int` in `out`",
        "out (\"a\", int)\n",
        r#"  out ("a", int)
            ^
  `int`, `str` and `bool` are no values: write one here, as `1`, `"a"` or `true`
"#,
    ),
    (
        "a quote that is escaped",
        "out (\"a\\\")\n",
        r#"  out ("a\")
       ^
  this quote opens a str, and none closes it: write `"` where the str ends (`\"` is a quote within it)
"#,
    ),
    (
        "a comma and a space at the end",
        "out (\"a\", )\n",
        r#"  out ("a", )
            ^
  a value is missing before `)`: write one, or take the comma and the space away
"#,
    ),
    (
        "two commas",
        "out (\"a\", , 1)\n",
        r#"  out ("a", , 1)
            ^
  a value is missing before this comma: write one here
"#,
    ),
    (
        "two spaces behind a comma",
        "out (\"a\",  1)\n",
        r#"  out ("a",  1)
            ^
  one space stands after a comma and none after `(`: take this one away
"#,
    ),
    (
        "a tab behind a comma",
        "out (\"a\", \t1)\n",
        r#"  out ("a", \t1)
            ^
  a tab, shown as `\t`: take it away; one space stands after a comma and none after `(`
"#,
    ),
    (
        "plus",
        "out (+1)\n",
        r#"  out (+1)
       ^
  an int has no `+` before it: take it away
"#,
    ),
    (
        "a point in front",
        "out (.5)\n",
        r#"  out (.5)
       ^
  no floats: write an int, or a str as in `"1.5"`
"#,
    ),
    (
        "minus alone",
        "out (-)\n",
        r#"  out (-)
        ^
  write a digit from 1 to 9 after `-`, as in `-1`
"#,
    ),
    (
        "a letter behind a digit",
        "out (1a)\n",
        r#"  out (1a)
        ^
  an int has digits alone, and a name begins with a letter: write `"1a"` or `a1`
"#,
    ),
    (
        "no comma",
        "out (\"a\" 1)\n",
        r#"  out ("a" 1)
          ^
  a comma or `)` is missing: write a comma and a space before the next value, or `)` after the last one
"#,
    ),
    (
        "a space before a comma",
        "out (\"a\" , 1)\n",
        r#"  out ("a" , 1)
          ^
  no space stands before a comma or `)`: take it away
"#,
    ),
    (
        "a semicolon",
        "out (\"a\"; 1)\n",
        r#"  out ("a"; 1)
          ^
  a comma or `)` is missing: write a comma and a space before the next value, or `)` after the last one
"#,
    ),
    (
        "more behind the tuple",
        "out (\"a\", 1))\n",
        r#"  out ("a", 1))
              ^
  the line ends with `)`: take away what comes after it
"#,
    ),
    (
        "a sign that begins no value",
        "out (@)\n",
        r#"  out (@)
       ^
  write a value here: an int, a str in double quotes, `true`, `false` or a name that is bound above
"#,
    ),
    (
        "no name behind a formal",
        "in (?int )\n",
        r#"  in (?int )
           ^
  write a name here: a small letter, then small letters, digits and `_`
"#,
    ),
];
