//! Traces as JSON.

use crate::texts::{PUT_AND_TAKE, SHARD_FAILS, traced, with_step};
use kt_look::Form;
use kt_tell::Choice;
use std::test::Fail;

/// The lines of steps 1, 3 and 7 of `PUT_AND_TAKE`, and of a step that is refused.
const LINES: [(u64, &str); 4] = [
    (
        1,
        "{\"number\":1,\"line\":7,\"step\":{\"word\":\"issue\",\"node\":\"w1\"},\"node\":\"w1\",\"was\":\"up\",\"is\":\"up\",\
\"heard\":null,\"keeps\":false,\"sent\":[{\"to\":\"s1\",\"message\":{\"word\":\"request\",\"request\":1,\"operation\":\
{\"word\":\"out\",\"tuple\":[\"a\",1]},\"label\":{\"incarnation\":1,\"count\":1},\"by\":1}}],\"event\":{\"word\":\"issued\",\
\"worker\":\"w1\",\"request\":1,\"operation\":{\"word\":\"out\",\"tuple\":[\"a\",1]},\"answer\":null,\"by\":0},\"events\":1,\
\"begun\":null,\"checkpoint\":null,\"verdict\":null,\"undone\":0}\n",
    ),
    (
        4,
        "{\"number\":4,\"line\":10,\"step\":{\"word\":\"deliver\",\"from\":\"s1\",\"to\":\"w1\"},\"node\":\"w1\",\
\"was\":\"up\",\"is\":\"up\",\"heard\":{\"from\":\"s1\",\"message\":{\"word\":\"reply\",\"request\":1,\"operation\":\
{\"word\":\"out\",\"tuple\":[\"a\",1]},\"answer\":{\"word\":\"done\"},\"label\":{\"incarnation\":1,\"count\":1},\"by\":3}},\
\"keeps\":false,\"sent\":[],\"event\":{\"word\":\"accepted\",\"worker\":\"w1\",\"request\":1,\"operation\":\
{\"word\":\"out\",\"tuple\":[\"a\",1]},\"answer\":{\"word\":\"done\"},\"by\":3},\"events\":4,\"begun\":null,\
\"checkpoint\":null,\"verdict\":null,\"undone\":0}\n",
    ),
    (
        8,
        "{\"number\":8,\"line\":15,\"step\":{\"word\":\"check\",\"node\":\"s1\"},\"node\":\"s1\",\"was\":\"up\",\
\"is\":\"held\",\"heard\":null,\"keeps\":false,\"sent\":[{\"to\":\"w1\",\"message\":{\"word\":\"check\",\"instance\":1,\
\"label\":{\"incarnation\":1,\"count\":2},\"incarnation\":1}}],\"event\":null,\"events\":7,\"begun\":1,\
\"checkpoint\":{\"word\":\"taken\",\"instance\":1},\"verdict\":null,\"undone\":0}\n",
    ),
    (
        9,
        "{\"number\":9,\"line\":16,\"step\":{\"word\":\"abandon\",\"node\":\"s1\"},\"node\":\"s1\",\"was\":\"held\",\
\"is\":\"held\",\"heard\":null,\"keeps\":false,\"sent\":[{\"to\":\"w1\",\"message\":{\"word\":\"verdict\",\"instance\":1,\
\"yes\":false}}],\"event\":null,\"events\":7,\"begun\":null,\"checkpoint\":null,\"verdict\":{\"instance\":1,\
\"yes\":false},\"undone\":0}\n",
    ),
];

/// The step that is refused behind those.
const REFUSED: &str =
    "{\"number\":10,\"line\":17,\"step\":{\"word\":\"serve\",\"shard\":\"s1\",\"worker\":\"w1\",\"place\":0},\
\"refused\":\"WrongMode\"}\n";

#[test]
fn one_object_a_line(rt: HostRuntime) -> Result<(), Fail> {
    let alloc = rt.alloc();
    let text = with_step(alloc, PUT_AND_TAKE, "check s1\nabandon s1\nserve s1 w1 0")?;
    for (number, line) in LINES {
        let choice = Choice {
            from: number,
            to: number,
            node: None,
        };
        let (_, told) = traced(alloc, text.as_str(), Form::Json, choice);
        let told = str::from_utf8(&told).unwrap_or("no text");
        let expected = format!(in alloc; "{line}{REFUSED}")?;
        assert!(rt; told == expected.as_str(), "{told}");
    }
    Ok(())
}

#[test]
fn a_cut_and_a_rollback(rt: HostRuntime) -> Result<(), Fail> {
    let alloc = rt.alloc();
    let choice = Choice {
        from: 5,
        to: 5,
        node: None,
    };
    let (_, told) = traced(alloc, SHARD_FAILS, Form::Json, choice);
    let expected = "{\"number\":5,\"line\":10,\"step\":{\"word\":\"fail\",\"node\":\"s1\"},\"node\":\"s1\",\"was\":\"up\",\
\"is\":\"down\",\"heard\":null,\"keeps\":false,\"sent\":[],\"event\":{\"word\":\"cut\",\"keep\":0},\"events\":5,\
\"begun\":null,\"checkpoint\":null,\"verdict\":null,\"undone\":1}\n";
    let told = str::from_utf8(&told).unwrap_or("no text");
    assert!(rt; told == expected, "{told}");
    Ok(())
}
