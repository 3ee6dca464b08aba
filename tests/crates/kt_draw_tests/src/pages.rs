//! Small pages.

use crate::scenes::{LOSES, NO_STEPS, PUT_AND_TAKE, REFUSED, count_of, has_all, read};
use kt_core::StepError;
use kt_look::{DrawFault, Drawing, Kind, write_drawing};
use kt_page::{Drawn, page_of};
use kt_scene::{Nobody, ReplayFault, Sink, Source};
use std::alloc::Global;
use std::test::Fail;

fn drawn(alloc: Global, text: &str, first: u64) -> Result<Vec<u8>, Fail> {
    let (scene, steps) = read(alloc, text)?;
    let Drawn { text, .. } = page_of(alloc, scene, &steps, first)?;
    Ok(text)
}

/// What changes by each step: cells are those of w1, then of s1, of both links, of the service, and the tally.
const CHANGES: &str = "id=\"changes\">[
[[0,0,0,\"up\"],[2,0,0,\"next 1: out (\\\"\\u003c\\\", 1)\"],[4,0,0,\"0 acts\",\"0 permanent\"],[5,0,0,\"up\"],\
[10,0,0,\"0 acts\",\"0 permanent\"],[14,0,0,\"0 services made\",\"0 not lost, 0 lost\"]],
[[2,0,1,\"waits for 1: out (\\\"\\u003c\\\", 1)\"],[4,0,1,\"1 act\"],\
[11,0,0,\"request 1: out (\\\"\\u003c\\\", 1)\"]],
[[8,0,0,\"w1.1 out (\\\"\\u003c\\\", 1)\"],[10,0,1,\"1 act\"],[11,0,1]],
[[7,0,0,\"(\\\"\\u003c\\\", 1)\"],[8,0,1],[10,0,1,\"2 acts\"],\
[12,0,0,\"answer to 1: out (\\\"\\u003c\\\", 1) \\u2192 done\"],[13,0,0,\"survives\"],\
[14,0,2,\"1 service made\",\"1 not lost, 0 lost\"]],
[[5,0,1,\"down\"],[7,0,1],[10,0,1,\"0 acts\"],[13,0,1,\"lost when s1 failed (step 4)\"],\
[14,1,1,\"0 not lost, 1 lost\"]]
]</script>";

#[test]
fn changes(rt: HostRuntime) -> Result<(), Fail> {
    let alloc = rt.alloc();
    let text = drawn(alloc, LOSES, 1)?;
    assert_eq!(rt; count_of(&text, CHANGES), 1);
    Ok(())
}

/// The picture, the tables with the state behind the last step, and the list; and nothing from elsewhere.
#[test]
fn parts(rt: HostRuntime) -> Result<(), Fail> {
    let alloc = rt.alloc();
    let text = drawn(alloc, PUT_AND_TAKE, 1)?;
    let parts = [
        "<h1>1 worker, 1 shard, 7 steps</h1>",
        "<p>2 services survive, 0 are lost.",
        "min=\"0\" max=\"7\" value=\"7\"",
        "<svg id=\"picture\" style=\"width:",
        "<rect id=\"later\"",
        "<td id=\"c15\"><div>2 services made</div><div>2 not lost, 0 lost</div></td>",
        "<th scope=\"row\">w1</th><td id=\"c0\"><div>up</div></td>",
        "<tr data-rare=\"1\" hidden><th scope=\"row\">w1 &#8594; s1</th><td id=\"c11\"></td>",
        "<td>in (&quot;a&quot;, ?int) &#8594; (&quot;a&quot;, 1)</td>",
        "<li id=\"step-0\" value=\"0\" data-y=\"58\"><a href=\"#step-0\">Before the first step</a></li>",
        "<li id=\"step-7\" value=\"7\" data-y=\"184\"><a href=\"#step-7\">s1 serves w1: in ",
    ];
    assert!(rt; has_all(&text, &parts));
    assert_eq!(rt; count_of(&text, "http"), 0);
    Ok(())
}

/// A page that begins with a later step, one that ends with a refusal, and one of nothing.
#[test]
fn ends(rt: HostRuntime) -> Result<(), Fail> {
    let alloc = rt.alloc();
    let text = drawn(alloc, PUT_AND_TAKE, 6)?;
    let parts = ["min=\"5\" max=\"7\"", "After step 5", "<li id=\"step-6\""];
    assert!(rt; has_all(&text, &parts));
    let text = drawn(alloc, REFUSED, 1)?;
    assert!(rt; has_all(&text, &["<li value=\"3\">serve s1 w2 0 is refused: 4 NoSuchMatch</li>"]));
    for first in [0u64, 1, 9] {
        let text = drawn(alloc, NO_STEPS, first)?;
        assert!(rt; has_all(&text, &["min=\"0\" max=\"0\"", "no step was made", "id=\"changes\">[\n[["]));
    }
    Ok(())
}

/// What is answered, and what is written.
fn written(
    alloc: Global,
    text: &str,
    drawing: Drawing,
) -> (Result<(), DrawFault>, Vec<u8>) {
    let mut writer = Sink::new(Vec::new(alloc));
    let mut reader = Source::new(text.as_bytes());
    let answer = write_drawing(alloc, &mut reader, &mut writer, drawing, &mut Nobody);
    (answer, writer.into_inner())
}

/// A picture to a step is the picture of the steps up to it, and a page is written too.
#[test]
fn from_bytes_to_bytes(rt: HostRuntime) -> Result<(), Fail> {
    let alloc = rt.alloc();
    let drawing = Drawing {
        kind: Kind::Picture,
        from: 1,
        to: 4,
    };
    let (answer, text) = written(alloc, PUT_AND_TAKE, drawing);
    assert_eq!(rt; answer, Ok(()));
    assert!(rt; has_all(&text, &["<svg xmlns", "1 worker, 1 shard, 4 steps", "</svg>"]));
    let whole = Drawing {
        kind: Kind::Page,
        from: 1,
        to: u64::MAX,
    };
    let (answer, text) = written(alloc, PUT_AND_TAKE, whole);
    assert_eq!(rt; answer, Ok(()));
    assert!(rt; text == drawn(alloc, PUT_AND_TAKE, 1)?);
    Ok(())
}

/// A step that is refused is drawn and answered. A text that is no scenario leaves nothing written, and so do too many
/// steps.
#[test]
fn faults(rt: HostRuntime) -> Result<(), Fail> {
    let alloc = rt.alloc();
    let all = Drawing {
        kind: Kind::Picture,
        from: 1,
        to: u64::MAX,
    };
    let (answer, text) = written(alloc, REFUSED, all);
    let refused = ReplayFault::Step {
        at: 3,
        cause: StepError::NoSuchMatch,
    };
    assert_eq!(rt; answer, Err(DrawFault::Replay(refused)));
    assert!(rt; has_all(&text, &["serve s1 w2 0 is refused: 4 NoSuchMatch"]));
    let (answer, text) = written(alloc, "linda-kt 1\n", all);
    assert!(rt; matches!(answer, Err(DrawFault::Replay(ReplayFault::Scene { .. }))));
    assert!(rt; text.is_empty());
    let mut many = String::from_str(alloc, NO_STEPS.strip_suffix("end\n").unwrap_or(""))?;
    for _ in 0..1001u32 {
        many.push_str("repeat w1\n")?;
    }
    many.push_str("end\n")?;
    let (answer, text) = written(alloc, many.as_str(), all);
    assert_eq!(rt; answer, Err(DrawFault::TooMany { steps: 1001 }));
    assert!(rt; text.is_empty());
    Ok(())
}
