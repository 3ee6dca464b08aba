//! Places, text and small pictures, worked out by hand.

use crate::scenes::{LOSES, NO_STEPS, PUT_AND_TAKE, REFUSED, count_of, has_all, story_of};
use kt_draw::{Form, Plane, picture_of, push_escaped};
use kt_tuple::NodeId;
use std::test::Fail;

/// The nodes of a small scene stand 96 apart, those of the largest one 40, and the shards behind a gap.
#[test]
fn columns(rt: HostRuntime) -> Result<(), Fail> {
    let small = Plane {
        workers: 1,
        shards: 2,
        rows: 43,
    };
    assert_eq!(rt; small.column(NodeId::Worker(1)), 104);
    assert_eq!(rt; small.column(NodeId::Shard(1)), 220);
    assert_eq!(rt; small.column(NodeId::Shard(2)), 316);
    let large = Plane {
        workers: 16,
        shards: 8,
        rows: 300,
    };
    assert_eq!(rt; large.column(NodeId::Worker(16)), 676);
    assert_eq!(rt; large.column(NodeId::Shard(8)), 1016);
    Ok(())
}

/// A band stands above each forty rows, but for a last block of fewer than ten.
#[test]
fn rows(rt: HostRuntime) -> Result<(), Fail> {
    let plane = Plane {
        workers: 1,
        shards: 1,
        rows: 49,
    };
    assert_eq!(rt; (plane.bands(), plane.row_y(0), plane.row_y(39)), (1, 85, 787));
    assert_eq!(rt; plane.row_y(40), 805);
    let more = Plane { rows: 50, ..plane };
    assert_eq!(rt; (more.bands(), more.row_y(39), more.row_y(40)), (2, 787, 829));
    Ok(())
}

/// Signs of markup are written as entities, and so is the arrow.
#[test]
fn escaping(rt: HostRuntime) -> Result<(), Fail> {
    let alloc = rt.alloc();
    let mut out = Vec::new(alloc);
    push_escaped(&mut out, b"<a href=\"&\">\x1a")?;
    assert!(rt; out.as_slice() == b"&lt;a href=&quot;&amp;&quot;&gt;&#8594;".as_slice());
    Ok(())
}

/// What a shard lost is marked so and struck through, and why it is lost is said behind it. The answer is on its way.
#[test]
fn a_lost_service(rt: HostRuntime) -> Result<(), Fail> {
    let alloc = rt.alloc();
    let story = story_of(alloc, LOSES)?;
    let text = picture_of(alloc, &story, 1, Form::Alone)?;
    let parts = [
        "<title id=\"picture-title\">1 worker, 1 shard, 4 steps</title>\n",
        "0 services survive, 1 is lost",
        "<path class=\"reply m l way\" d=\"M213 123L200 128\"/>\n",
        "<use href=\"#lost\" x=\"220\" y=\"121\"/>\n",
        "<tspan class=\"s\">w1.1 out (&quot;&lt;&quot;, 1)</tspan>, lost when s1 failed (step 4)</text>\n",
    ];
    assert!(rt; has_all(&text, &parts));
    assert_eq!(rt; count_of(&text, "href=\"#kept\""), 0);
    Ok(())
}

/// Each step has its number once, in order, and a service that survives its mark at the step and beside the text.
#[test]
fn each_step_once(rt: HostRuntime) -> Result<(), Fail> {
    let alloc = rt.alloc();
    let story = story_of(alloc, PUT_AND_TAKE)?;
    let text = picture_of(alloc, &story, 1, Form::Alone)?;
    let numbers = [
        "y=\"89\">1</text>",
        "y=\"107\">2</text>",
        "y=\"125\">3</text>",
        "y=\"143\">4</text>",
        "y=\"161\">5</text>",
        "y=\"179\">6</text>",
        "y=\"197\">7</text>",
    ];
    assert!(rt; has_all(&text, &numbers));
    for number in numbers {
        assert_eq!(rt; count_of(&text, number), 1);
    }
    // Two services, each twice, and the legend.
    assert_eq!(rt; count_of(&text, "href=\"#kept\""), 5);
    assert_eq!(rt; count_of(&text, "href=\"#lost\""), 0);
    let again = picture_of(alloc, &story_of(alloc, PUT_AND_TAKE)?, 1, Form::Alone)?;
    assert!(rt; text == again);
    Ok(())
}

/// The steps before the first one are made and not drawn; what they sent comes from outside.
#[test]
fn from_a_step_on(rt: HostRuntime) -> Result<(), Fail> {
    let alloc = rt.alloc();
    let story = story_of(alloc, PUT_AND_TAKE)?;
    let text = picture_of(alloc, &story, 4, Form::Alone)?;
    assert!(rt; has_all(&text, &["1 worker, 1 shard, steps 4 to 7", "class=\"reply m late\"", ">4</text>"]));
    assert_eq!(rt; count_of(&text, ">3</text>"), 0);
    let text = picture_of(alloc, &story, 9, Form::Alone)?;
    assert!(rt; has_all(&text, &["1 worker, 1 shard, no steps", "no step was made"]));
    Ok(())
}

/// A step that is refused has a row of its own, and a scene of no steps a line that says so.
#[test]
fn ends(rt: HostRuntime) -> Result<(), Fail> {
    let alloc = rt.alloc();
    let text = picture_of(alloc, &story_of(alloc, REFUSED)?, 1, Form::Alone)?;
    assert!(rt; has_all(&text, &["2 workers, 1 shard, 2 steps", "serve s1 w2 0 is refused: 4 NoSuchMatch"]));
    let text = picture_of(alloc, &story_of(alloc, NO_STEPS)?, 1, Form::Alone)?;
    assert!(rt; has_all(&text, &["1 worker, 1 shard, no steps", "no step was made"]));
    Ok(())
}
