//! A first use of kt_look: a picture.

use kt_look::{Drawing, Kind, write_drawing};
use kt_scene::{Nobody, Sink, Source};
use std::alloc::Global;
use std::test::Fail;

/// The picture of a scenario of steps, as SVG.
pub(crate) fn picture(alloc: Global, scenario: &[u8]) -> Result<Vec<u8>, Fail> {
    let mut source = Source::new(scenario);
    let mut sink = Sink::new(Vec::new(alloc));
    let drawing = Drawing {
        kind: Kind::Picture,
        from: 1,
        to: u64::MAX,
    };
    let drawn = write_drawing(alloc, &mut source, &mut sink, drawing, &mut Nobody);
    drawn.ok().ok_or("a picture")?;
    Ok(sink.into_inner())
}
