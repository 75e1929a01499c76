//! Lists of events of which a growth of memory is refused: the world is as it was, and the list goes on to its own answers.

use crate::fixtures::is_same;
use iiif_event_list::describing::Description;
use iiif_event_list::fault::LineFault;
use iiif_event_list::reading::event;
use iiif_event_list::replaying::{answers, rows};
use iiif_machine::{Event, WorldFault};
use iiif_pixel::NoMemory;
use iiif_world::World;
use std::alloc::Global;
use std::test::Fail;

/// The world that lines describe.
pub(crate) fn begun(alloc: Global, lines: &str) -> Result<World, LineFault> {
    let mut description = Description::new(alloc);
    for line in lines.split(';') {
        let words: Vec<&str> = line.split_whitespace().collect(alloc)?;
        if !description.set(alloc, &words)? {
            return Err(LineFault::Bad);
        }
    }
    description.begin(alloc)
}

/// Does so once more where memory was refused.
fn begun_again(alloc: Global, lines: &str) -> Result<World, LineFault> {
    match begun(alloc, lines) {
        Ok(world) => Ok(world),
        Err(LineFault::Bad) => Err(LineFault::Bad),
        Err(LineFault::NoMemory) => begun(alloc, lines),
    }
}

/// The event of a line.
pub(crate) fn event_of(alloc: Global, line: &str) -> Result<Event, LineFault> {
    let words: Vec<&str> = line.split_whitespace().collect(alloc)?;
    event(alloc, &words)
}

/// All rows, once more where memory was refused.
fn rows_again(alloc: Global, world: &World) -> Result<String, NoMemory> {
    match rows(alloc, world) {
        Ok(text) => Ok(text),
        Err(_) => rows(alloc, world),
    }
}

/// Whether the world's rows are as they were.
fn has_rows(alloc: Global, world: &World, before: &str) -> Result<bool, NoMemory> {
    Ok(is_same(&rows(alloc, world)?.as_str(), &before))
}

/// Whether an event is done that is allowed. Where memory is refused nothing has changed, and it is done when it comes again.
fn is_done(alloc: Global, world: &mut World, event: &Event) -> Result<bool, NoMemory> {
    let before = rows_again(alloc, world)?;
    match world.step(event) {
        Ok(()) => Ok(true),
        Err(WorldFault::NotNow) => Ok(false),
        Err(WorldFault::NoMemory) => {
            if !has_rows(alloc, world, before.as_str())? {
                return Ok(false);
            }
            match world.step(event) {
                Ok(()) => Ok(true),
                Err(_) => Ok(false),
            }
        }
    }
}

/// Whether these are the answers of a world.
fn has_answers(alloc: Global, world: &World, text: &str) -> Result<bool, NoMemory> {
    Ok(is_same(&answers(alloc, world)?.as_str(), &text))
}

/// Whether these are the answers after the events of lines, in the world that others describe.
fn answers_after(alloc: Global, world: &str, events: &str, text: &str) -> Result<bool, LineFault> {
    let mut world = begun_again(alloc, world)?;
    for line in events.split(';') {
        let event = event_of(alloc, line)?;
        if !is_done(alloc, &mut world, &event)? {
            return Ok(false);
        }
    }
    Ok(has_answers(alloc, &world, text)?)
}

/// Two nodes, each of which owns all keys for the other.
pub(crate) const CROSSED: &str =
    "edge 1; picture p gray 8 1 1 7; node a 2 1000 8 b; node b 2 1000 8 a";

/// A world with a picture of 16 bits, and the second node of version 1.
pub(crate) const DEEP: &str =
    "edge 1; picture p gray 16 1 1 700; node a 2 1000 8 b; node b 1 1000 8 a";

#[test]
fn crossed_rings_go_on_after_a_refused_growth(rt: HostRuntime) -> Result<(), Fail> {
    let events =
        "want 0 p full max 0 default; want 1 p full max 0 default; enter 0; enter 1; again 0; again 1; ask_peer 0; \
            ask_peer 1; serve 0; serve 1; enter 2; enter 3; again 2; again 3; load 2; load 3; land 2 kept; land 3 \
            kept; reply 2; reply 3; take 0 0; take 1 1; land 0 kept; land 1 kept; serve 0; enter 4; reply 4; take 0 2";
    let text = "request 0: image gray 8 1 1 7\nrequest 1: image gray 8 1 1 7\n";
    assert!(rt; answers_after(rt.alloc(), CROSSED, events, text)?);
    Ok(())
}

#[test]
fn stopped_node_goes_on_after_a_refused_growth(rt: HostRuntime) -> Result<(), Fail> {
    let events =
        "want 0 p full max 0 default; enter 0; again 0; ask_peer 0; stop 0; want 0 p full max 0 default; enter 1; \
            again 1; ask_peer 1; serve 0; enter 2; again 2; load 2; land 2 kept; reply 2; take 0 0; take 1 0; land 1 \
            kept";
    let text = "request 0: none\nrequest 1: image gray 8 1 1 7\n";
    assert!(rt; answers_after(rt.alloc(), CROSSED, events, text)?);
    Ok(())
}

#[test]
fn lost_ask_and_fault_go_on_after_a_refused_growth(rt: HostRuntime) -> Result<(), Fail> {
    let events =
        "want 0 p full max 0 default; enter 0; again 0; ask_peer 0; lose 0; go_local 0; enter 1; again 1; load 1; \
            land 1 kept; land 0 kept; evict 0 tile p 1 0 0; want 0 p full max 0 default; enter 2; again 2; ask_peer 2; \
            lose 2; go_local 2; enter 3; again 3; source_fault 3 8 3; land 3 kept; land 2 kept";
    let text = "request 0: image gray 16 1 1 700\nrequest 1: fault 8 3\n";
    assert!(rt; answers_after(rt.alloc(), DEEP, events, text)?);
    Ok(())
}

#[test]
fn sums_go_on_after_a_refused_growth(rt: HostRuntime) -> Result<(), Fail> {
    let ramp =
        "edge 2; picture a gray 8 4 4 0 10 20 30 40 50 60 70 80 90 100 110 120 130 140 150; node n 2 1000 8 n";
    let events =
        "want 0 a full 2, 0 default; enter 0; again 0; load 0; enter 1; enter 2; enter 3; enter 4; again 1; load 1; \
            enter 5; again 2; load 2; enter 6; again 3; load 3; enter 7; again 4; load 4; enter 8; again 5; load 5; \
            land 5 kept; load 1; land 1 kept; again 6; load 6; land 6 kept; load 2; land 2 kept; again 7; load 7; \
            land 7 kept; load 3; land 3 kept; again 8; load 8; land 8 kept; load 4; land 4 kept; load 0; land 0 kept; \
            want 0 a 4,0,1,1 max 0 default";
    let text = "request 0: image gray 8 2 2 25 45 105 125\nrequest 1: refused Empty\n";
    assert!(rt; answers_after(rt.alloc(), ramp, events, text)?);
    Ok(())
}
