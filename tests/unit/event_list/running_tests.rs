//! Lists of events run as one, and worlds that can't begin.

use crate::event_list::refused_tests::{CROSSED, DEEP, begun, event_of};
use crate::fixtures::names::name;
use crate::fixtures::{is_missing, is_same};
use iiif_canonical::Limits;
use iiif_event_list::fault::LineFault;
use iiif_event_list::values::put_answer;
use iiif_keys::{Name, is_name};
use iiif_machine::{Answer, Event, WorldFault};
use iiif_pixel::{Dim, Kind, NoMemory, Raster, Samples};
use iiif_ring::Ring;
use iiif_world::{Item, Setup, SetupFault, World};
use std::alloc::Global;

fn add(events: &mut Vec<Event>, event: Event) -> Result<(), NoMemory> {
    events.push(event)?;
    Ok(())
}

/// The events of lines.
fn events_of(alloc: Global, lines: &str) -> Result<Vec<Event>, LineFault> {
    let mut events = Vec::new(alloc);
    for line in lines.split(';') {
        add(&mut events, event_of(alloc, line)?)?;
    }
    Ok(events)
}

/// Answers, one after another.
fn text_of(alloc: Global, answers: &[Option<Answer>]) -> Result<String, NoMemory> {
    let mut text = String::new(alloc);
    for answer in answers {
        match answer {
            Some(answer) => put_answer(&mut text, answer)?,
            None => text.push_str("none")?,
        }
        text.push_str(";")?;
    }
    Ok(text)
}

/// The answers after a list of events, or the place of the first that isn't allowed.
fn ran(
    alloc: Global,
    world: &str,
    events: &str,
) -> Result<Result<String, (usize, WorldFault)>, LineFault> {
    let world = begun(alloc, world)?;
    let events = events_of(alloc, events)?;
    match world.run(&events) {
        Ok(world) => Ok(Ok(text_of(alloc, &world.answers()?)?)),
        Err(stopped) => Ok(Err(stopped)),
    }
}

/// Whether a list runs to its end, and these are its answers.
fn runs_to(alloc: Global, world: &str, events: &str, answers: &str) -> bool {
    match ran(alloc, world, events) {
        Ok(Ok(text)) => is_same(&text.as_str(), &answers),
        _ => false,
    }
}

/// Whether the first event of a list that isn't allowed has this place.
fn stops_at(alloc: Global, world: &str, events: &str, place: usize) -> bool {
    match ran(alloc, world, events) {
        Ok(Err(stopped)) => is_same(&stopped, &(place, WorldFault::NotNow)),
        _ => false,
    }
}

/// Worlds, lists of events and what they run to.
static RUNS: [(&str, &str, &str); 4] = [
    (
        CROSSED,
        "want 0 p full max 0 default; want 1 p full max 0 default; enter 0; enter 1; again 0; again 1; ask_peer 0; \
            ask_peer 1; serve 0; serve 1; enter 2; enter 3; again 2; again 3; load 2; load 3; land 2 kept; land 3 \
            kept; reply 2; reply 3; take 0 0; take 1 1; land 0 kept; land 1 kept; serve 0; enter 4; reply 4; take 0 2",
        "image gray 8 1 1 7;image gray 8 1 1 7;",
    ),
    (
        CROSSED,
        "want 0 p full max 0 default; enter 0; again 0; ask_peer 0; stop 0; want 0 p full max 0 default; enter 1; \
            again 1; ask_peer 1; serve 0; enter 2; again 2; load 2; land 2 kept; reply 2; take 0 0; take 1 0; land 1 \
            kept",
        "none;image gray 8 1 1 7;",
    ),
    (
        DEEP,
        "want 0 p full max 0 default; enter 0; again 0; ask_peer 0; lose 0; go_local 0; enter 1; again 1; load 1; land 1 kept; land 0 kept",
        "image gray 16 1 1 700;",
    ),
    (CROSSED, "want 0 p 1,0,1,1 max 0 default", "refused Empty;"),
];

#[test]
fn lists_run_to_their_answers(rt: HostRuntime) {
    for (world, events, answers) in RUNS.iter() {
        assert!(rt; runs_to(rt.alloc(), world, events, answers), "{events}");
    }
}

/// Worlds, lists of events and the place of the first that isn't allowed.
static STOPS: [(&str, &str, usize); 3] = [
    (
        CROSSED,
        "want 0 p full max 0 default; enter 0; again 0; ask_peer 0; serve 0; enter 1; again 1; source_fault 1 8 3; \
            land 1 kept; enter 1; load 1",
        9,
    ),
    (
        DEEP,
        "want 0 p full max 0 default; enter 0; again 0; ask_peer 0; serve 0; serve 0",
        4,
    ),
    (CROSSED, "stop 2", 0),
];

#[test]
fn first_event_that_is_not_allowed_is_named(rt: HostRuntime) {
    for (world, events, place) in STOPS.iter() {
        assert!(rt; stops_at(rt.alloc(), world, events, *place), "{events}");
    }
}

/// A ring that names one node.
fn ring(alloc: Global, owner: &str) -> Option<Ring> {
    let names = Vec::from_array(alloc, [String::from_str(alloc, owner).ok()?]).ok()?;
    Ring::new(alloc, names).ok()
}

/// A node that names itself on its ring, or another.
fn setup(alloc: Global, other: bool) -> Option<Setup> {
    let owner = if other { "b" } else { "a" };
    Some(Setup {
        name: name(alloc, "a")?,
        ring: ring(alloc, owner)?,
        version: 2,
        limit: 1000,
        room: 8,
    })
}

/// A picture without places, or one of a place.
fn picture(alloc: Global, empty: bool) -> Option<Raster> {
    let samples = Vec::new(alloc);
    if empty {
        let none = Samples::Eight(samples);
        return Some(Raster::from_samples(Dim { w: 0, h: 0 }, Kind::Gray, none));
    }
    let mut samples = samples;
    samples.push(7u8).ok()?;
    let one = Samples::Eight(samples);
    Some(Raster::from_samples(Dim { w: 1, h: 1 }, Kind::Gray, one))
}

/// Such a picture, named p.
fn item(alloc: Global, empty: bool) -> Option<Item> {
    Some(Item {
        name: name(alloc, "p")?,
        picture: picture(alloc, empty)?,
    })
}

/// A world of one node and one picture: a tile's side, the room of a plan, whether the picture is without places, whether the node
/// isn't on its ring; and why none begins so.
struct Start {
    edge: u32,
    room: u64,
    empty: bool,
    other: bool,
    fault: Option<SetupFault>,
}

/// Why no world begins so.
fn fault_of(alloc: Global, start: &Start) -> Option<Option<SetupFault>> {
    let items = Vec::from_array(alloc, [item(alloc, start.empty)?]).ok()?;
    let setups = Vec::from_array(alloc, [setup(alloc, start.other)?]).ok()?;
    let limits = Limits {
        max_w: 4096,
        max_h: 4096,
        upscale: false,
    };
    Some(World::new(alloc, items, start.edge, limits, start.room, false, setups).err())
}

/// Whether a world begins, or has the fault that it is to have.
fn is_right(alloc: Global, start: &Start) -> bool {
    match fault_of(alloc, start) {
        Some(fault) => is_same(&fault, &start.fault),
        None => is_missing(),
    }
}

static STARTS: [Start; 8] = [
    Start {
        edge: 1,
        room: 65_536,
        empty: false,
        other: false,
        fault: None,
    },
    Start {
        edge: 1024,
        room: 1,
        empty: false,
        other: false,
        fault: None,
    },
    Start {
        edge: 1,
        room: 0,
        empty: true,
        other: true,
        fault: Some(SetupFault::Room),
    },
    Start {
        edge: 0,
        room: 65_537,
        empty: true,
        other: true,
        fault: Some(SetupFault::Edge),
    },
    Start {
        edge: 1025,
        room: 65_536,
        empty: false,
        other: false,
        fault: Some(SetupFault::Edge),
    },
    Start {
        edge: 1,
        room: 65_537,
        empty: true,
        other: true,
        fault: Some(SetupFault::Room),
    },
    Start {
        edge: 1,
        room: 65_536,
        empty: true,
        other: true,
        fault: Some(SetupFault::Picture),
    },
    Start {
        edge: 1,
        room: 65_536,
        empty: false,
        other: true,
        fault: Some(SetupFault::Ring),
    },
];

#[test]
fn worlds_that_can_not_begin_have_their_first_fault(rt: HostRuntime) {
    for (place, start) in STARTS.iter().enumerate() {
        assert!(rt; is_right(rt.alloc(), start), "world {place}");
    }
}
