//! Visits of a node while it serves over loopback.

use crate::connections::crowd_tests::{are_let_in_again, are_served_beside_stalled};
use crate::connections::list_tests::are_all_answered;
use crate::connections::log_tests::are_served_before_a_reader;
use crate::connections::nodes::{Counts, Scene, Stage, serve_told, watcher_of};
use crate::connections::peers::{
    Asked, are_asked_and_answered, are_both_halved, are_replied_and_sent,
};
use crate::connections::pipe::{Pipe, given_to, new_pipe};
use crate::connections::stats_tests::{
    are_counted, are_counted_when_full, are_others_refused, is_ousted_one_counted,
};
use crate::connections::viewers::{Sends, give_way, is_sent};
use iiif_listener::stop;
use iiif_open_files::Opens;
use iiif_services::{Addresses, Listeners};
use std::net::{Net, TcpListener, TcpStream};
use std::sync::Wait;
use std::thread;
use std::thread::Threads;
use std::time::Clock;

/// One of a node's listeners.
#[derive(Clone, Copy)]
pub(crate) enum One {
    Viewers,
    Peers,
    Statistics,
}

/// A visit of a node.
#[derive(Clone, Copy)]
pub(crate) enum Visit<'a> {
    /// A viewer sends this, and is sent back what is wanted.
    Sends(&'a Sends<'a>),
    /// Sixty-four viewers who stay and ask, one more, who isn't answered, and one who is, once they have gone.
    Crowd,
    /// Sixty-four viewers who stay and don't ask, and one more, for whom one of them is closed.
    Idle,
    /// Viewers beside one who takes nothing.
    BesideStalled,
    /// A viewer asks for each of many images.
    ForAll,
    /// Viewers whose answers' lines nobody reads until they are answered.
    BeforeReader,
    /// A viewer, and who asks for the statistics once no connection is open.
    Counted,
    /// Sixty-four viewers who ask and one more, and who asks for the statistics meanwhile.
    CountedWhenFull,
    /// Sixty-four viewers who stay and don't ask and one more, and who asks for the statistics meanwhile.
    CountedWhenOusted,
    /// A client that asks where the statistics are for something else.
    ForOthers,
    /// One of the listeners ends.
    Ends(One),
    /// A node asks for a tile, and behind it a viewer sends this.
    NodeAndViewer(&'a Sends<'a>),
    /// A viewer of this node, at whose listener the owner of each key is asked.
    Owner(&'a Asked, &'a TcpListener),
    /// A viewer of this node and one of the node of these listeners at once.
    Both(&'a Listeners),
}

/// Whether all came of a visit that was to.
fn is_right<R: Wait>(rt: &R, host: &HostRuntime, stage: Stage<'_>, visit: Visit<'_>) -> bool {
    let listeners = stage.listeners;
    let viewers = &listeners.viewers;
    match visit {
        Visit::Sends(sends) => is_sent(host, viewers, sends),
        Visit::Crowd => are_let_in_again(host, viewers),
        Visit::Idle => give_way(host, viewers),
        Visit::BesideStalled => are_served_beside_stalled(host, viewers),
        Visit::ForAll => are_all_answered(host, viewers),
        Visit::BeforeReader => are_served_before_a_reader(rt, host, viewers, stage.pipe),
        Visit::Counted => are_counted(host, listeners),
        Visit::CountedWhenFull => are_counted_when_full(host, listeners),
        Visit::CountedWhenOusted => is_ousted_one_counted(host, listeners),
        Visit::ForOthers => are_others_refused(host, listeners),
        Visit::NodeAndViewer(sends) => are_replied_and_sent(host, listeners, sends),
        Visit::Owner(asked, owner) => are_asked_and_answered(host, owner, viewers, asked),
        Visit::Both(others) => are_both_halved(host, viewers, others),
        _ => true,
    }
}

/// Has the node end behind a visit.
fn end(listeners: &Listeners, visit: Visit<'_>) {
    match (visit, &listeners.peers, &listeners.statistics) {
        (Visit::Ends(One::Peers), Some(peers), _) => stop(peers),
        (Visit::Ends(One::Statistics), _, Some(statistics)) => stop(statistics),
        (Visit::Ends(_), _, _) => stop(&listeners.viewers),
        (Visit::Both(others), _, _) => {
            others.stop();
            listeners.stop();
        }
        _ => listeners.stop(),
    }
}

/// Visits a node, and has it end.
fn is_right_at_last<R: Wait>(
    rt: &R,
    host: &HostRuntime,
    stage: Stage<'_>,
    visit: Visit<'_>,
) -> bool {
    let is_right = is_right(rt, host, stage, visit);
    end(stage.listeners, visit);
    is_right
}

/// A port of this machine that is free.
pub(crate) const ANY: &str = "127.0.0.1:0";

/// Listeners for viewers and for other nodes, and perhaps for who asks for the statistics.
pub(crate) fn listeners_of(rt: &HostRuntime, statistics: Option<&str>) -> Option<Listeners> {
    let addresses = Addresses {
        viewers: ANY,
        peers: Some(ANY),
        statistics,
        control: None,
        per_address: 0,
        known: None,
    };
    Listeners::bind(rt, rt.alloc(), &addresses).ok()
}

/// Serves by a scene's node during a visit, and says what it counted, and whether the visit went as it was to.
pub(crate) fn visited<R>(
    rt: &R,
    host: &HostRuntime,
    scene: &Scene<'_, '_>,
    stage: Stage<'_>,
    visit: Visit<'_>,
) -> (Option<Counts>, bool)
where
    R: Opens
        + Net<Listener = TcpListener, Stream = TcpStream>
        + Threads
        + Wait
        + Clock
        + Sync
        + AllocGlobal,
    R::Handle: Send + Sync,
{
    thread::join(
        rt,
        || serve_told(rt, scene, stage),
        || is_right_at_last(rt, host, stage, visit),
    )
}

/// The counts of a scene's node during a visit that went as it was to; its log goes into this pipe.
pub(crate) fn logged<R>(
    rt: &R,
    host: &HostRuntime,
    scene: &Scene<'_, '_>,
    visit: Visit<'_>,
    pipe: &Pipe,
) -> Option<Counts>
where
    R: Opens
        + Net<Listener = TcpListener, Stream = TcpStream>
        + Threads
        + Wait
        + Clock
        + Sync
        + AllocGlobal,
    R::Handle: Send + Sync,
{
    let watcher = watcher_of(rt.alloc(), scene)?;
    let listeners = listeners_of(host, scene.statistics)?;
    let stage = Stage {
        watcher: &watcher,
        listeners: &listeners,
        pipe,
    };
    match visited(rt, host, scene, stage, visit) {
        (counts, true) => counts,
        _ => None,
    }
}

/// Serves a visit, where nothing is written to the log.
pub(crate) fn served<R>(
    rt: &R,
    host: &HostRuntime,
    scene: &Scene<'_, '_>,
    visit: Visit<'_>,
) -> Option<Counts>
where
    R: Opens
        + Net<Listener = TcpListener, Stream = TcpStream>
        + Threads
        + Wait
        + Clock
        + Sync
        + AllocGlobal,
    R::Handle: Send + Sync,
{
    let pipe = new_pipe(rt.alloc(), true);
    let counts = logged(rt, host, scene, visit, &pipe);
    if given_to(pipe).is_empty() {
        counts
    } else {
        None
    }
}
