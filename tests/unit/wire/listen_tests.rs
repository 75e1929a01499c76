//! Many connections at once.

use crate::fixtures::listeners::serve_listener;
use crate::fixtures::{is_missing, is_same};
use crate::wire::echo::{Echo, greeted};
use iiif_listener::{Admission, stop};
use std::alloc::Global;
use std::io::ErrorKind;
use std::net::{IpAddr, Ipv4Addr, Net, TcpListener, TcpStream};
use std::sync::Wait;
use std::thread::Threads;
use std::time::{Clock, Duration};
use std::{io, thread};

/// A scene while a listener is served.
#[derive(Clone, Copy)]
enum Scene {
    /// So many viewers stay, as many as there may be, one more comes, and one when they are gone.
    Crowd(u32),
    /// It waits for nobody, and fails each time that nobody has come: a viewer comes in a while.
    Failing,
    /// A viewer comes from an address that isn't known.
    Unknown,
}

/// The observations of a scene.
#[derive(Clone, Copy, Debug)]
enum Seen {
    /// Nobody came, or a connection failed.
    Nothing,
    /// Of so many connections so many are greeted; whether one more isn't; whether one is again, once they are closed.
    Crowd(u32, bool, bool),
    /// A viewer was greeted.
    Greeted,
}

/// Whether a server ended as one does whose listener was stopped.
fn was_stopped(ended: &io::Result<()>) -> bool {
    match ended {
        Ok(()) => false,
        Err(error) => is_same(&error.kind(), &ErrorKind::InvalidInput),
    }
}

/// A connection to a listener.
fn connect<R: Net<Listener = TcpListener, Stream = TcpStream>>(
    rt: &R,
    listener: &TcpListener,
) -> Option<TcpStream> {
    let Ok(address) = listener.local_addr() else {
        return None;
    };
    match TcpStream::connect(rt, address) {
        Ok(stream) => Some(stream),
        Err(_) => None,
    }
}

/// A connection that was greeted.
fn visit<R: Net<Listener = TcpListener, Stream = TcpStream>>(
    rt: &R,
    listener: &TcpListener,
) -> Option<TcpStream> {
    let mut stream = connect(rt, listener)?;
    if greeted(&mut stream) {
        Some(stream)
    } else {
        None
    }
}

/// Of so many more connections, which stay open, how many are greeted.
fn stay<R: Net<Listener = TcpListener, Stream = TcpStream>>(
    rt: &R,
    listener: &TcpListener,
    open: &mut Vec<TcpStream>,
    count: u32,
) -> u32 {
    let mut greeted = 0u32;
    for _ in 0..count {
        if let Some(stream) = visit(rt, listener) {
            if open.push(stream).is_ok() {
                greeted = greeted.saturating_add(1);
            }
        }
    }
    greeted
}

/// Whether a connection that is made is closed, and not greeted.
fn is_closed<R: Net<Listener = TcpListener, Stream = TcpStream>>(
    rt: &R,
    listener: &TcpListener,
) -> bool {
    match connect(rt, listener) {
        Some(mut stream) => !greeted(&mut stream),
        None => is_missing(),
    }
}

/// Of so many connections that stay open how many are greeted, and whether one more isn't.
fn stay_and_close<R: Net<Listener = TcpListener, Stream = TcpStream>>(
    rt: &R,
    alloc: Global,
    listener: &TcpListener,
    most: u32,
) -> (u32, bool) {
    let mut open = Vec::new(alloc);
    let count = stay(rt, listener, &mut open, most);
    (count, is_closed(rt, listener))
}

/// The observations of a crowd.
fn crowd<R: Net<Listener = TcpListener, Stream = TcpStream> + Clock>(
    rt: &R,
    alloc: Global,
    listener: &TcpListener,
    most: u32,
) -> Seen {
    let (count, refused) = stay_and_close(rt, alloc, listener, most);
    thread::sleep(rt, Duration::from_millis(200));
    Seen::Crowd(count, refused, visit(rt, listener).is_some())
}

/// The observations of a viewer that comes in a while.
fn late<R: Net<Listener = TcpListener, Stream = TcpStream> + Clock>(
    rt: &R,
    listener: &TcpListener,
) -> Seen {
    thread::sleep(rt, Duration::from_millis(300));
    match visit(rt, listener) {
        Some(_) => Seen::Greeted,
        None => Seen::Nothing,
    }
}

/// Plays a scene. At its end the listener is stopped.
fn play<R: Net<Listener = TcpListener, Stream = TcpStream> + Clock>(
    rt: &R,
    alloc: Global,
    scene: Scene,
    listener: &TcpListener,
) -> Seen {
    let seen = match scene {
        Scene::Crowd(most) => crowd(rt, alloc, listener, most),
        Scene::Failing => late(rt, listener),
        Scene::Unknown => {
            if is_closed(rt, listener) {
                Seen::Nothing
            } else {
                Seen::Greeted
            }
        }
    };
    stop(listener);
    seen
}

/// The admission of a scene: as many as stay of one address, where they are fewer than there are places.
fn admission(scene: Scene) -> Admission<'static> {
    match scene {
        Scene::Crowd(most) if most < 64 => Admission {
            per_address: most as usize,
            known: None,
        },
        Scene::Unknown => Admission {
            per_address: 0,
            known: Some(&[IpAddr::V4(Ipv4Addr::BROADCAST)]),
        },
        _ => Admission {
            per_address: 0,
            known: None,
        },
    }
}

/// Serves the listener, and says whether that ends as it does where it is stopped.
fn serve<R: Net<Listener = TcpListener, Stream = TcpStream> + Threads + Wait + Clock + Sync>(
    rt: &R,
    alloc: Global,
    scene: Scene,
    echo: &Echo,
    listener: &TcpListener,
) -> bool {
    was_stopped(&serve_listener(rt, alloc, echo, listener, admission(scene)))
}

/// Whether a listener that is served during a scene ends as a stopped one, and what is seen of it.
fn served_during<
    R: Net<Listener = TcpListener, Stream = TcpStream> + Threads + Wait + Clock + Sync,
>(rt: &R, alloc: Global, scene: Scene, echo: &Echo, listener: &TcpListener) -> (bool, Seen) {
    thread::join(
        rt,
        || serve(rt, alloc, scene, echo, listener),
        || play(rt, alloc, scene, listener),
    )
}

/// A listener at a free port; one that waits for nobody where the scene is of such a one.
fn listener<R: Net<Listener = TcpListener, Stream = TcpStream>>(
    rt: &R,
    scene: Scene,
) -> Option<TcpListener> {
    let Ok(listener) = TcpListener::bind(rt, "127.0.0.1:0") else {
        return None;
    };
    if matches!(scene, Scene::Failing) && listener.set_nonblocking(true).is_err() {
        return None;
    }
    Some(listener)
}

/// The observations of a scene whose listener ends as a stopped one, and how many connections were served and how many weren't.
fn seen_of<R: Net<Listener = TcpListener, Stream = TcpStream> + Threads + Wait + Clock + Sync>(
    rt: &R,
    alloc: Global,
    scene: Scene,
) -> Option<(Seen, (u64, u64))> {
    let listener = listener(rt, scene)?;
    let echo = Echo::new();
    let (stopped, seen) = served_during(rt, alloc, scene, &echo, &listener);
    if stopped {
        Some((seen, echo.counts()))
    } else {
        None
    }
}

#[test]
fn sixty_four_are_served_and_one_more_is_closed(rt: HostRuntime) {
    let seen = seen_of(&rt, rt.alloc(), Scene::Crowd(64));
    assert!(rt;
        matches!(seen, Some((Seen::Crowd(64, true, true), (65, 1)))),
        "{seen:?}"
    );
}

#[test]
fn three_of_an_address_are_served_and_one_more_is_closed(rt: HostRuntime) {
    let seen = seen_of(&rt, rt.alloc(), Scene::Crowd(3));
    assert!(rt;
        matches!(seen, Some((Seen::Crowd(3, true, true), (4, 1)))),
        "{seen:?}"
    );
}

#[test]
fn unknown_address_is_closed(rt: HostRuntime) {
    let seen = seen_of(&rt, rt.alloc(), Scene::Unknown);
    assert!(rt; matches!(seen, Some((Seen::Nothing, (0, 1)))), "{seen:?}");
}

#[test]
fn listener_that_failed_again_and_again_takes_the_next(rt: HostRuntime) {
    let seen = seen_of(&rt, rt.alloc(), Scene::Failing);
    assert!(rt; matches!(seen, Some((Seen::Greeted, (1, 0)))), "{seen:?}");
}
