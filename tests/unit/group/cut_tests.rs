//! A node whose links fail after each number of bytes: what it answers is what it loads by itself.

use crate::fixtures::is_same;
use crate::group::bars::Bar;
use crate::group::calls::{Call, HALVED, LAST, Step, WHOLE};
use crate::group::messages::{Exchange, SUMS, TILE};
use crate::group::nodes::{ROOMY, Setup};
use crate::group::peers::Way;
use crate::group::runs::Stages;
use crate::group::scenes::{Scene, played};
use iiif_keys::Fault;
use std::alloc::Global;
use std::net::{Net, TcpListener, TcpStream};
use std::sync::Wait;
use std::test::Fail;
use std::thread::Threads;
use std::time::Clock;

/// A value that another node owns.
struct Cut {
    /// How it is asked for, and replied.
    exchange: Exchange,
    /// The call, and the value that the node's own image has.
    scene: Scene,
    is_tile: bool,
    /// How many flights land where no ask gives a value: two of each key, that whose owner was asked in vain and the load's own.
    loads: u64,
}

/// The sums are those of four tiles, each of which is a key of its own: five keys in all.
static CUTS: [Cut; 2] = [
    Cut {
        exchange: TILE,
        scene: Scene::Runs(Stages {
            first: &[(Step::Tile(Call::Get, (1, 1)), Ok(LAST))],
            then: &[],
            hands_in: false,
        }),
        is_tile: true,
        loads: 2,
    },
    Cut {
        exchange: SUMS,
        scene: Scene::Runs(Stages {
            first: &[(WHOLE, Ok(HALVED))],
            then: &[],
            hands_in: false,
        }),
        is_tile: false,
        loads: 10,
    },
];

/// Whether a node whose links fail after so many bytes answers the value that its image has; how many values of that kind it took from
/// its peer; and how many flights landed there. The writer fails first; where the ask has no more bytes, it is the reader that fails
/// after the rest.
fn answered<R>(rt: &R, alloc: Global, cut: &Cut, bytes: usize) -> Result<(bool, u64, u64), Fault>
where
    R: Net<Listener = TcpListener, Stream = TcpStream> + Threads + Wait + Clock + Send + Sync,
{
    let open = Bar::new(true);
    let (asked, reply) = (cut.exchange.ask.len(), cut.exchange.reply);
    let setup = Setup {
        fuse: 99,
        bytes: ROOMY,
        meets: false,
        stands: false,
        way: Way::Cut {
            reply,
            reads: bytes.checked_sub(asked).unwrap_or(reply.len()),
            room: bytes,
        },
        gate: &open,
        crossing: None,
    };
    let seen = played(rt, alloc, &setup, &cut.scene)?;
    let book = if cut.is_tile {
        seen.tiles.0
    } else {
        seen.sums.0
    };
    Ok((seen.is_right, book.peer, book.loads))
}

/// The first number of bytes after which a link fails and the node doesn't do as it has to, if there is one. Over a link that gives
/// all bytes it takes the value.
fn first_wrong<R>(rt: &R, alloc: Global, cut: &Cut) -> Result<Option<usize>, Fault>
where
    R: Net<Listener = TcpListener, Stream = TcpStream> + Threads + Wait + Clock + Send + Sync,
{
    let all = cut.exchange.ask.len() + cut.exchange.reply.len();
    for bytes in 0..=all {
        let wanted = if bytes < all {
            (true, 0, cut.loads)
        } else {
            (true, 1, 1)
        };
        if !is_same(&answered(rt, alloc, cut, bytes)?, &wanted) {
            return Ok(Some(bytes));
        }
    }
    Ok(None)
}

#[test]
fn value_is_loaded_here_wherever_a_link_fails(rt: HostRuntime) -> Result<(), Fail> {
    for cut in CUTS.iter() {
        let wrong = first_wrong(&rt, rt.alloc(), cut)?;
        assert!(rt; is_same(&wrong, &None), "{}: {wrong:?}", cut.exchange.what);
    }
    Ok(())
}
