//! Ways to the node that owns a node's keys.

use crate::group::bars::Bar;
use crate::group::calls::Numbers;
use crate::group::ends::Ends;
use iiif_group::{Link, LinkFault, NoLink};
use iiif_io::fakes::{FailingReader, FailingWriter};
use iiif_keys::{CacheKey, Shape, SumKey, SumVal, System, TileKey, TileVal};
use iiif_peer_link::{Peer as Node, Stopwatch, TcpLink, ask_value_over};
use iiif_peer_wire::WireFault;
use iiif_pixel::{Dim, Kind, Raster, Samples};
use std::alloc::Global;
use std::marker::PhantomData;
use std::net::{Net, TcpListener, TcpStream};
use std::sync::Wait;
use std::time::{Clock, Duration};

/// How long an ask over TCP may take, in milliseconds. Where a node passed an ask on, its asker would wait for itself, so long.
pub(crate) const LIMIT: u64 = 10_000;

/// Each sample of a tile that an owner in memory gives.
const SAMPLE: u8 = 5;

/// Such a tile.
pub(crate) const GIVEN: Numbers = (4, [5, 5, 5, 5]);

/// The way to the owner of a node's keys.
#[derive(Drop)]
pub(crate) enum Way<'a> {
    /// It refuses with status 3. The first ask for a tile waits at the bar, and each other lifts it.
    Refuses(&'a Bar),
    /// It replies a tile of 2 by 2 samples, or of 4 by 1, and refuses sums. The first ask waits likewise.
    Gives {
        is_wide: bool,
        bar: &'a Bar,
    },
    /// A connection in memory over which this reply is read until so many reads of a byte each have been made, and whose writer has room
    /// for so many bytes.
    Cut {
        reply: &'static [u8],
        reads: usize,
        room: usize,
    },
    /// The node behind this listener.
    Tcp(&'a TcpListener),
}

/// The owner of a node's keys.
#[derive(Drop)]
pub(crate) struct Peer<'a, J: System> {
    alloc: Global,
    way: &'a Way<'a>,
    of: PhantomData<J>,
    pub ghost unsure: { J.honest ≡ false },
}

impl<'a, J: System> Peer<'a, J> {
    pub(crate) fn new(alloc: Global, way: &'a Way<'a>) -> Peer<'a, J> {
        Peer {
            alloc,
            way,
            of: PhantomData,
        }
    }

    /// The node behind that listener.
    fn behind<R: Net + Wait>(&self, rt: &R, listener: &TcpListener) -> Result<Node, LinkFault> {
        let Ok(address) = listener.local_addr() else {
            return Err(LinkFault::Wire(WireFault::Io));
        };
        let Ok(address) = format!(in self.alloc; "{address}") else {
            return Err(LinkFault::Wire(WireFault::NoMemory));
        };
        let limit = Duration::from_millis(LIMIT);
        let Ok(node) = Node::new(self.alloc, "owner", address.as_str(), limit) else {
            return Err(LinkFault::Wire(WireFault::NoMemory));
        };
        node.look_up(rt, self.alloc);
        Ok(node)
    }
}

/// Asks over a connection in memory, with this reply, so many reads and so much room for the ask.
fn ask_in_memory<K: CacheKey>(
    alloc: Global,
    (reply, reads, room): (&'static [u8], usize, usize),
    group: u8,
    key: &K,
    shape: &Shape,
) -> Result<K::Value, LinkFault> {
    let reader = FailingReader {
        left: reply,
        piece: 1,
        reads,
    };
    let mut out = FailingWriter {
        taken: Vec::new(alloc),
        room,
        piece: 5,
    };
    let ends = Ends {
        out: &mut out,
        reader,
    };
    ask_value_over(alloc, ends, group, key, shape)
}

/// A gray tile of four samples, of 2 by 2 or of 4 by 1.
fn given(alloc: Global, is_wide: bool) -> Result<TileVal, LinkFault> {
    let Ok(samples) = Vec::from_array(alloc, [SAMPLE; 4]) else {
        return Err(LinkFault::Wire(WireFault::NoMemory));
    };
    let samples = Samples::Eight(samples);
    let raster = if is_wide {
        Raster::from_samples(Dim { w: 4, h: 1 }, Kind::Gray, samples)
    } else {
        Raster::from_samples(Dim { w: 2, h: 2 }, Kind::Gray, samples)
    };
    Ok(TileVal { raster })
}

impl<'a, J: System, R: Net<Stream = TcpStream> + Clock + Wait> Link<TileKey, J, R> for Peer<'a, J> {
    fn ask(&self, rt: &R, key: &TileKey, shape: &Shape) -> Result<TileVal, LinkFault> {
        match self.way {
            Way::Refuses(bar) => {
                bar.meet(rt);
                Link::<TileKey, J, R>::ask(&NoLink, rt, key, shape)
            }
            Way::Gives { is_wide, bar } => {
                bar.meet(rt);
                given(self.alloc, *is_wide)
            }
            Way::Cut { reply, reads, room } => {
                ask_in_memory(self.alloc, (reply, *reads, *room), 1, key, shape)
            }
            Way::Tcp(listener) => {
                let node = self.behind(rt, listener)?;
                let watch = Stopwatch::new();
                let link: TcpLink<'_, J, R> = TcpLink::new(self.alloc, &node, &watch, None);
                link.ask(rt, key, shape)
            }
        }
    }
}

impl<'a, J: System, R: Net<Stream = TcpStream> + Clock + Wait> Link<SumKey, J, R> for Peer<'a, J> {
    fn ask(&self, rt: &R, key: &SumKey, shape: &Shape) -> Result<SumVal, LinkFault> {
        match self.way {
            Way::Refuses(_) | Way::Gives { .. } => {
                Link::<SumKey, J, R>::ask(&NoLink, rt, key, shape)
            }
            Way::Cut { reply, reads, room } => {
                ask_in_memory(self.alloc, (reply, *reads, *room), 2, key, shape)
            }
            Way::Tcp(listener) => {
                let node = self.behind(rt, listener)?;
                let watch = Stopwatch::new();
                let link: TcpLink<'_, J, R> = TcpLink::new(self.alloc, &node, &watch, None);
                link.ask(rt, key, shape)
            }
        }
    }
}
