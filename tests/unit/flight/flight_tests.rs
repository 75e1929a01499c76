//! Tables of samples, of one thread and of two.

use crate::fixtures::is_same;
use crate::flight::cache_tests::sample;
use crate::samples::{Lax, Sample};
use iiif_keys::{Fault, PARTS};
use iiif_outcome::learn_apart;
use iiif_singleflight::{
    Entered, Flight, FlightCondvar, Follower, FullLedger, GroupState, Lead, Look, Lookup, Pass,
    Receipt, Table,
};
use iiif_source::ReadFault;
use iiif_tables::{Book, Class, Place};
use std::alloc::Global;
use std::marker::Brand;
use std::num::NonZeroUsize;
use std::sync::ledger::{Blank, Ledger};
use std::sync::{Arc, Mutex, Wait};
use std::thread;
use std::thread::Threads;
use std::time::{Clock, Duration};

/// A table, the pass of all its parts, and the condition variables of its flights.
#[derive(Drop)]
struct Shared<L: Ledger> {
    table: Table<Sample, Lax, L>,
    pass: Pass<L>,
    condvar: FlightCondvar<L>,
}

type Told = Result<u16, Fault>;

/// A home for so many bytes.
fn made<L: Ledger>(alloc: Global, bytes: u32, blank: Blank) -> Option<Shared<L>> {
    let entries = NonZeroUsize::new(8)?;
    let (table, pass, condvar) = Table::new(alloc, u64::from(bytes), entries, PARTS, blank).ok()?;
    Some(Shared {
        table,
        pass,
        condvar,
    })
}

/// The end of a flight, by its receipt.
fn told<L: Ledger>(receipt: &mut Receipt<Sample, Lax, L>) -> Told {
    match receipt.outcome() {
        Ok(value) => Ok(**value),
        Err(fault) => Err(*fault),
    }
}

/// The outcome that a leader lands to tell this. Each source may have given any fault.
fn landing_of(alloc: Global, tells: Told) -> Result<Arc<u16>, Fault> {
    match tells {
        Ok(value) => match Arc::new(alloc, value) {
            Ok(value) => Ok(value),
            Err(_) => Err(Fault::NoMemory),
        },
        Err(Fault::Source(fault)) => Err(Fault::Source(fault)),
        Err(_) => Err(Fault::NoMemory),
    }
}

/// Learns what is landed.
fn learned<L: Ledger, R: Wait + Clock>(
    rt: &R,
    mut flight: Flight<Sample, Lax, L>,
) -> Option<Receipt<Sample, Lax, L>> {
    for _ in 0..10_000u32 {
        match flight.learn() {
            Ok(receipt) => return Some(receipt),
            Err(back) => flight = back,
        }
        thread::sleep(rt, Duration::from_millis(1));
    }
    None
}

/// The counts, and how many entries are kept.
fn counted<L: Ledger, R: Wait>(rt: &R, home: &Mutex<Shared<L>>) -> (Book, usize) {
    let home = home.lock(rt);
    (home.table.book(), home.table.kept().entries)
}

/// A leader looks again, and lands what it finds, or else what tells this.
fn look_and_land<L: Ledger>(
    alloc: Global,
    home: &mut Shared<L>,
    lead: Lead<Sample, Lax, L>,
    tells: Told,
) -> Receipt<Sample, Lax, L> {
    let (outcome, place) = match home.table.again(&lead) {
        Ok(Some(value)) => (Ok(value), Place::Nowhere),
        Ok(None) => (landing_of(alloc, tells), Place::Main),
        Err(_) => (Err(Fault::NoMemory), Place::Nowhere),
    };
    let completion = home.table.land(lead, outcome, place);
    let woken = completion.wake(&home.condvar);
    completion.into_receipt(woken).0
}

/// Waits until one has joined, and lands.
fn landed<L: Ledger, R: Wait + Clock>(
    rt: &R,
    alloc: Global,
    home: &Mutex<Shared<L>>,
    lead: Lead<Sample, Lax, L>,
    tells: Told,
) -> Receipt<Sample, Lax, L> {
    for _ in 0..10_000u32 {
        if counted(rt, home).0.joins == 1 {
            break;
        }
        thread::sleep(rt, Duration::from_millis(1));
    }
    let mut home = home.lock(rt);
    look_and_land(alloc, &mut *home, lead, tells)
}

/// Enters by a call of the wide class.
fn entered<L: Ledger, R: Wait>(
    rt: &R,
    alloc: Global,
    home: &Mutex<Shared<L>>,
) -> Option<Entered<Sample, Lax, L>> {
    let key = sample(alloc, 7)?;
    let mut home = home.lock(rt);
    let Shared { table, pass, .. } = &mut *home;
    table.enter(pass, &key, Class::Wide).ok()
}

/// Enters; where the call leads, waits until one has joined and lands; where it joined, learns what was landed.
fn ask<L: Ledger, R: Wait + Clock>(
    rt: &R,
    alloc: Global,
    home: &Mutex<Shared<L>>,
    tells: Told,
) -> Option<Receipt<Sample, Lax, L>> {
    match entered(rt, alloc, home)? {
        Entered::Hit(receipt) => Some(receipt),
        Entered::Joined(flight) => learned(rt, flight),
        Entered::Lead(lead) => Some(landed(rt, alloc, home, lead, tells)),
    }
}

/// The outcome of two calls that met, and of a third: what the leader, the one who joined and the third were told; whether the
/// first two learned of one flight, and the third of the same; the counts before the third and how many entries were kept then, and the
/// same behind it.
type Met = (
    (Told, Told, Told),
    (bool, bool),
    (Book, usize),
    (Book, usize),
);

/// A third call, after two that met.
fn third<L: Ledger, R: Wait + Clock>(
    rt: &R,
    alloc: Global,
    home: &Mutex<Shared<L>>,
    leads: &mut Receipt<Sample, Lax, L>,
    joins: &mut Receipt<Sample, Lax, L>,
) -> Option<Met> {
    let before = counted(rt, home);
    let mut third = ask(rt, alloc, home, Ok(42))?;
    let same = (leads.same(joins), third.same(leads));
    let tells = (told(leads), told(joins), told(&mut third));
    Some((tells, same, before, counted(rt, home)))
}

/// Two threads ask for one key, and the leader lands once the other has joined; then a third call is made.
fn meet<L: Ledger + Send + Sync, R: Threads + Wait + Clock + Sync>(
    rt: &R,
    alloc: Global,
    home: &Mutex<Shared<L>>,
    tells: Told,
) -> Option<Met> {
    let (a, b) = thread::join(
        rt,
        || ask(rt, alloc, home, tells),
        || ask(rt, alloc, home, tells),
    );
    let mut leads = a?;
    let mut joins = b?;
    third(rt, alloc, home, &mut leads, &mut joins)
}

/// The outcome that a leader was told that looked again, and the counts then.
type Looked = (Told, Book);

/// A call of the local class, which lands where it leads.
fn land_beside<L: Ledger>(
    alloc: Global,
    home: &mut Shared<L>,
    key: &Sample,
    tells: Told,
) {
    let Shared { table, pass, .. } = &mut *home;
    match table.enter(pass, key, Class::Local) {
        Ok(Entered::Lead(lead)) => drop(look_and_land(alloc, home, lead, tells)),
        Ok(Entered::Hit(_)) => {}
        Ok(Entered::Joined(_)) => {}
        Err(_) => {}
    }
}

/// A call of the wide class leads, one of the local class lands meanwhile, and then the leader looks again.
fn look_again<L: Ledger>(
    alloc: Global,
    home: &mut Shared<L>,
    tells: Told,
) -> Option<Looked> {
    let key = sample(alloc, 8)?;
    let Shared { table, pass, .. } = &mut *home;
    match table.enter(pass, &key, Class::Wide).ok()? {
        Entered::Hit(_) => None,
        Entered::Joined(_) => None,
        Entered::Lead(lead) => {
            land_beside(alloc, home, &key, tells);
            let mut receipt = look_and_land(alloc, home, lead, Err(Fault::Source(FAULT)));
            Some((told(&mut receipt), home.table.book()))
        }
    }
}

/// At a new home for so many bytes a leader looks again, behind one who lands what tells this; and then two threads meet that ask for
/// another key, of which the leader lands the same.
fn look_and_meet<L: Ledger + Send + Sync, R: Threads + Wait + Clock + Sync>(
    rt: &R,
    alloc: Global,
    bytes: u32,
    tells: Told,
    blank: Blank,
) -> Option<(Looked, Met)> {
    let mut home: Shared<L> = made(alloc, bytes, blank)?;
    let look = look_again(alloc, &mut home, tells)?;
    let met = meet(rt, alloc, &Mutex::new(home), tells)?;
    Some((look, met))
}

/// The fault of a read at place 3.
const FAULT: ReadFault = ReadFault {
    place: 3,
    cause: ReadFault::FAILED,
};

const READ: Told = Err(Fault::Source(FAULT));

const NO_MEMORY: Told = Err(Fault::NoMemory);

/// Two calls that led and landed, and two that met, of which one led and landed.
const COUNTS: Book = Book {
    gets: 4,
    hits: 0,
    joins: 1,
    leads: 3,
    again_hits: 0,
    loads: 3,
    peer: 0,
    landed: 3,
    faults: 0,
};

/// A third call beside those that met led, and landed a value.
const COUNTS_THEN: Book = Book {
    gets: 5,
    leads: 4,
    loads: 4,
    landed: 4,
    ..COUNTS
};

/// Two calls that led and landed.
const TWO: Book = Book {
    gets: 2,
    joins: 0,
    leads: 2,
    loads: 2,
    landed: 2,
    ..COUNTS
};

/// For how many bytes a home is; what one lands beside a leader that looks again, and the leader of two calls that meet; what the leader
/// that looks again is told; and what comes of the calls that meet and of a third.
static MEETINGS: [(u32, Told, Looked, Met); 4] = [
    // The leader finds what landed meanwhile. The third call hits what two threads shared.
    (
        1000,
        Ok(42),
        (
            Ok(42),
            Book {
                again_hits: 1,
                loads: 1,
                ..TWO
            },
        ),
        (
            (Ok(42), Ok(42), Ok(42)),
            (true, true),
            (
                Book {
                    again_hits: 1,
                    loads: 2,
                    ..COUNTS
                },
                2,
            ),
            (
                Book {
                    gets: 5,
                    hits: 1,
                    again_hits: 1,
                    loads: 2,
                    ..COUNTS
                },
                2,
            ),
        ),
    ),
    // Nothing is kept: the leader finds nothing, and lands a fault. The third call leads.
    (
        1,
        Ok(42),
        (READ, Book { faults: 1, ..TWO }),
        (
            (Ok(42), Ok(42), Ok(42)),
            (true, false),
            (
                Book {
                    faults: 1,
                    ..COUNTS
                },
                0,
            ),
            (
                Book {
                    faults: 1,
                    ..COUNTS_THEN
                },
                0,
            ),
        ),
    ),
    // The leader finds no fault. Two calls are told the fault of a read, and a third loads again.
    (
        1000,
        READ,
        (READ, Book { faults: 2, ..TWO }),
        (
            (READ, READ, Ok(42)),
            (true, false),
            (
                Book {
                    faults: 3,
                    ..COUNTS
                },
                0,
            ),
            (
                Book {
                    faults: 3,
                    ..COUNTS_THEN
                },
                1,
            ),
        ),
    ),
    // The same where memory ran out.
    (
        1000,
        NO_MEMORY,
        (READ, Book { faults: 2, ..TWO }),
        (
            (NO_MEMORY, NO_MEMORY, Ok(42)),
            (true, false),
            (
                Book {
                    faults: 3,
                    ..COUNTS
                },
                0,
            ),
            (
                Book {
                    faults: 3,
                    ..COUNTS_THEN
                },
                1,
            ),
        ),
    ),
];

#[test]
fn leader_that_looks_again_finds_values_alone_and_two_threads_share_one_load(rt: HostRuntime) {
    for (line, (bytes, tells, look, met)) in MEETINGS.iter().enumerate() {
        let seen = look_and_meet::<Brand, _>(&rt, rt.alloc(), *bytes, *tells, Blank::new(PARTS));
        assert!(rt; is_same(&seen, &Some((*look, *met))), "{line}");
    }
}

/// Follows a flight until it landed.
fn follow<L: Ledger, R: Wait>(
    rt: &R,
    state: &Mutex<GroupState<Sample, Lax, L>>,
    condvar: &FlightCondvar<L>,
    joined: Follower<Sample, Lax, L>,
) -> Receipt<Sample, Lax, L> {
    let mut follower = joined;
    let mut guard = state.lock(rt);
    for _ in rt.forever() {
        match follower.look(guard) {
            Look::Landed(receipt) => return receipt,
            Look::Pending(sleeper) => {
                let (woken, locked) = sleeper.sleep(rt, condvar);
                follower = woken;
                guard = locked;
            }
        }
    }
    unreachable!()
}

/// Which answer a call was given, the ticket of the flight, and its outcome.
type Step = (&'static str, u64, Told);

/// Ends a call: a leader lands a value, a follower waits for it.
fn end<L: Ledger, R: Wait>(
    rt: &R,
    alloc: Global,
    state: &Mutex<GroupState<Sample, Lax, L>>,
    condvar: &FlightCondvar<L>,
    answer: Lookup<Sample, Lax, L>,
) -> Step {
    let (name, mut receipt) = match answer {
        Lookup::Hit(receipt) => ("hit", receipt),
        Lookup::Joined(follower) => ("joined", follow(rt, state, condvar, follower)),
        Lookup::Leads(lead) => {
            let outcome = landing_of(alloc, Ok(42));
            let completion = state.lock(rt).land(lead, outcome, Place::Main);
            let woken = completion.wake(condvar);
            ("leads", completion.into_receipt(woken).0)
        }
    };
    (name, receipt.ticket(), told(&mut receipt))
}

/// Three calls of a group for one key: the first leads, and lands once the second has joined; then the third enters.
fn enter_thrice<L: Ledger, R: Wait>(rt: &R, alloc: Global, blank: Blank) -> Option<[Step; 3]> {
    let entries = NonZeroUsize::new(8)?;
    let (table, pass, condvar) = Table::new(alloc, 1000, entries, PARTS, blank).ok()?;
    let state: Mutex<GroupState<Sample, Lax, L>> =
        Mutex::new(GroupState::new(table, pass, FullLedger::new()));
    let mut pass = state.lock(rt).pass()?;
    let key = sample(alloc, 7)?;
    let led = state.lock(rt).enter(&mut pass, &key, Class::Local).ok()?;
    let joined = state.lock(rt).enter(&mut pass, &key, Class::Local).ok();
    let first = end(rt, alloc, &state, &condvar, led);
    let second = end(rt, alloc, &state, &condvar, joined?);
    let then = state.lock(rt).enter(&mut pass, &key, Class::Local).ok()?;
    Some([first, second, end(rt, alloc, &state, &condvar, then)])
}

#[test]
fn call_of_a_group_leads_the_next_follows_it_and_a_third_hits(rt: HostRuntime) {
    let steps = enter_thrice::<Brand, _>(&rt, rt.alloc(), Blank::new(PARTS));
    let want = [("leads", 1, Ok(42)), ("joined", 1, Ok(42)), ("hit", 1, Ok(42))];
    assert!(rt; is_same(&steps, &Some(want)));
}

/// The ticket of a receipt, and what it tells.
fn ticket_of(receipt: &mut Receipt<Sample, Lax, Brand>) -> (u64, Told) {
    let ticket = receipt.ticket();
    match receipt.outcome() {
        Ok(value) => (ticket, Ok(**value)),
        Err(fault) => (ticket, Err(*fault)),
    }
}

/// A flight of no table with the ticket 5, which ended with that fault. None where this wasn't taken.
fn ended(alloc: Global) -> Option<Flight<Sample, Lax, Brand>> {
    let key = sample(alloc, 7)?;
    let (tally, _share) = Blank::new(0).open::<Brand>();
    let (lead, flight) = Lead::open(alloc, &key, Class::Wide, 5, &tally).ok()?;
    if !lead.set(landing_of(alloc, READ)).taken {
        return None;
    }
    Some(flight)
}

/// The outcomes that two threads learn.
fn both_learn<R: Threads + Sync>(rt: &R, alloc: Global) -> Option<[(u64, Told); 2]> {
    let mut one = ended(alloc)?;
    let other = one.join().ok()?;
    let (mut a, mut b) = learn_apart(rt, one, other)?;
    Some([ticket_of(&mut a), ticket_of(&mut b)])
}

#[test]
fn two_threads_learn_of_one_flight(rt: HostRuntime) {
    assert!(rt; is_same(&both_learn(&rt, rt.alloc()), &Some([(5, READ), (5, READ)])));
}
