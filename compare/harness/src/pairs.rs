//! Pairs of traces: two nodes in equal states whose scans differ only in other networks' beacons (document 01, "Two nodes").
use crate::driver::{Driver, Kind};
use crate::scenarios::{
    CAPABILITIES, EPIDS, Flavour, IEEES, INDEXES, OWN, OWN_IEEES, PANS, Rng, SEQUENCES, SHORTS, TICKS, TIMERS, UPDATE_IDS, beacon, entry,
    stray,
};
use crate::trace::{Beacon, BeaconAddress, Call, Entry, Frame, Node, Outcome, Start};

// a call of the list; a scan may differ between the two
#[derive(Clone)]
struct Both {
    first: Call,
    second: Call,
}

impl Both {
    fn same(c: Call) -> Self {
        Self { first: c.clone(), second: c }
    }
}

fn is_short(b: &Beacon) -> bool {
    matches!(b.address, BeaconAddress::Short(_))
}

/// The network's beacons in order, foreign ones put in anywhere.
fn mix(r: &mut Rng, own: &[Beacon], f: &Flavour, network: u64) -> Vec<Beacon> {
    let shorts = own.iter().filter(|b| is_short(b)).count();
    let free_shorts = 16 - shorts;
    let free = 27 - own.len();
    let n = match r.weighted(&[2, 4, 4]) {
        0 => 0,
        1 => r.below(4) as usize,
        _ => r.below(free as u64 + 1) as usize,
    }
    .min(free);
    let mut list = own.to_vec();
    let mut short_used = 0;
    for i in 0..n {
        let short = short_used < free_shorts && r.chance(800);
        short_used += usize::from(short);
        let mut b = beacon(r, f, short, i);
        while b.epid == network {
            b.epid = r.pick(&[0xaa, 0xbb, 0xcc, 0, 0xdd, u64::MAX]);
        }
        // sometimes a twin of one of the network's
        if !own.is_empty() && r.chance(400) {
            let twin = &own[r.below(own.len() as u64) as usize];
            if is_short(twin) == short {
                b.address = twin.address;
            }
            if r.flag() {
                b.pan = twin.pan;
                b.channel = twin.channel;
                b.update_id = twin.update_id;
            }
        }
        let at = r.below(list.len() as u64 + 1) as usize;
        list.insert(at, b);
    }
    list
}

fn scans(r: &mut Rng, network: u64, f: &Flavour) -> (Call, Call) {
    let count = match r.weighted(&[1, 4, 4, 1]) {
        0 => 0,
        1 => r.range(1, 3),
        2 => r.range(4, 10),
        _ => r.range(11, 16),
    };
    let own: Vec<Beacon> = (0..count as usize)
        .map(|i| {
            let short = r.chance(900);
            let mut b = beacon(r, f, short, i);
            b.epid = network;
            b
        })
        .collect();
    let foreign = Flavour { good: r.pick(&[300, 900, 1000]), ..Flavour::new(r) };
    let (a, b) = (mix(r, &own, &foreign, network), mix(r, &own, &foreign, network));
    (Call::Outcome(Outcome::Scan(a)), Call::Outcome(Outcome::Scan(b)))
}

/// Leave commands to mix in; the claim leaves them out.
#[derive(Clone, Copy, PartialEq, Eq)]
pub enum Leaves {
    None,
    All,
    Requests,
    Notifications,
}

fn frame(r: &mut Rng, s: &Driver, leaves: Leaves, respond: u64) -> Outcome {
    let entries = s.entries();
    let source = match r.weighted(&[4, 3, 3]) {
        0 => entries.iter().find(|e| e.relationship == 0).map_or(0x1a2b, |e| e.address),
        1 if !entries.is_empty() => entries[r.below(entries.len() as u64) as usize].address,
        _ => r.pick(&SHORTS),
    };
    let ieee = if r.chance(400) { None } else { Some(r.pick(&IEEES)) };
    if leaves != Leaves::None && r.chance(300) {
        return Outcome::Frame(Frame::Leave {
            source,
            ieee,
            destination: if r.flag() { s.node().network_address } else { r.pick(&SHORTS) },
            request: match leaves {
                Leaves::Requests => true,
                Leaves::Notifications => false,
                _ => r.flag(),
            },
            rejoin: r.flag(),
            children: r.flag(),
        });
    }
    if r.chance(respond) {
        return Outcome::Frame(Frame::RejoinResponse {
            source,
            ieee,
            address: r.pick(&[0x1234, 0x5678, 0x0000, 0xffff]),
            status: r.pick(&[0, 1, 2, 3, 240]),
        });
    }
    match r.weighted(&[10, 1, 1, 4, 2, 1, 2]) {
        0 => Outcome::NoData,
        1 => Outcome::PollFail,
        2 => Outcome::Frame(Frame::Undecodable),
        3 => Outcome::Frame(Frame::Data { source, ieee }),
        4 => Outcome::Frame(Frame::Command { source, ieee }),
        5 => Outcome::Frame(Frame::Other),
        _ => Outcome::Frame(Frame::TimeoutResponse { source, ieee, status: r.pick(&[0, 1]), information: r.pick(&[0, 3]) }),
    }
}

/// A call that both turn down. A scan differs in the beacons too, unless it fails; above 27, or above 16 short-addressed, it may in all.
fn refused(r: &mut Rng, s: &Driver, network: u64, f: &Flavour) -> Both {
    let first = stray(r, s, f);
    let Call::Outcome(Outcome::Scan(beacons)) = &first else { return Both::same(first) };
    let shorts = beacons.iter().filter(|b| is_short(b)).count();
    if beacons.len() <= 27 && shorts <= 16 {
        let (first, second) = scans(r, network, f);
        return Both { first, second };
    }
    let second = (0..beacons.len()).map(|i| beacon(r, f, i < shorts, i)).collect();
    Both { second: Call::Outcome(Outcome::Scan(second)), first }
}

/// The calls of one pair. The source runs alongside as the first node, so that outcomes fit what is awaited.
fn pair(r: &mut Rng, s: &mut Driver, leaves: Leaves) -> Vec<Both> {
    let network = r.pick(&EPIDS[..3]);
    let mut f = Flavour::new(r);
    f.epid = network;
    f.good = r.pick(&[700, 900, 1000]);
    f.updates = r.weighted(&[4, 2, 1]) as u8;
    // 0 discovery then join, 1 rejoin, 2 discovery
    let shape = r.weighted(&[9, 10, 1]);
    let own = match shape {
        0 if r.chance(930) => 0xffff,
        1 if r.chance(950) => r.pick(&[0x1234, 0xfff7, 0x0000]),
        _ => r.pick(&OWN),
    };
    let mut setup = vec![Call::Node(Node {
        network_address: own,
        ieee: r.pick(&OWN_IEEES),
        epid: match r.weighted(&[6, 2, 1]) {
            0 => network,
            1 => 0,
            _ => r.pick(&EPIDS),
        },
        pan: r.pick(&PANS),
        update_id: r.pick(&UPDATE_IDS),
        capability: r.pick(&CAPABILITIES),
        stack_profile: r.pick(&[0, 1, 1, 2]),
        parent_information: r.pick(&[0, 3]),
        timeout: r.pick(&INDEXES),
        timeout_default: r.pick(&INDEXES),
        leave_allowed: r.flag(),
        sequence: r.pick(&SEQUENCES),
        pending: r.pick(&[255, 0, 8]),
        timer: r.pick(&TIMERS),
    })];
    let remembered = match &setup[0] {
        Call::Node(n) => n.epid,
        _ => 0,
    };
    let n = r.pick(&[0, 1, 2, 5, 16]) as usize;
    let mut table: Vec<Entry> = (0..n).map(|i| entry(r, &f, i)).collect();
    for _ in 0..r.weighted(&[3, 5, 1]) {
        if n > 0 {
            let i = r.below(n as u64) as usize;
            table[i].relationship = 0;
        }
    }
    setup.extend(table.into_iter().map(Call::Entry));
    for i in 0..r.pick(&[0, 0, 1, 16]) {
        setup.push(Call::Failure(if i == 0 { r.pick(&SHORTS) } else { 0x4000 + i }, r.pick(&[1, 2])));
    }

    let mut list = Vec::new();
    let put = |list: &mut Vec<Both>, s: &mut Driver, call: Both| {
        s.feed(&call.first).unwrap_or_else(|e| panic!("{}: {e}", call.first.text()));
        list.push(call);
    };
    for c in setup {
        put(&mut list, s, Both::same(c));
    }

    let capability = r.pick(&CAPABILITIES);
    let join = |r: &mut Rng, kind: u8, remembered: u64| Start::Join {
        kind,
        // a rejoin that names 0 means the remembered network
        epid: if kind == 2 && remembered == network && r.flag() { 0 } else { network },
        capability,
        security: r.flag(),
        from: 11,
        to: if r.chance(930) { 27 } else { 11 },
        duration: 3,
    };
    let discovery = Start::Discovery { from: 11, to: 27, duration: 3 };
    let mut starts: Vec<Start> = match shape {
        0 => {
            let kind = r.pick(&[0, 0, 0, 0, 0, 0, 0, 0, 1, 3]);
            vec![join(r, kind, 0), discovery]
        }
        1 => vec![join(r, 2, remembered)],
        _ => vec![discovery],
    };
    let between = r.pick(&[0, 100, 500]);
    let strays = r.pick(&[0, 0, 50, 200]);
    let mut begun = false;
    let (fail, respond, associated) = (r.pick(&[0, 100, 500]), r.pick(&[0, 20, 100, 400]), r.pick(&[0, 100, 300]));
    let stop = r.chance(100);
    loop {
        // the list begins with a start
        if begun && r.chance(strays) {
            let both = refused(r, s, network, &f);
            put(&mut list, s, both);
        }
        if begun && r.chance(between) {
            let c = match r.below(3) {
                0 => Call::Tick(r.pick(&TICKS)),
                1 => Call::TakeLeave,
                _ => Call::TakeStatus,
            };
            put(&mut list, s, Both::same(c));
        }
        let Some(kind) = s.awaited() else {
            let Some(start) = starts.pop() else { break };
            begun = true;
            put(&mut list, s, Both::same(Call::Start(start)));
            continue;
        };
        if stop && r.chance(100) {
            break;
        }
        let both = match kind {
            Kind::Scan if r.chance(40) => Both::same(Call::Outcome(Outcome::ScanFail)),
            Kind::Scan => {
                let (first, second) = scans(r, network, &f);
                Both { first, second }
            }
            Kind::Associate => Both::same(Call::Outcome(if r.chance(associated) {
                Outcome::Associate { status: 0, address: r.pick(&[0x1234, 0xffff]), ieee: r.pick(&OWN_IEEES) }
            } else if r.chance(200) {
                Outcome::AssociateFail
            } else {
                Outcome::Associate { status: r.pick(&[1, 2, 3, 240]), address: 0xffff, ieee: 0 }
            })),
            Kind::Transmit => Both::same(Call::Outcome(if r.chance(fail) { Outcome::SendFail } else { Outcome::Sent })),
            Kind::Poll | Kind::Receive => Both::same(Call::Outcome(frame(r, s, leaves, respond))),
        };
        put(&mut list, s, both);
    }
    list
}

/// The traces of the first nodes, or of the second ones, of the pairs `from` to `from + n` of those of the seed, with the state after every
/// call.
pub fn generate(first: bool, seed: u64, n: u64, from: u64, leaves: Leaves) -> String {
    let mut out = String::new();
    let mut driver = Driver::new();
    let mut r = Rng::new(seed);
    for i in 0..from + n {
        // each pair has a seed of its own
        let own = r.next();
        if i < from {
            continue;
        }
        for both in pair(&mut Rng::new(own), &mut driver, leaves) {
            let call = if first { &both.first } else { &both.second };
            call.write(&mut out);
            if !matches!(call, Call::Node(_) | Call::Entry(_) | Call::Failure(..)) {
                Call::State.write(&mut out);
            }
        }
    }
    out
}
