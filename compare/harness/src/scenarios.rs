//! Random scenarios. The source runs alongside, so that an outcome fits what is awaited, but for the calls that are meant to be refused.
use crate::driver::{Driver, Kind};
use crate::trace::{Beacon, BeaconAddress, Call, Entry, Frame, Node, Outcome, Start};

/// splitmix64
pub struct Rng(u64);

impl Rng {
    pub fn new(seed: u64) -> Self {
        Self(seed)
    }
    pub fn next(&mut self) -> u64 {
        self.0 = self.0.wrapping_add(0x9e37_79b9_7f4a_7c15);
        let mut z = self.0;
        z = (z ^ (z >> 30)).wrapping_mul(0xbf58_476d_1ce4_e5b9);
        z = (z ^ (z >> 27)).wrapping_mul(0x94d0_49bb_1331_11eb);
        z ^ (z >> 31)
    }
    pub fn below(&mut self, n: u64) -> u64 {
        self.next() % n
    }
    pub fn range(&mut self, from: u64, to_incl: u64) -> u64 {
        from + self.below(to_incl - from + 1)
    }
    /// True in `p` of 1000.
    pub fn chance(&mut self, p: u64) -> bool {
        self.below(1000) < p
    }
    pub fn flag(&mut self) -> bool {
        self.below(2) == 1
    }
    pub fn byte(&mut self) -> u8 {
        self.next() as u8
    }
    pub fn pick<T: Copy>(&mut self, from: &[T]) -> T {
        from[self.below(from.len() as u64) as usize]
    }
    /// Index by weight.
    pub fn weighted(&mut self, weights: &[u64]) -> usize {
        let mut at = self.below(weights.iter().sum());
        for (i, w) in weights.iter().enumerate() {
            if at < *w {
                return i;
            }
            at -= w;
        }
        unreachable!()
    }
}

pub const SHORTS: [u16; 6] = [0x0000, 0x1a2b, 0x3c4d, 0xfff7, 0xfff8, 0xffff];
pub const EPIDS: [u64; 4] = [0xaa, 0xbb, 0xcc, 0];
pub const OWN: [u16; 4] = [0x0000, 0x1234, 0xfff7, 0xffff];
pub const UPDATE_IDS: [u8; 11] = [0, 1, 2, 100, 126, 127, 128, 129, 200, 254, 255];
pub const LQIS: [u8; 11] = [0, 1, 10, 11, 25, 26, 76, 77, 127, 128, 255];
pub const GOOD_LQIS: [u8; 6] = [26, 76, 77, 127, 128, 255];
pub const IEEES: [u64; 4] = [0, 0x1111_1111_1111_1111, 0x2222_2222_2222_2222, 0xfedc_ba98_7654_3210];
pub const OWN_IEEES: [u64; 2] = [0x0011_2233_4455_6677, 0xffff_ffff_ffff_ffff];
pub const PANS: [u16; 4] = [0x0011, 0x0022, 0xabcd, 0xffff];
pub const CHANNELS: [u8; 7] = [11, 15, 20, 25, 26, 0, 255];
pub const CAPABILITIES: [u8; 10] = [0x00, 0x02, 0x80, 0x8e, 0x8c, 0x40, 0xff, 0xfd, 0x4a, 0x31];
pub const TICKS: [u32; 8] = [0, 1, 2, 9999, 10000, 10001, 983_040_000, u32::MAX];
pub const TIMERS: [u32; 7] = [0, 1, 2, 9999, 10000, 983_040_000, u32::MAX];
pub const INDEXES: [u8; 19] = [0, 1, 2, 3, 4, 5, 6, 7, 8, 9, 10, 11, 12, 13, 14, 15, 16, 17, 255];
pub const SEQUENCES: [u8; 8] = [250, 251, 252, 253, 254, 255, 0, 1];

/// What entries and beacons of one scenario are like.
#[derive(Clone, Copy)]
pub struct Flavour {
    /// network most of them belong to
    pub epid: u64,
    pub same_network: u64,
    pub good: u64,
    /// 0: one update id, 1: two, 2: the pool
    pub updates: u8,
    pub update_a: u8,
    pub update_b: u8,
    /// 0: ties, 1: 0..=15, 2: 0..=255 (entries only)
    pub depths: u8,
    pub distinct: bool,
}

impl Flavour {
    pub fn new(r: &mut Rng) -> Self {
        let update_a = r.pick(&UPDATE_IDS);
        Self {
            epid: r.pick(&EPIDS[..3]),
            same_network: r.pick(&[300, 600, 850, 1000]),
            good: r.pick(&[300, 700, 900, 980]),
            updates: r.weighted(&[3, 3, 2]) as u8,
            update_a,
            update_b: update_a.wrapping_add(r.pick(&[1, 2, 127, 128, 129, 255])),
            depths: r.weighted(&[3, 3, 1]) as u8,
            distinct: r.chance(400),
        }
    }
    fn update_id(&self, r: &mut Rng) -> u8 {
        match self.updates {
            0 => self.update_a,
            1 => r.pick(&[self.update_a, self.update_b]),
            _ => r.pick(&UPDATE_IDS),
        }
    }
    fn network(&self, r: &mut Rng) -> u64 {
        if r.chance(self.same_network) { self.epid } else { r.pick(&EPIDS) }
    }
    fn lqi(&self, r: &mut Rng) -> u8 {
        if r.chance(self.good) { r.pick(&GOOD_LQIS) } else { r.pick(&LQIS) }
    }
    fn short(&self, r: &mut Rng, i: usize) -> u16 {
        if self.distinct && r.chance(900) { 0x2000 + i as u16 } else { r.pick(&SHORTS) }
    }
}

pub fn entry(r: &mut Rng, f: &Flavour, i: usize) -> Entry {
    Entry {
        ieee: r.pick(&IEEES),
        address: f.short(r, i),
        device_type: r.pick(&[0, 1, 2, 1, 7, 255]),
        rx_on: r.flag(),
        configuration: r.pick(&[0, 1, 65535]),
        relationship: r.pick(&[3, 3, 3, 1, 2, 4, 5]),
        lqi: f.lqi(r),
        outgoing_cost: r.pick(&[0, 0, 1, 3, 5, 7, 255]),
        age: r.pick(&[0, 1, 255]),
        keepalive: r.flag(),
        epid: f.network(r),
        channel: r.pick(&CHANNELS),
        depth: match f.depths {
            0 => r.pick(&[1, 2, 2, 3]),
            1 => r.below(16) as u8,
            _ => r.byte(),
        },
        permit: r.chance(f.good),
        potential: if r.chance(f.good) { 1 } else { r.pick(&[0, 1, 2]) },
        router: r.chance(f.good),
        end_device: r.chance(f.good),
        update_id: f.update_id(r),
        pan: r.pick(&PANS),
    }
}

pub fn beacon(r: &mut Rng, f: &Flavour, short: bool, i: usize) -> Beacon {
    Beacon {
        channel: r.pick(&CHANNELS),
        pan: r.pick(&PANS),
        address: if short { BeaconAddress::Short(f.short(r, i)) } else { BeaconAddress::Extended(r.pick(&IEEES)) },
        epid: f.network(r),
        permit: r.chance(f.good),
        router: r.chance(f.good),
        end_device: r.chance(f.good),
        depth: if f.depths == 0 { r.pick(&[1, 2, 2, 3]) } else { r.below(16) as u8 },
        update_id: f.update_id(r),
        lqi: f.lqi(r),
        stack_profile: r.pick(&[0, 1, 2, 15]),
        version: r.pick(&[0, 2, 3, 15]),
        beacon_order: r.pick(&[15, 0, 6, 14]),
        superframe_order: r.pick(&[15, 0, 6, 14]),
    }
}

/// At most 27, at most 16 of them short-addressed.
pub fn beacons(r: &mut Rng, f: &Flavour) -> Vec<Beacon> {
    let (shorts, longs) = match r.weighted(&[1, 3, 6, 3, 2]) {
        0 => (0, r.pick(&[0, 0, 1, 27])),
        1 => (r.range(1, 3), r.below(3)),
        2 => (r.range(4, 15), r.below(5)),
        3 => (16, r.pick(&[0, 0, 1])),
        _ => (r.range(10, 16), 11),
    };
    let mut kinds: Vec<bool> = (0..shorts).map(|_| true).chain((0..longs).map(|_| false)).collect();
    for i in (1..kinds.len()).rev() {
        kinds.swap(i, r.below(i as u64 + 1) as usize);
    }
    kinds.iter().enumerate().map(|(i, short)| beacon(r, f, *short, i)).collect()
}

#[derive(Clone, Copy, PartialEq, Eq, Debug)]
enum Theme {
    Candidates,
    Join,
    Rejoin,
    LongRejoin,
    Send,
    Timeout,
    Receive,
    Mixed,
}

struct Plan {
    theme: Theme,
    flavour: Flavour,
    between: u64,
    state: u64,
    scan_fail: u64,
    associated: u64,
    send_fail: u64,
    noise: u64,
    leave: u64,
    /// response at poll 1..=20 of a try, 21 for none; 0 for any
    respond_at: u8,
    respond_ok: u64,
    /// calls that are refused
    stray: u64,
}

impl Plan {
    fn new(r: &mut Rng) -> Self {
        let theme =
            [Theme::Candidates, Theme::Join, Theme::Rejoin, Theme::LongRejoin, Theme::Send, Theme::Timeout, Theme::Receive, Theme::Mixed]
                [r.weighted(&[11, 19, 27, 3, 10, 10, 10, 10])];
        let mut flavour = Flavour::new(r);
        if matches!(theme, Theme::Join | Theme::Rejoin) && r.chance(600) {
            // many candidates
            flavour.same_network = r.pick(&[850, 1000]);
            flavour.good = r.pick(&[900, 980, 1000]);
            flavour.updates = r.weighted(&[5, 1]) as u8;
        }
        let sendfails: &[u64] = match theme {
            Theme::Rejoin => &[0, 0, 0, 50, 300, 1000],
            Theme::Timeout => &[0, 0, 50, 300],
            _ => &[0, 50, 300, 700, 1000],
        };
        Self {
            theme,
            flavour,
            between: r.pick(&[0, 50, 200, 600]),
            state: r.pick(&[0, 20, 100]),
            scan_fail: r.pick(&[0, 50, 300]),
            associated: r.pick(&[0, 50, 100, 300, 800]),
            send_fail: r.pick(sendfails),
            noise: r.pick(&[0, 30, 150, 600]),
            leave: if theme == Theme::LongRejoin { r.pick(&[0, 100, 1000, 1000]) } else { r.pick(&[0, 0, 20, 100, 300, 800]) },
            respond_at: r.pick(&[0, 0, 0, 0, 21, 1, 2, 3, 19, 20]),
            respond_ok: r.pick(&[0, 0, 100, 300, 1000]),
            stray: r.pick(&[0, 0, 0, 0, 0, 0, 50, 300]),
        }
    }
}

fn node(r: &mut Rng, p: &Plan) -> Node {
    let network_address = match p.theme {
        Theme::LongRejoin => 0x1234,
        Theme::Join if r.chance(880) => 0xffff,
        Theme::Rejoin | Theme::Send | Theme::Timeout if r.chance(900) => r.pick(&[0x1234, 0x1234, 0xfff7, 0x0000]),
        _ => r.pick(&OWN),
    };
    let pending = if r.flag() { 255 } else { r.pick(&INDEXES) };
    Node {
        network_address,
        ieee: r.pick(&OWN_IEEES),
        epid: match p.theme {
            Theme::LongRejoin => p.flavour.epid,
            Theme::Rejoin => match r.weighted(&[15, 3, 2]) {
                0 => p.flavour.epid,
                1 => 0,
                _ => r.pick(&EPIDS),
            },
            _ if r.chance(600) => p.flavour.epid,
            _ => r.pick(&EPIDS),
        },
        pan: r.pick(&PANS),
        update_id: r.pick(&UPDATE_IDS),
        capability: r.pick(&CAPABILITIES),
        stack_profile: r.pick(&[0, 1, 1, 2]),
        parent_information: r.pick(&[0, 1, 2, 3, 255]),
        timeout: if r.chance(400) { 255 } else { r.pick(&INDEXES) },
        timeout_default: match r.weighted(&[6, 2, 12]) {
            0 => 8,
            1 => 255,
            _ => r.pick(&INDEXES),
        },
        leave_allowed: r.chance(if p.theme == Theme::LongRejoin { 950 } else { 700 }),
        sequence: r.pick(&SEQUENCES),
        pending,
        timer: r.pick(&TIMERS),
    }
}

fn entries(r: &mut Rng, p: &Plan) -> Vec<Entry> {
    let n = match r.weighted(&[1, 5, 6, 5]) {
        0 if p.theme == Theme::LongRejoin => 1,
        0 => 0,
        1 => r.range(1, 3),
        2 => r.range(4, 15),
        _ => 16,
    } as usize;
    let mut list: Vec<Entry> = (0..n).map(|i| entry(r, &p.flavour, i)).collect();
    let parents = match p.theme {
        Theme::Candidates | Theme::Join => r.weighted(&[7, 2, 1]),
        Theme::LongRejoin => 1,
        Theme::Rejoin => r.weighted(&[3, 6, 2, 1]),
        _ => r.weighted(&[1, 8, 2, 1]),
    };
    for _ in 0..parents {
        if n > 0 {
            let i = r.below(n as u64) as usize;
            list[i].relationship = 0;
        }
    }
    list
}

fn failures(r: &mut Rng, parent: Option<u16>) -> Vec<(u16, u8)> {
    let mut list: Vec<(u16, u8)> = match r.weighted(&[5, 3, 3]) {
        0 => Vec::new(),
        1 => (0..r.range(1, 5)).map(|_| (r.pick(&SHORTS), r.pick(&[0, 1, 2, 2, 3, 255]))).collect(),
        _ => {
            let n = r.pick(&[14, 15, 16, 16, 16]);
            (0..n).map(|i| (0x4000 + i, r.pick(&[1, 2, 2]))).collect()
        }
    };
    if let Some(a) = parent
        && !list.is_empty()
        && r.chance(if list.len() < 14 { 600 } else { 250 })
    {
        let i = r.below(list.len() as u64) as usize;
        list[i] = (a, r.pick(&[0, 1, 2, 3, 254, 255]));
    }
    list
}

fn parent_of(entries: &[Entry]) -> Option<u16> {
    entries.iter().find(|e| e.relationship == 0).map(|e| e.address)
}

fn start(r: &mut Rng, p: &Plan) -> Start {
    let (from, to) = match r.weighted(&[7, 1, 1, 1]) {
        0 => (11, 27),
        1 => (26, 26),
        2 => (20, 11),
        _ => (0, 255),
    };
    let duration = r.pick(&[0, 3, 14, 255]);
    let kind = match p.theme {
        Theme::Join => r.weighted(&[20, 1, 1, 1]),
        Theme::Rejoin | Theme::LongRejoin => r.weighted(&[0, 0, 1, 0]),
        _ => r.weighted(&[3, 1, 4, 1]),
    } as u8;
    let epid = match p.theme {
        Theme::LongRejoin => 0,
        Theme::Rejoin if r.chance(300) => 0,
        Theme::Join | Theme::Rejoin if r.chance(850) => p.flavour.epid,
        _ if r.chance(600) => p.flavour.epid,
        _ => r.pick(&EPIDS),
    };
    let join = Start::Join {
        kind,
        epid,
        capability: r.pick(&CAPABILITIES),
        security: r.flag(),
        from: if p.theme == Theme::LongRejoin { 11 } else { from },
        to: if p.theme == Theme::LongRejoin { 27 } else { to },
        duration,
    };
    let send = Start::Send { destination: r.pick(&SHORTS), secure: r.flag() };
    let discovery = Start::Discovery { from, to, duration };
    let pick = match p.theme {
        Theme::Candidates => [1, 0, 0, 0, 0, 0, 0],
        Theme::Join => [5, 10, 1, 1, 0, 1, 0],
        Theme::Rejoin => [1, 12, 1, 1, 1, 1, 1],
        Theme::LongRejoin => [0, 1, 0, 0, 0, 0, 0],
        Theme::Send => [0, 0, 20, 1, 1, 1, 1],
        Theme::Timeout => [0, 0, 2, 2, 1, 8, 8],
        Theme::Receive => [0, 0, 1, 8, 8, 1, 1],
        Theme::Mixed => [2, 3, 2, 2, 2, 2, 2],
    };
    match r.weighted(&pick) {
        0 => discovery,
        1 => join,
        2 => send,
        3 => Start::Poll,
        4 => Start::Receive,
        5 => Start::Negotiate,
        _ => Start::Keepalive,
    }
}

fn maybe_ieee(r: &mut Rng) -> Option<u64> {
    if r.chance(450) { None } else { Some(r.pick(&IEEES)) }
}

fn source(r: &mut Rng, entries: &[Entry]) -> u16 {
    match r.weighted(&[4, 3, 3]) {
        0 => parent_of(entries).unwrap_or(0x1a2b),
        1 if !entries.is_empty() => entries[r.below(entries.len() as u64) as usize].address,
        _ => r.pick(&SHORTS),
    }
}

fn leave(r: &mut Rng, s: &Driver) -> Frame {
    let entries = s.entries();
    let own = s.node().network_address;
    Frame::Leave {
        source: source(r, &entries),
        ieee: maybe_ieee(r),
        destination: if r.chance(600) { own } else { r.pick(&SHORTS) },
        request: r.chance(550),
        rejoin: r.chance(550),
        children: r.chance(300),
    }
}

fn rejoin_response(r: &mut Rng, s: &Driver, ok: u64) -> Frame {
    Frame::RejoinResponse {
        source: source(r, &s.entries()),
        ieee: maybe_ieee(r),
        address: r.pick(&[0x1234, 0x5678, 0x0000, 0xfff7, 0xffff]),
        status: if r.chance(ok) { 0 } else { r.pick(&[1, 1, 1, 2, 2, 2, 3, 240, 255, 128]) },
    }
}

fn timeout_response(r: &mut Rng, s: &Driver) -> Frame {
    Frame::TimeoutResponse {
        source: source(r, &s.entries()),
        ieee: maybe_ieee(r),
        status: if r.chance(700) { 0 } else { r.pick(&[1, 2, 255]) },
        information: r.pick(&[0, 1, 2, 3, 7, 255]),
    }
}

fn noise(r: &mut Rng, s: &Driver) -> Outcome {
    Outcome::Frame(match r.weighted(&[4, 2, 2, 2, 1, 1]) {
        0 => Frame::Data { source: source(r, &s.entries()), ieee: maybe_ieee(r) },
        1 => Frame::Command { source: source(r, &s.entries()), ieee: maybe_ieee(r) },
        2 => Frame::Undecodable,
        3 => Frame::Other,
        4 => timeout_response(r, s),
        _ => return Outcome::PollFail,
    })
}

fn short_beacons(r: &mut Rng, f: &Flavour, shorts: usize, longs: usize) -> Outcome {
    Outcome::Scan((0..shorts + longs).map(|i| beacon(r, f, i < shorts, i)).collect())
}

/// A call that is refused: a start while an operation is under way, an outcome that nothing awaits, too large a scan.
pub fn stray(r: &mut Rng, s: &Driver, f: &Flavour) -> Call {
    let awaited = s.awaited();
    if awaited.is_some() && r.chance(400) {
        return Call::Start(match r.below(7) {
            0 => Start::Discovery { from: 11, to: 27, duration: 3 },
            1 => Start::Join {
                kind: r.below(4) as u8,
                epid: r.pick(&EPIDS),
                capability: r.pick(&CAPABILITIES),
                security: r.flag(),
                from: 11,
                to: 27,
                duration: 3,
            },
            2 => Start::Send { destination: r.pick(&SHORTS), secure: r.flag() },
            3 => Start::Poll,
            4 => Start::Receive,
            5 => Start::Negotiate,
            _ => Start::Keepalive,
        });
    }
    if awaited == Some(Kind::Scan) && r.chance(500) {
        return Call::Outcome(match r.below(3) {
            0 => short_beacons(r, f, 16, 12),
            1 => short_beacons(r, f, 17, 11),
            _ => short_beacons(r, f, 17, 10),
        });
    }
    loop {
        let outcome = match r.below(9) {
            0 => short_beacons(r, f, 2, 1),
            1 => short_beacons(r, f, 20, 10),
            2 => Outcome::ScanFail,
            3 => Outcome::Associate { status: r.pick(&[0, 1, 2]), address: 0x5678, ieee: r.pick(&OWN_IEEES) },
            4 => Outcome::AssociateFail,
            5 => {
                if r.flag() {
                    Outcome::Sent
                } else {
                    Outcome::SendFail
                }
            }
            6 => {
                if r.flag() {
                    Outcome::NoData
                } else {
                    Outcome::PollFail
                }
            }
            7 => Outcome::Frame(leave(r, s)),
            _ => Outcome::Frame(rejoin_response(r, s, 500)),
        };
        if !awaited.is_some_and(|kind| kind.takes(&outcome)) {
            return Call::Outcome(outcome);
        }
    }
}

/// The trace of one scenario, appended to `out`. With numbers of their own for it, `refresh` is mixed in: the others are then drawn as without.
pub fn scenario(r: &mut Rng, s: &mut Driver, out: &mut String, mut refresh: Option<Rng>) {
    let p = Plan::new(r);
    let mut log: Vec<String> = Vec::new();
    let mut emit = |s: &mut Driver, log: &mut Vec<String>, call: Call| {
        let lines = s.feed(&call).unwrap_or_else(|e| panic!("{}: {e}", call.text()));
        call.write(out);
        log.extend(lines);
    };

    let table = entries(r, &p);
    emit(s, &mut log, Call::Node(node(r, &p)));
    for e in &table {
        emit(s, &mut log, Call::Entry(e.clone()));
    }
    for (a, n) in failures(r, parent_of(&table)) {
        emit(s, &mut log, Call::Failure(a, n));
    }

    let operations = match p.theme {
        Theme::Candidates => r.below(2),
        Theme::LongRejoin => 1,
        Theme::Send => r.range(2, 10),
        Theme::Join => r.range(1, 4),
        _ => r.range(1, 5),
    };
    let mut candidates = if p.theme == Theme::Candidates { r.range(3, 8) } else { r.below(2) };
    // join after a discovery more often than on the table of the start
    let mut discover_first = p.theme == Theme::Join && r.chance(650);
    let stop_in_the_middle = r.chance(40);
    let mut started = 0;
    let mut polls = 0u32;
    let mut respond_at = 0u32;
    loop {
        // between calls
        if refresh.as_mut().is_some_and(|own| own.chance(150)) {
            emit(s, &mut log, Call::Refresh);
        }
        if r.chance(p.between) {
            let call = match r.weighted(&[6, 2, 2, 1]) {
                0 => Call::Tick(if r.chance(500) { r.pick(&[0, 1]) } else { r.pick(&TICKS) }),
                1 => Call::TakeLeave,
                2 => Call::TakeStatus,
                _ => Call::Candidates { epid: r.pick(&EPIDS), router: r.flag(), permit: r.flag() },
            };
            emit(s, &mut log, call);
        }
        if r.chance(p.stray) {
            let call = stray(r, s, &p.flavour);
            emit(s, &mut log, call);
        }
        if r.chance(p.state) {
            emit(s, &mut log, Call::State);
        }
        let Some(kind) = s.awaited() else {
            while candidates > 0 && (p.theme == Theme::Candidates || r.chance(500)) {
                candidates -= 1;
                let epid = if r.flag() { p.flavour.epid } else { r.pick(&EPIDS) };
                emit(s, &mut log, Call::Candidates { epid, router: r.flag(), permit: r.flag() });
            }
            if started == operations {
                break;
            }
            started += 1;
            let call = if discover_first {
                discover_first = false;
                Start::Discovery { from: 11, to: 27, duration: 3 }
            } else {
                start(r, &p)
            };
            log.clear();
            polls = 0;
            respond_at = if p.respond_at == 0 { r.range(1, 5) as u32 } else { p.respond_at.into() };
            emit(s, &mut log, Call::Start(call));
            continue;
        };
        if stop_in_the_middle && r.chance(150) {
            break;
        }
        let rejoining = log.iter().any(|l| l.contains("\trejoinrequest\t"));
        let negotiating = log.iter().any(|l| l.contains("\ttimeoutrequest\t"));
        let outcome = match kind {
            Kind::Scan if p.theme == Theme::LongRejoin => {
                // sixteen good ones of the network remembered
                let f = Flavour { same_network: 1000, good: 1000, updates: 0, ..p.flavour };
                let epid = s.node().epid;
                Outcome::Scan(
                    (0..16)
                        .map(|i| {
                            let mut b = beacon(r, &f, true, i);
                            b.epid = epid;
                            b
                        })
                        .collect(),
                )
            }
            Kind::Scan if r.chance(p.scan_fail) => Outcome::ScanFail,
            Kind::Scan => Outcome::Scan(beacons(r, &p.flavour)),
            Kind::Associate if r.chance(p.associated) => {
                Outcome::Associate { status: 0, address: r.pick(&[0x1234, 0x5678, 0x0000, 0xffff]), ieee: r.pick(&OWN_IEEES) }
            }
            Kind::Associate if r.chance(200) => Outcome::AssociateFail,
            Kind::Associate => Outcome::Associate {
                status: r.pick(&[1, 1, 2, 2, 3, 240, 128, 255]),
                address: r.pick(&[0xffff, 0x1234]),
                ieee: r.pick(&OWN_IEEES),
            },
            Kind::Transmit => {
                if log.iter().rev().find(|l| l.starts_with("transmit\t")).is_some_and(|l| l.contains("\trejoinrequest\t")) {
                    polls = 0;
                    respond_at = if p.respond_at == 0 { r.range(1, 24) as u32 } else { p.respond_at.into() };
                }
                let announcement = log.iter().rev().find(|l| l.starts_with("transmit\t")).is_some_and(|l| l.contains("\tleave\t"));
                let fail = if p.theme == Theme::LongRejoin {
                    0
                } else if announcement {
                    300
                } else {
                    p.send_fail
                };
                if r.chance(fail) { Outcome::SendFail } else { Outcome::Sent }
            }
            Kind::Poll | Kind::Receive => {
                polls += 1;
                if p.theme == Theme::LongRejoin {
                    if r.chance(p.leave) {
                        let own = s.node().network_address;
                        let parent = parent_of(&s.entries()).unwrap_or(0);
                        Outcome::Frame(Frame::Leave {
                            source: parent,
                            ieee: None,
                            destination: if own >= 0xfff8 { 1 } else { own },
                            request: true,
                            rejoin: p.leave == 1000 || r.chance(950),
                            children: r.flag(),
                        })
                    } else {
                        Outcome::NoData
                    }
                } else if (rejoining || negotiating) && polls == respond_at {
                    if rejoining { Outcome::Frame(rejoin_response(r, s, p.respond_ok)) } else { Outcome::Frame(timeout_response(r, s)) }
                } else if r.chance(p.leave) {
                    Outcome::Frame(leave(r, s))
                } else if r.chance(p.noise) {
                    noise(r, s)
                } else if rejoining || negotiating || r.chance(150) {
                    if r.chance(50) { Outcome::PollFail } else { Outcome::NoData }
                } else {
                    match r.weighted(&[4, 3, 3, 3]) {
                        0 => Outcome::Frame(leave(r, s)),
                        1 => Outcome::Frame(rejoin_response(r, s, 500)),
                        2 => Outcome::Frame(timeout_response(r, s)),
                        _ => noise(r, s),
                    }
                }
            }
        };
        emit(s, &mut log, Call::Outcome(outcome));
    }
    emit(s, &mut log, Call::State);
}

/// Scenarios `from` to `from + n` of those of the seed.
pub fn generate(seed: u64, n: u64, from: u64, refresh: bool) -> String {
    let mut out = String::new();
    let mut driver = Driver::new();
    let mut r = Rng::new(seed);
    for i in 0..from + n {
        // each scenario has a seed of its own
        let own = r.next();
        if i >= from {
            scenario(&mut Rng::new(own), &mut driver, &mut out, refresh.then(|| Rng::new(!own)));
        }
    }
    out
}
