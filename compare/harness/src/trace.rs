//! The lines of a trace, read and written.
use core::fmt::Write;

#[derive(Debug, Clone, PartialEq, Eq)]
pub struct Node {
    pub network_address: u16,
    pub ieee: u64,
    pub epid: u64,
    pub pan: u16,
    pub update_id: u8,
    pub capability: u8,
    pub stack_profile: u8,
    pub parent_information: u8,
    pub timeout: u8,
    pub timeout_default: u8,
    pub leave_allowed: bool,
    pub sequence: u8,
    pub pending: u8,
    pub timer: u32,
}

#[derive(Debug, Clone, PartialEq, Eq)]
pub struct Entry {
    pub ieee: u64,
    pub address: u16,
    pub device_type: u8,
    pub rx_on: bool,
    pub configuration: u16,
    pub relationship: u8,
    pub lqi: u8,
    pub outgoing_cost: u8,
    pub age: u8,
    pub keepalive: bool,
    pub epid: u64,
    pub channel: u8,
    pub depth: u8,
    pub permit: bool,
    pub potential: u8,
    pub router: bool,
    pub end_device: bool,
    pub update_id: u8,
    pub pan: u16,
}

#[derive(Debug, Clone, Copy, PartialEq, Eq)]
pub enum BeaconAddress {
    Short(u16),
    Extended(u64),
}

#[derive(Debug, Clone, PartialEq, Eq)]
pub struct Beacon {
    pub channel: u8,
    pub pan: u16,
    pub address: BeaconAddress,
    pub epid: u64,
    pub permit: bool,
    pub router: bool,
    pub end_device: bool,
    pub depth: u8,
    pub update_id: u8,
    pub lqi: u8,
    pub stack_profile: u8,
    pub version: u8,
    pub beacon_order: u8,
    pub superframe_order: u8,
}

/// A frame that a poll or a receive brings.
#[derive(Debug, Clone, PartialEq, Eq)]
pub enum Frame {
    Undecodable,
    Data { source: u16, ieee: Option<u64> },
    RejoinResponse { source: u16, ieee: Option<u64>, address: u16, status: u8 },
    TimeoutResponse { source: u16, ieee: Option<u64>, status: u8, information: u8 },
    Leave { source: u16, ieee: Option<u64>, destination: u16, request: bool, rejoin: bool, children: bool },
    Command { source: u16, ieee: Option<u64> },
    Other,
}

#[derive(Debug, Clone, PartialEq, Eq)]
pub enum Outcome {
    Scan(Vec<Beacon>),
    ScanFail,
    Associate { status: u8, address: u16, ieee: u64 },
    AssociateFail,
    Sent,
    SendFail,
    NoData,
    PollFail,
    Frame(Frame),
}

#[derive(Debug, Clone, PartialEq, Eq)]
pub enum Start {
    Discovery { from: u8, to: u8, duration: u8 },
    Join { kind: u8, epid: u64, capability: u8, security: bool, from: u8, to: u8, duration: u8 },
    Send { destination: u16, secure: bool },
    Poll,
    Receive,
    Negotiate,
    Keepalive,
}

#[derive(Debug, Clone, PartialEq, Eq)]
pub enum Call {
    Node(Node),
    Entry(Entry),
    Failure(u16, u8),
    Start(Start),
    Outcome(Outcome),
    Tick(u32),
    TakeLeave,
    TakeStatus,
    Refresh,
    Candidates { epid: u64, router: bool, permit: bool },
    State,
}

// ---- writing ----

fn ieee(a: Option<u64>) -> String {
    a.map_or("-".to_string(), |a| format!("{a:016x}"))
}

fn b(v: bool) -> u8 {
    u8::from(v)
}

impl Node {
    pub fn line(&self) -> String {
        format!(
            "node\t{:04x}\t{:016x}\t{:016x}\t{:04x}\t{}\t{}\t{}\t{}\t{}\t{}\t{}\t{}\t{}\t{}",
            self.network_address,
            self.ieee,
            self.epid,
            self.pan,
            self.update_id,
            self.capability,
            self.stack_profile,
            self.parent_information,
            self.timeout,
            self.timeout_default,
            b(self.leave_allowed),
            self.sequence,
            self.pending,
            self.timer
        )
    }
}

impl Entry {
    pub fn line(&self) -> String {
        format!(
            "e\t{:016x}\t{:04x}\t{}\t{}\t{}\t{}\t{}\t{}\t{}\t{}\t{:016x}\t{}\t{}\t{}\t{}\t{}\t{}\t{}\t{:04x}",
            self.ieee,
            self.address,
            self.device_type,
            b(self.rx_on),
            self.configuration,
            self.relationship,
            self.lqi,
            self.outgoing_cost,
            self.age,
            b(self.keepalive),
            self.epid,
            self.channel,
            self.depth,
            b(self.permit),
            self.potential,
            b(self.router),
            b(self.end_device),
            self.update_id,
            self.pan
        )
    }
}

impl Beacon {
    pub fn line(&self) -> String {
        let (mode, address) = match self.address {
            BeaconAddress::Short(a) => (2, format!("{a:04x}")),
            BeaconAddress::Extended(a) => (3, format!("{a:016x}")),
        };
        format!(
            "b\t{}\t{:04x}\t{mode}\t{address}\t{:016x}\t{}\t{}\t{}\t{}\t{}\t{}\t{}\t{}\t{}\t{}",
            self.channel,
            self.pan,
            self.epid,
            b(self.permit),
            b(self.router),
            b(self.end_device),
            self.depth,
            self.update_id,
            self.lqi,
            self.stack_profile,
            self.version,
            self.beacon_order,
            self.superframe_order
        )
    }
}

impl Frame {
    pub fn line(&self) -> String {
        match self {
            Frame::Undecodable => "undecodable".to_string(),
            Frame::Data { source, ieee: i } => format!("data\t{source:04x}\t{}", ieee(*i)),
            Frame::RejoinResponse { source, ieee: i, address, status } => {
                format!("rejoinresponse\t{source:04x}\t{}\t{address:04x}\t{status}", ieee(*i))
            }
            Frame::TimeoutResponse { source, ieee: i, status, information } => {
                format!("timeoutresponse\t{source:04x}\t{}\t{status}\t{information}", ieee(*i))
            }
            Frame::Leave { source, ieee: i, destination, request, rejoin, children } => {
                format!("leave\t{source:04x}\t{}\t{destination:04x}\t{}\t{}\t{}", ieee(*i), b(*request), b(*rejoin), b(*children))
            }
            Frame::Command { source, ieee: i } => format!("command\t{source:04x}\t{}", ieee(*i)),
            Frame::Other => "otherframe".to_string(),
        }
    }
}

impl Call {
    /// The line, or for a scan the lines, each with its line feed.
    pub fn write(&self, out: &mut String) {
        let line = match self {
            Call::Node(n) => n.line(),
            Call::Entry(e) => e.line(),
            Call::Failure(a, n) => format!("f\t{a:04x}\t{n}"),
            Call::Start(s) => match s {
                Start::Discovery { from, to, duration } => format!("discovery\t{from}\t{to}\t{duration}"),
                Start::Join { kind, epid, capability, security, from, to, duration } => {
                    format!("join\t{kind}\t{epid:016x}\t{capability}\t{}\t{from}\t{to}\t{duration}", b(*security))
                }
                Start::Send { destination, secure } => format!("send\t{destination:04x}\t{}", b(*secure)),
                Start::Poll => "poll".to_string(),
                Start::Receive => "receive".to_string(),
                Start::Negotiate => "negotiate".to_string(),
                Start::Keepalive => "keepalive".to_string(),
            },
            Call::Outcome(o) => match o {
                Outcome::Scan(beacons) => {
                    let mut s = format!("scan\t{}", beacons.len());
                    for beacon in beacons {
                        let _ = write!(s, "\n{}", beacon.line());
                    }
                    s
                }
                Outcome::ScanFail => "scanfail".to_string(),
                Outcome::Associate { status, address, ieee } => {
                    format!("associate\t{status}\t{address:04x}\t{ieee:016x}")
                }
                Outcome::AssociateFail => "associatefail".to_string(),
                Outcome::Sent => "sent".to_string(),
                Outcome::SendFail => "sendfail".to_string(),
                Outcome::NoData => "nodata".to_string(),
                Outcome::PollFail => "pollfail".to_string(),
                Outcome::Frame(f) => f.line(),
            },
            Call::Tick(ms) => format!("tick\t{ms}"),
            Call::TakeLeave => "takeleave".to_string(),
            Call::TakeStatus => "takestatus".to_string(),
            Call::Refresh => "refresh".to_string(),
            Call::Candidates { epid, router, permit } => {
                format!("candidates\t{epid:016x}\t{}\t{}", b(*router), b(*permit))
            }
            Call::State => "state".to_string(),
        };
        out.push_str(&line);
        out.push('\n');
    }

    pub fn text(&self) -> String {
        let mut s = String::new();
        self.write(&mut s);
        s
    }
}

// ---- reading ----

struct Fields<'a> {
    it: core::str::Split<'a, char>,
}

type Res<T> = Result<T, String>;

impl<'a> Fields<'a> {
    fn word(&mut self) -> Res<&'a str> {
        self.it.next().ok_or_else(|| "field missing".to_string())
    }
    fn hex(&mut self, digits: usize) -> Res<u64> {
        let w = self.word()?;
        if w.len() != digits || !w.bytes().all(|c| matches!(c, b'0'..=b'9' | b'a'..=b'f')) {
            return Err(format!("{digits} lower-case hex digits wanted, got {w:?}"));
        }
        Ok(u64::from_str_radix(w, 16).unwrap())
    }
    fn short(&mut self) -> Res<u16> {
        Ok(self.hex(4)? as u16)
    }
    fn long(&mut self) -> Res<u64> {
        self.hex(16)
    }
    fn long_or_none(&mut self) -> Res<Option<u64>> {
        if self.it.clone().next() == Some("-") {
            self.it.next();
            return Ok(None);
        }
        self.long().map(Some)
    }
    fn number(&mut self, max: u64) -> Res<u64> {
        let w = self.word()?;
        let good = !w.is_empty() && w.len() <= 10 && w.bytes().all(|c| c.is_ascii_digit()) && (w == "0" || !w.starts_with('0'));
        match w.parse::<u64>() {
            Ok(v) if good && v <= max => Ok(v),
            _ => Err(format!("decimal of at most {max} wanted, got {w:?}")),
        }
    }
    fn byte(&mut self) -> Res<u8> {
        Ok(self.number(255)? as u8)
    }
    fn nibble(&mut self) -> Res<u8> {
        Ok(self.number(15)? as u8)
    }
    fn flag(&mut self) -> Res<bool> {
        Ok(self.number(1)? != 0)
    }
    fn end(&mut self) -> Res<()> {
        match self.it.next() {
            None => Ok(()),
            Some(w) => Err(format!("surplus field {w:?}")),
        }
    }
}

fn beacon(line: &str) -> Res<Beacon> {
    let mut f = Fields { it: line.split('\t') };
    if f.word()? != "b" {
        return Err("a `b` line wanted".to_string());
    }
    let beacon = Beacon {
        channel: f.byte()?,
        pan: f.short()?,
        address: match f.byte()? {
            2 => BeaconAddress::Short(f.short()?),
            3 => BeaconAddress::Extended(f.long()?),
            m => return Err(format!("address mode {m}")),
        },
        epid: f.long()?,
        permit: f.flag()?,
        router: f.flag()?,
        end_device: f.flag()?,
        // 4 bits each in the source's types
        depth: f.nibble()?,
        update_id: f.byte()?,
        lqi: f.byte()?,
        stack_profile: f.nibble()?,
        version: f.nibble()?,
        beacon_order: f.nibble()?,
        superframe_order: f.nibble()?,
    };
    f.end()?;
    Ok(beacon)
}

/// The number of a bad line, and what is wrong with it.
pub type Bad = (usize, String);

/// The whole input as calls, each with the number of its (first) line; then, where a line is bad, its number and why. An unended last line
/// is bad, and so is the end of the input where a `b` line is due: its number is that of the missing line.
pub fn parse(input: &str) -> (Vec<(usize, Call)>, Option<Bad>) {
    let mut lines: Vec<&str> = input.split('\n').collect();
    let unended = lines.pop().is_some_and(|l| !l.is_empty());
    let mut calls = Vec::new();
    let mut at = 0;
    while at < lines.len() {
        let first = at + 1;
        match parse_call(&lines, &mut at) {
            Ok(call) => calls.push((first, call)),
            Err(why) => return (calls, Some((at + 1, why))),
        }
    }
    (calls, unended.then(|| (lines.len() + 1, "last line not ended".to_string())))
}

fn parse_call(lines: &[&str], at: &mut usize) -> Res<Call> {
    let mut f = Fields { it: lines[*at].split('\t') };
    let call = match f.word()? {
        "node" => Call::Node(Node {
            network_address: f.short()?,
            ieee: f.long()?,
            epid: f.long()?,
            pan: f.short()?,
            update_id: f.byte()?,
            capability: f.byte()?,
            stack_profile: f.byte()?,
            parent_information: f.byte()?,
            timeout: f.byte()?,
            timeout_default: f.byte()?,
            leave_allowed: f.flag()?,
            sequence: f.byte()?,
            pending: f.byte()?,
            timer: f.number(u32::MAX.into())? as u32,
        }),
        "e" => Call::Entry(Entry {
            ieee: f.long()?,
            address: f.short()?,
            device_type: f.byte()?,
            rx_on: f.flag()?,
            configuration: f.number(65535)? as u16,
            relationship: f.byte()?,
            lqi: f.byte()?,
            outgoing_cost: f.byte()?,
            age: f.byte()?,
            keepalive: f.flag()?,
            epid: f.long()?,
            channel: f.byte()?,
            depth: f.byte()?,
            permit: f.flag()?,
            potential: f.byte()?,
            router: f.flag()?,
            end_device: f.flag()?,
            update_id: f.byte()?,
            pan: f.short()?,
        }),
        "f" => Call::Failure(f.short()?, f.byte()?),
        "discovery" => Call::Start(Start::Discovery { from: f.byte()?, to: f.byte()?, duration: f.byte()? }),
        "join" => Call::Start(Start::Join {
            kind: f.number(3)? as u8,
            epid: f.long()?,
            capability: f.byte()?,
            security: f.flag()?,
            from: f.byte()?,
            to: f.byte()?,
            duration: f.byte()?,
        }),
        "send" => Call::Start(Start::Send { destination: f.short()?, secure: f.flag()? }),
        "poll" => Call::Start(Start::Poll),
        "receive" => Call::Start(Start::Receive),
        "negotiate" => Call::Start(Start::Negotiate),
        "keepalive" => Call::Start(Start::Keepalive),
        "scan" => {
            let n = f.number(u32::MAX.into())? as usize;
            f.end()?;
            let mut beacons = Vec::new();
            for _ in 0..n {
                *at += 1;
                beacons.push(beacon(lines.get(*at).ok_or("`b` line missing")?)?);
            }
            Call::Outcome(Outcome::Scan(beacons))
        }
        "scanfail" => Call::Outcome(Outcome::ScanFail),
        "associate" => Call::Outcome(Outcome::Associate { status: f.byte()?, address: f.short()?, ieee: f.long()? }),
        "associatefail" => Call::Outcome(Outcome::AssociateFail),
        "sent" => Call::Outcome(Outcome::Sent),
        "sendfail" => Call::Outcome(Outcome::SendFail),
        "nodata" => Call::Outcome(Outcome::NoData),
        "pollfail" => Call::Outcome(Outcome::PollFail),
        "undecodable" => Call::Outcome(Outcome::Frame(Frame::Undecodable)),
        "data" => Call::Outcome(Outcome::Frame(Frame::Data { source: f.short()?, ieee: f.long_or_none()? })),
        "rejoinresponse" => Call::Outcome(Outcome::Frame(Frame::RejoinResponse {
            source: f.short()?,
            ieee: f.long_or_none()?,
            address: f.short()?,
            status: f.byte()?,
        })),
        "timeoutresponse" => Call::Outcome(Outcome::Frame(Frame::TimeoutResponse {
            source: f.short()?,
            ieee: f.long_or_none()?,
            status: f.byte()?,
            information: f.byte()?,
        })),
        "leave" => Call::Outcome(Outcome::Frame(Frame::Leave {
            source: f.short()?,
            ieee: f.long_or_none()?,
            destination: f.short()?,
            request: f.flag()?,
            rejoin: f.flag()?,
            children: f.flag()?,
        })),
        "command" => Call::Outcome(Outcome::Frame(Frame::Command { source: f.short()?, ieee: f.long_or_none()? })),
        "otherframe" => Call::Outcome(Outcome::Frame(Frame::Other)),
        "tick" => Call::Tick(f.number(u32::MAX.into())? as u32),
        "takeleave" => Call::TakeLeave,
        "takestatus" => Call::TakeStatus,
        "refresh" => Call::Refresh,
        "candidates" => Call::Candidates { epid: f.long()?, router: f.flag()?, permit: f.flag()? },
        "state" => Call::State,
        w => return Err(format!("unknown line {w:?}")),
    };
    if !matches!(call, Call::Outcome(Outcome::Scan(_))) {
        f.end()?;
    }
    *at += 1;
    Ok(call)
}
