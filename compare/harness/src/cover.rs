//! What a trace reaches: tags, in how many scenarios and how often.
use std::collections::{BTreeMap, BTreeSet};

use crate::driver::Driver;
use crate::trace::{Bad, Call, Entry, Frame, Outcome, Start};

#[derive(Default)]
pub struct Reached {
    /// how often each tag occurs
    times: BTreeMap<String, usize>,
    /// the tags of each scenario
    scenarios: Vec<BTreeSet<String>>,
    most_outcomes: usize,
}

impl Reached {
    fn add(&mut self, tag: impl Into<String>) {
        let tag = tag.into();
        if let Some(last) = self.scenarios.last_mut() {
            last.insert(tag.clone());
        }
        *self.times.entry(tag).or_default() += 1;
    }

    /// A line for each tag: scenarios, times.
    pub fn together(&self) -> String {
        let mut out = format!("scenarios\t{}\nmost outcomes of one operation\t{}\n", self.scenarios.len(), self.most_outcomes);
        for (tag, times) in &self.times {
            let scenarios = self.scenarios.iter().filter(|s| s.contains(tag)).count();
            out.push_str(&format!("{tag}\t{scenarios}\t{times}\n"));
        }
        out
    }

    /// A line for each scenario: its tags.
    pub fn each(&self) -> String {
        self.scenarios.iter().map(|s| s.iter().cloned().collect::<Vec<_>>().join("\t") + "\n").collect()
    }
}

fn parent(entries: &[Entry]) -> Option<u16> {
    entries.iter().find(|e| e.relationship == 0).map(|e| e.address)
}

fn fold(ids: impl Iterator<Item = u8>) -> Option<u8> {
    ids.reduce(|best, id| if (id.wrapping_sub(best) as i8) > 0 { id } else { best })
}

// the operation under way
#[derive(Default)]
struct Op {
    name: &'static str,
    start: Option<Start>,
    outcomes: usize,
    log: Vec<String>,
    candidates: Option<usize>,
    own_at_start: u16,
    epid_at_start: u64,
    had_parent: bool,
}

fn name(s: &Start) -> &'static str {
    match s {
        Start::Discovery { .. } => "discovery",
        Start::Join { kind: 2, .. } => "rejoin",
        Start::Join { .. } => "join",
        Start::Send { .. } => "send",
        Start::Poll => "poll",
        Start::Receive => "receive",
        Start::Negotiate => "negotiate",
        Start::Keepalive => "keepalive",
    }
}

fn choice(tags: &mut Reached, entries: &[Entry], profile: u8, epid: u64, permit: bool, c: &[usize]) {
    tags.add(format!("choice: {:2} candidates", c.len()));
    if profile == 1 {
        let mut depths: Vec<u8> = c.iter().map(|i| entries[*i].depth).collect();
        depths.sort();
        if depths.windows(2).any(|w| w[0] == w[1]) {
            tags.add("choice: tie in depth under profile 1");
        }
        if c.windows(2).any(|w| w[0] > w[1]) {
            tags.add("choice: order other than by index");
        }
    }
    if epid == 0 {
        tags.add("choice: any network (0)");
    }
    for net in entries.iter().map(|e| e.epid) {
        let ids: Vec<u8> =
            entries.iter().filter(|e| e.epid == net && e.potential == 1 && (!permit || e.permit)).map(|e| e.update_id).collect();
        let newest = fold(ids.iter().copied());
        if newest != ids.iter().copied().max() {
            tags.add("choice: newest id isn't the largest of its network");
        }
        if newest != fold(ids.iter().rev().copied()) {
            tags.add("choice: newest id depends on the order");
        }
    }
}

/// The poll requests of each try.
fn tries(log: &[String]) -> Vec<usize> {
    let mut list: Vec<usize> = Vec::new();
    for l in log {
        if l.contains("\trejoinrequest\t") {
            list.push(0);
        } else if l.starts_with("poll\t")
            && let Some(polls) = list.last_mut()
        {
            *polls += 1;
        }
    }
    list
}

fn confirm(tags: &mut Reached, op: &Op) {
    let Some(line) = op.log.iter().find(|l| l.starts_with("confirm\t")) else { return };
    let status = line.split('\t').nth(1).unwrap();
    tags.add(format!("confirm: {} {status}", op.name));
    let Some(Start::Join { kind, epid, from, to, .. }) = &op.start else { return };
    let asked = op.log.iter().filter(|l| l.starts_with("associate\t")).count();
    let sends = op.log.iter().filter(|l| l.contains("\trejoinrequest\t")).count();
    let adopted = op.log.iter().filter(|l| l.starts_with("setchannel\t")).count();
    let scanned = op.log.iter().any(|l| l.starts_with("scan\t"));
    if *kind == 1 || *kind == 3 {
        tags.add(format!("join: kind {kind} {status}"));
        return;
    }
    if *kind == 0 {
        match (status, asked) {
            ("InvalidRequest", _) => tags.add("join: InvalidRequest, has an address"),
            ("NotPermitted", _) => tags.add("join: NotPermitted, no candidate"),
            ("Success", n) => tags.add(format!("join: Success at candidate {n:2}")),
            (s, n) => tags.add(format!("join: {s} after {n:2} candidates")),
        }
        return;
    }
    let via_parent = op.had_parent && sends > 0;
    let path = if status == "InvalidRequest" && sends == 0 {
        if op.own_at_start == 0xffff {
            "at address ffff".to_string()
        } else if op.epid_at_start != 0 && *epid != 0 && op.epid_at_start != *epid {
            "ids differ".to_string()
        } else {
            assert!(from >= to && !op.had_parent);
            "no parent and no channels".to_string()
        }
    } else if status == "Success" {
        if adopted == 0 {
            "by the remembered parent".to_string()
        } else {
            format!("at candidate {adopted:2}{}", if via_parent { " after the parent" } else { "" })
        }
    } else if !scanned {
        assert!(from >= to);
        "parent only, no channels".to_string()
    } else if op.candidates.is_none() {
        "scan failed".to_string()
    } else if adopted == 0 {
        "no candidate".to_string()
    } else {
        let skipped = op.candidates.unwrap() - adopted;
        if skipped > 0 {
            tags.add("rejoin: candidates skipped, index past the table");
            if skipped + 1 == op.candidates.unwrap() {
                tags.add("rejoin: all but the first candidate skipped");
            }
        }
        "all candidates tried".to_string()
    };
    tags.add(format!("rejoin: {status}, {path}"));
    tags.add(format!("rejoin: outcomes up to {}", op.outcomes.next_power_of_two()));
    if op.outcomes == 698 {
        tags.add("rejoin: outcomes exactly 698");
    }
    assert!(op.outcomes <= 698, "{} outcomes", op.outcomes);
}

pub fn cover(calls: &[(usize, Call)]) -> Result<Reached, Bad> {
    let mut tags = Reached::default();
    let mut s = Driver::new();
    let mut op = Op::default();
    let mut removed_before_next_try = false;
    for (line, call) in calls {
        let fresh = matches!(call, Call::Node(_));
        if fresh {
            if s.busy() {
                tags.add("scenario: stopped in the middle of an operation");
            }
            tags.scenarios.push(BTreeSet::new());
        }
        let before = (!fresh).then(|| (s.node(), s.entries(), s.volatile(), s.busy()));
        let lines = s.feed(call).map_err(|e| (*line, e))?;
        if let Some(number) = lines.first().and_then(|l| l.strip_prefix("refused\t")) {
            let word = call.text().split(['\t', '\n']).next().unwrap().to_string();
            tags.add(format!("refused: {number}, {word}"));
            continue;
        }
        let Some((node, entries, v, busy)) = before else { continue };
        let (node2, entries2, v2) = (s.node(), s.entries(), s.volatile());
        for l in &lines {
            if l.starts_with("transmit\t") {
                let f: Vec<&str> = l.split('\t').collect();
                tags.add(format!("request: transmit {}", f[3]));
                let seq = if f[3] == "data" { f[6] } else { f[8] };
                if seq == "0" {
                    tags.add("request: sequence number wraps to 0");
                }
                if f[3] != "data" && f[5] != "-" {
                    tags.add(format!("request: transmit {} with destination IEEE", f[3]));
                }
            } else if l == "reset" || l.starts_with("poll\t") || l.starts_with("set") || l.starts_with("receive") {
                tags.add(format!("request: {}", l.split('\t').next().unwrap()));
            } else if l.contains("answer\t") || l.starts_with("negotiated") || l.starts_with("discover") {
                let n = if l.starts_with("discovered") { 1 } else { 2 };
                tags.add(format!("answer: {}", l.split('\t').take(n).collect::<Vec<_>>().join(" ")));
            }
        }
        match call {
            Call::Start(start) => {
                op = Op {
                    name: name(start),
                    start: Some(start.clone()),
                    own_at_start: node.network_address,
                    epid_at_start: node.epid,
                    had_parent: parent(&entries).is_some(),
                    ..Op::default()
                };
                removed_before_next_try = false;
                tags.add(format!("start: {}", op.name));
                op.log.extend(lines.iter().cloned());
                if matches!(start, Start::Send { .. }) && v2.sequence != v.sequence && !s.busy() {
                    tags.add("send: NotJoined, yet the sequence number is used up");
                }
                if matches!(start, Start::Join { kind: 0, .. }) && parent(&entries).is_some() && s.busy() {
                    tags.add("join: table holds a PARENT already");
                }
            }
            Call::Outcome(o) => {
                op.outcomes += 1;
                tags.most_outcomes = tags.most_outcomes.max(op.outcomes);
                let tries_before = tries(&op.log).len();
                op.log.extend(lines.iter().cloned());
                match o {
                    Outcome::Scan(b) => {
                        tags.add(format!(
                            "scan: {} beacons",
                            match b.len() {
                                0 => "0",
                                1..=15 => "1..15",
                                16 => "16",
                                17..=26 => "17..26",
                                _ => "27",
                            }
                        ));
                        if entries2.len() == 16 {
                            tags.add("scan: 16 short-addressed");
                        }
                        if entries2.len() < b.len() {
                            tags.add("scan: with extended-addressed");
                        }
                        if let Some(Start::Join { kind: 2, epid, capability, .. }) = &op.start {
                            let epid = if *epid == 0 { op.epid_at_start } else { *epid };
                            let router = capability & 2 != 0;
                            let c = s.feed(&Call::Candidates { epid, router, permit: false }).unwrap();
                            let c: Vec<usize> = c[0].split('\t').skip(1).map(|w| w.parse().unwrap()).collect();
                            op.candidates = Some(c.len());
                            choice(&mut tags, &entries2, node2.stack_profile, epid, false, &c);
                        }
                    }
                    Outcome::ScanFail => tags.add("scan: failed"),
                    Outcome::Associate { status, .. } => tags.add(format!("association: status {status}")),
                    Outcome::AssociateFail => tags.add("association: radio error"),
                    Outcome::Sent | Outcome::SendFail => {
                        let last = op.log[..op.log.len() - lines.len()].iter().rev().find(|l| l.starts_with("transmit"));
                        let word = last.unwrap().split('\t').nth(3).unwrap().to_string();
                        let ok = if *o == Outcome::Sent { "sent" } else { "failed" };
                        tags.add(format!("transmission: {word} {ok} in {}", op.name));
                        if v.failures.len() == 16
                            && v2.failures.len() == 16
                            && v.failures[1..] == v2.failures[..15]
                            && v.failures[0] != v2.failures[0]
                        {
                            tags.add("failures: oldest of 16 pairs evicted");
                        }
                        if v.failures.len() > v2.failures.len() && ok == "sent" {
                            tags.add("failures: pair removed by a success");
                        }
                        if lines.iter().any(|l| l == "sendanswer\tParentLinkFailure") {
                            tags.add("failures: the third signals ParentLinkFailure");
                        }
                        if word == "timeoutrequest" && ok == "failed" && v2.pending == node.timeout_default {
                            tags.add("timeout: pending though the send failed");
                        }
                    }
                    Outcome::NoData => tags.add(format!("poll: nothing buffered in {}", op.name)),
                    Outcome::PollFail => tags.add(format!("poll: radio error in {}", op.name)),
                    Outcome::Frame(f) => {
                        frame(&mut tags, f, &op, &node, &entries, &v, &lines);
                        if let Frame::RejoinResponse { status, .. } = f
                            && op.name == "rejoin"
                        {
                            let t = tries(&op.log[..op.log.len() - lines.len()]);
                            tags.add(format!("rejoin: response at poll {:2}", t.last().unwrap()));
                            tags.add(format!("rejoin: response status {status}"));
                        }
                        if entries.len() == entries2.len() && entries.iter().zip(&entries2).any(|(a, b)| a.ieee != b.ieee) {
                            tags.add("frame: teaches an IEEE address");
                        }
                        if op.name == "rejoin" && entries2.len() < entries.len() && !entries2.is_empty() {
                            tags.add("rejoin: entries vanish, others left");
                            removed_before_next_try = true;
                        }
                        if op.name == "rejoin" && entries2.is_empty() && !entries.is_empty() {
                            tags.add("rejoin: table emptied");
                        }
                    }
                }
                if op.name == "rejoin" && tries(&op.log).len() > tries_before {
                    if removed_before_next_try && op.candidates.is_some() {
                        tags.add("rejoin: next index read after entries vanished");
                    }
                    removed_before_next_try = false;
                }
                // a try that ended with fewer than 20 polls and no response
                if op.name == "rejoin" && (tries(&op.log).len() > tries_before || !s.busy()) {
                    let list = tries(&op.log);
                    let ended = if s.busy() { list.len().checked_sub(2) } else { list.len().checked_sub(1) };
                    let answered = matches!(o, Outcome::Frame(Frame::RejoinResponse { .. }));
                    if let Some(i) = ended {
                        if tries_before > 0 && !answered && list[i] < 20 && list[i] > 0 {
                            tags.add("rejoin: polls counted without a radio request");
                        }
                        if tries_before > 0 && !answered && list[i] == 20 {
                            tags.add("rejoin: a try with all 20 polls");
                        }
                    }
                }
            }
            Call::Tick(ms) => {
                let at = if busy { "during an operation" } else { "between operations" };
                match (lines[0].as_str(), v.timer) {
                    (_, 0) => tags.add("tick: timer at 0"),
                    ("expired\t1", _) => {
                        tags.add(format!("tick: expiry {at}"));
                        if *ms == 0 {
                            tags.add("tick: expiry at elapsed 0");
                        }
                        if v2.status_indication == Some(0xffff) && parent(&entries).is_none() {
                            tags.add("tick: expiry with no parent");
                        }
                    }
                    _ => tags.add(format!("tick: running on {at}")),
                }
            }
            Call::TakeLeave | Call::TakeStatus => {
                tags.add(format!("taken: {}", lines[0].split('\t').next().unwrap()));
            }
            Call::Candidates { epid, permit, .. } => {
                let c: Vec<usize> = lines[0].split('\t').skip(1).map(|w| w.parse().unwrap()).collect();
                choice(&mut tags, &entries, node.stack_profile, *epid, *permit, &c);
            }
            Call::State if busy => tags.add("state: in the middle of an operation"),
            _ => (),
        }
        if busy && !s.busy() || matches!(call, Call::Start(_)) && !s.busy() {
            confirm(&mut tags, &op);
        }
    }
    if s.busy() {
        tags.add("scenario: stopped in the middle of an operation");
    }
    Ok(tags)
}

fn frame(
    tags: &mut Reached,
    f: &Frame,
    op: &Op,
    node: &crate::trace::Node,
    entries: &[Entry],
    v: &crate::probe::Volatile,
    lines: &[String],
) {
    let op = op.name;
    match f {
        Frame::Undecodable => tags.add(format!("frame: undecodable in {op}")),
        Frame::Data { .. } => tags.add(format!("frame: data in {op}")),
        Frame::Command { .. } => tags.add(format!("frame: other command in {op}")),
        Frame::Other => tags.add(format!("frame: other frame in {op}")),
        Frame::RejoinResponse { status, .. } => {
            tags.add(format!("frame: rejoin response in {op}"));
            if op != "rejoin" && *status == 0 {
                tags.add("frame: unasked rejoin response of status 0");
            }
        }
        Frame::TimeoutResponse { status, .. } => {
            tags.add(format!(
                "frame: timeout response status {} with {} pending",
                if *status == 0 { "0" } else { "other" },
                if v.pending == 255 { "none" } else { "one" }
            ));
            if lines.iter().any(|l| l == "negotiated\t1") && v.pending == 255 {
                tags.add("timeout: negotiated 1 with none pending");
            }
        }
        Frame::Leave { source, ieee, destination, request, rejoin, .. } => {
            let from_parent = parent(entries) == Some(*source);
            let router = node.capability & 2 != 0;
            let known = entries.iter().any(|e| e.address == *source);
            let bit = if *rejoin { "rejoin" } else { "no rejoin" };
            let announced = lines.iter().any(|l| l.contains("\tleave\t"));
            let kind = if !request {
                let who = if from_parent {
                    "parent"
                } else if known {
                    "neighbour"
                } else {
                    "stranger"
                };
                format!("notification from {who}, {}", if ieee.is_some() { "IEEE" } else { "no IEEE" })
            } else if node.network_address == 0 {
                "request refused, own address 0000".to_string()
            } else if *destination >= 0xfff8 {
                "request refused, broadcast".to_string()
            } else if router {
                if node.leave_allowed {
                    format!("request accepted as router, {bit}")
                } else {
                    "request refused as router, not allowed".to_string()
                }
            } else if from_parent {
                format!("request accepted as end device, {bit}")
            } else {
                "request refused as end device, not from the parent".to_string()
            };
            assert_eq!(announced, kind.contains("accepted"), "{kind}");
            tags.add(format!("leave: {kind}"));
            tags.add(format!("leave in {op}: {}", kind.split(',').next().unwrap()));
        }
    }
}
