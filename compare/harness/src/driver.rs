//! One node, driven call by call: the scripted MAC, the executor, and the refusals that the port adds.
use core::cell::{Cell, RefCell};
use core::future::{Future, poll_fn};
use core::pin::Pin;
use core::task::{Context, Poll, Waker};
use std::rc::Rc;

use byte::{BytesExt, TryRead};
use zigbee_mac::mlme::{AssociationResponse, MacConfig, MacError, Mlme, ScanResult, ScanType, StackProfile, ZigbeeBeacon};
use zigbee_mac::{
    Address, AssociationStatus, BeaconOrder, CapabilityInformation, ExtendedAddress, MacShortAddress, PanId, SuperframeOrder,
    SuperframeSpecification,
};
use zigbee_types::{ByteArray, IeeeAddress, ShortAddress};

use crate::hooks::log;
use crate::nwk::frame::command::end_device_timeout_request::EndDeviceTimeoutRequest;
use crate::nwk::frame::command::end_device_timeout_response::EndDeviceTimeoutResponse;
use crate::nwk::frame::command::leave::{CommandOptions, Leave};
use crate::nwk::frame::command::rejoin_request::{self, RejoinRequest};
use crate::nwk::frame::command::rejoin_response::RejoinResponse;
use crate::nwk::frame::command::{Command, Ignored};
use crate::nwk::frame::frame_control::{FrameControl, FrameType};
use crate::nwk::frame::header::Header;
use crate::nwk::nib::{self, DeviceType, NwkNeighbor};
use crate::nwk::nlme::management::{NlmeJoinRequest, NlmeJoinStatus, RejoinNetwork};
use crate::nwk::nlme::{NetworkError, Nlme};
use crate::probe::Volatile;
use crate::trace::{Beacon, BeaconAddress, Call, Entry, Frame, Node, Outcome, Start};

/// What the operation under way waits for.
#[derive(Debug, Clone, Copy, PartialEq, Eq)]
pub enum Kind {
    Scan,
    Associate,
    Transmit,
    Poll,
    Receive,
}

impl Kind {
    pub fn takes(self, o: &Outcome) -> bool {
        matches!(
            (self, o),
            (Kind::Scan, Outcome::Scan(_) | Outcome::ScanFail)
                | (Kind::Associate, Outcome::Associate { .. } | Outcome::AssociateFail)
                | (Kind::Transmit, Outcome::Sent | Outcome::SendFail)
                | (Kind::Poll | Kind::Receive, Outcome::NoData | Outcome::PollFail | Outcome::Frame(_))
        )
    }
}

// ---- the scripted MAC ----

thread_local! {
    static AWAITED: Cell<Option<Kind>> = const { Cell::new(None) };
    static OUTCOME: RefCell<Option<Outcome>> = const { RefCell::new(None) };
    // request L2: the sender of the leave that is indicated, where it has no request bit, its sender is another than the parent, and it has no IEEE address
    static BY_SHORT: Cell<Option<u16>> = const { Cell::new(None) };
    // turns through the errors, commands and frame types that a line leaves open
    static TURN: Cell<usize> = const { Cell::new(0) };
}

fn turn(n: usize) -> usize {
    TURN.set(TURN.get() + 1);
    TURN.get() % n
}

async fn outcome(kind: Kind) -> Outcome {
    AWAITED.set(Some(kind));
    poll_fn(|_| match OUTCOME.take() {
        Some(o) => {
            AWAITED.set(None);
            Poll::Ready(o)
        }
        None => Poll::Pending,
    })
    .await
}

// any error but NoData, which a poll takes for "nothing buffered"
fn some_error() -> MacError {
    match turn(5) {
        0 => MacError::NoBeacon,
        1 => MacError::InvalidScanParams,
        2 => MacError::ReadError(byte::Error::Incomplete),
        3 => MacError::InvalidFrame(byte::Error::Incomplete),
        _ => MacError::NoAck,
    }
}

pub struct ScriptMac {
    ieee: u64,
    sequence: u8,
}

fn short(a: Address) -> String {
    match a {
        Address::Short(p, s) => format!("{:04x}\t{:04x}", p.0, s.0),
        Address::Extended(..) => panic!("extended MAC destination"),
    }
}

fn flag(v: bool) -> u8 {
    u8::from(v)
}

fn ieee(a: Option<IeeeAddress>) -> String {
    a.map_or("-".to_string(), |a| format!("{:016x}", a.0))
}

/// The first neighbour with relationship PARENT.
fn parent() -> Option<u16> {
    nib::get_ref().neighbor_table().iter().find(|n| n.relationship == 0).map(|n| n.network_address.0)
}

/// Whose leave an indication is. The source says an IEEE address or none, and none stands for this device.
/// Request L2 asks for the sender's short address exactly where a leave without the request bit from another than the parent has no IEEE address.
/// There the request's answer is printed, and everywhere else the source's.
fn device(a: Option<IeeeAddress>) -> String {
    match BY_SHORT.get() {
        Some(sender) => {
            assert!(a.is_none(), "an IEEE address that the frame doesn't have");
            format!("{sender:04x}")
        }
        None => ieee(a),
    }
}

/// The fields of a transmitted frame, from its bytes.
fn describe(payload: &[u8]) -> String {
    let (h, n) = Header::try_read(payload, ()).expect("header");
    let secure = flag(h.frame_control.security_flag());
    let rest = &payload[n..];
    if h.frame_control.frame_type() == FrameType::Data {
        assert!(h.source_ieee.is_none() && h.destination_ieee.is_none() && rest.is_empty());
        return format!("data\t{:04x}\t{:04x}\t{}\t{secure}", h.destination.0, h.source.0, h.sequence_number);
    }
    let (word, tail) = match rest.read_with(&mut 0, ()).expect("command") {
        Command::RejoinRequest(c) => ("rejoinrequest", format!("{}", c.capability_information.0)),
        Command::EndDeviceTimeoutRequest(c) => {
            assert_eq!(c.end_device_configuration, 0);
            ("timeoutrequest", format!("{}", c.requested_timeout))
        }
        Command::Leave(c) => {
            let o = c.command_options;
            assert!(!o.request());
            ("leave", format!("{}\t{}", flag(o.rejoin()), flag(o.remove_children())))
        }
        c => panic!("unexpected command {c:?}"),
    };
    format!(
        "{word}\t{:04x}\t{}\t{:04x}\t{}\t{}\t{secure}\t{tail}",
        h.destination.0,
        ieee(h.destination_ieee),
        h.source.0,
        ieee(Some(h.source_ieee.expect("source IEEE"))),
        h.sequence_number,
    )
}

/// The bytes of a received frame.
fn deliver(frame: &Frame, buf: &mut [u8]) -> usize {
    let header = |ty: FrameType, source: u16, source_ieee: Option<u64>, destination: u16| Header {
        frame_control: FrameControl(0).set_frame_type(ty).set_protocol_version(2).set_source_ieee_flag(source_ieee.is_some()),
        destination: ShortAddress(destination),
        source: ShortAddress(source),
        radius: 1,
        sequence_number: 0,
        destination_ieee: None,
        source_ieee: source_ieee.map(IeeeAddress),
        multicast_control: None,
        source_route_subframe: None,
    };
    let offset = &mut 0;
    let own = nib::get_ref().network_address();
    let mut command = |source: u16, ieee: Option<u64>, destination: u16, c: Command<'_>| {
        buf.write_with(offset, header(FrameType::NwkCommand, source, ieee, destination), ()).unwrap();
        buf.write_with(offset, c, ()).unwrap();
        *offset
    };
    match *frame {
        Frame::Undecodable => {
            buf[0] = crate::security::UNDECODABLE;
            1
        }
        Frame::Data { source, ieee } => {
            buf.write_with(offset, header(FrameType::Data, source, ieee, own), ()).unwrap();
            *offset
        }
        Frame::RejoinResponse { source, ieee, address, status } => {
            command(source, ieee, own, Command::RejoinResponse(RejoinResponse { network_address: ShortAddress(address), status }))
        }
        Frame::TimeoutResponse { source, ieee, status, information } => command(
            source,
            ieee,
            own,
            Command::EndDeviceTimeoutResponse(EndDeviceTimeoutResponse { status, parent_information: information }),
        ),
        Frame::Leave { source, ieee, destination, request, rejoin, children } => {
            if !request {
                BY_SHORT.set((parent() != Some(source) && ieee.is_none()).then_some(source));
            }
            command(
                source,
                ieee,
                destination,
                Command::Leave(Leave {
                    command_options: CommandOptions(0).set_request(request).set_rejoin(rejoin).set_remove_children(children),
                }),
            )
        }
        Frame::Command { source, ieee } => {
            let rest = Ignored(&[0x00, 0x01]);
            let c = match turn(11) {
                0 => Command::RouteRequest(rest),
                1 => Command::RouteReply(rest),
                2 => Command::NetworkStatus(rest),
                3 => Command::RouteRecord(rest),
                4 => Command::LinkStatus(rest),
                5 => Command::NetworkReport(rest),
                6 => Command::NetworkUpdate(rest),
                7 => Command::LinkPowerDelta(rest),
                8 => Command::RejoinRequest(RejoinRequest { capability_information: rejoin_request::CapabilityInformation(0x80) }),
                9 => Command::EndDeviceTimeoutRequest(EndDeviceTimeoutRequest { requested_timeout: 3, end_device_configuration: 0 }),
                _ => Command::Reserved(0x7f),
            };
            command(source, ieee, own, c)
        }
        Frame::Other => {
            let ty = if turn(2) == 0 { FrameType::Reserved } else { FrameType::InterPan };
            buf.write_with(offset, header(ty, 0x1a2b, Some(0x77), own), ()).unwrap();
            *offset
        }
    }
}

pub fn descriptor(b: &Beacon) -> zigbee_mac::mlme::PanDescriptor {
    zigbee_mac::pan_descriptor(
        b.channel,
        b.pan,
        match b.address {
            BeaconAddress::Short(a) => Address::Short(PanId(b.pan), MacShortAddress(a)),
            BeaconAddress::Extended(a) => Address::Extended(PanId(b.pan), ExtendedAddress(a)),
        },
        SuperframeSpecification {
            beacon_order: BeaconOrder::from(b.beacon_order),
            superframe_order: SuperframeOrder::from(b.superframe_order),
            final_cap_slot: 15,
            battery_life_extension: false,
            pan_coordinator: b.address == BeaconAddress::Short(0),
            association_permit: b.permit,
        },
        b.lqi,
        ZigbeeBeacon {
            protocol_id: 0,
            stack_profile: StackProfile(0)
                .set_stack_profile(b.stack_profile)
                .set_protocol_version(b.version)
                .set_router_capacity(b.router)
                .set_device_depth(b.depth)
                .set_end_device_capacity(b.end_device),
            extended_pan_id: IeeeAddress(b.epid),
            tx_offset: ByteArray([0xff; 3]),
            update_id: b.update_id,
        },
    )
}

fn received(o: Outcome, buf: &mut [u8]) -> Result<(usize, u8), MacError> {
    match o {
        Outcome::NoData => Err(MacError::NoData),
        Outcome::PollFail => Err(some_error()),
        Outcome::Frame(f) => Ok((deliver(&f, buf), 200)),
        o => unreachable!("{o:?}"),
    }
}

impl Mlme for ScriptMac {
    fn ieee_address(&self) -> IeeeAddress {
        IeeeAddress(self.ieee)
    }

    async fn configure(&self, config: MacConfig) {
        assert!(config.pan_id.is_none() && config.promiscuous.is_none() && config.auto_ack_rx.is_none() && config.auto_ack_tx.is_none());
        if let Some(c) = config.channel {
            log(|| format!("setchannel\t{c}"));
        }
        if let Some(a) = config.short_address {
            log(|| format!("setaddress\t{:04x}", a.0));
        }
    }

    async fn scan_network(&self, ty: ScanType, channels: core::ops::Range<u8>, duration: u8) -> Result<ScanResult, MacError> {
        assert_eq!(ty, ScanType::Active);
        log(|| format!("scan\t{}\t{}\t{duration}", channels.start, channels.end));
        match outcome(Kind::Scan).await {
            Outcome::Scan(beacons) => Ok(ScanResult { scan_type: ty, pan_descriptor: beacons.iter().map(descriptor).collect() }),
            Outcome::ScanFail => Err(some_error()),
            o => unreachable!("{o:?}"),
        }
    }

    async fn associate(&self, channel: u8, dest: Address, c: CapabilityInformation) -> Result<AssociationResponse, MacError> {
        log(|| {
            format!(
                "associate\t{channel}\t{}\t{}\t{}\t{}\t{}\t{}",
                short(dest),
                flag(c.full_function_device),
                flag(c.mains_power),
                flag(c.idle_receive),
                flag(c.frame_protection),
                flag(c.allocate_address)
            )
        });
        match outcome(Kind::Associate).await {
            Outcome::Associate { status, address, ieee } => Ok(AssociationResponse {
                device_address: IeeeAddress(ieee),
                association_address: ShortAddress(address),
                status: AssociationStatus::from(status),
            }),
            Outcome::AssociateFail => Err(some_error()),
            o => unreachable!("{o:?}"),
        }
    }

    async fn poll_data(&self, coord_address: Address, buf: &mut [u8]) -> Result<(usize, u8), MacError> {
        log(|| format!("poll\t{}", short(coord_address)));
        received(outcome(Kind::Poll).await, buf)
    }

    async fn receive(&self, buf: &mut [u8]) -> Result<(usize, u8), MacError> {
        log(|| "receive".to_string());
        received(outcome(Kind::Receive).await, buf)
    }

    async fn transmit_data(&self, dest: Address, payload: &[u8]) -> Result<(), MacError> {
        // told by what is logged: where nothing is, no indication is printed either
        let mut leave = false;
        log(|| {
            let frame = describe(payload);
            leave = frame.starts_with("leave\t");
            format!("transmit\t{}\t{frame}", short(dest))
        });
        let outcome = outcome(Kind::Transmit).await;
        if leave {
            // this device's leave is indicated next
            BY_SHORT.set(None);
        }
        match outcome {
            Outcome::Sent => Ok(()),
            Outcome::SendFail => Err(some_error()),
            o => unreachable!("{o:?}"),
        }
    }

    fn random_u32(&self) -> u32 {
        // only its low byte is used, as the first sequence number
        u32::from(self.sequence)
    }
}

// ---- the answers ----

fn status_word(s: NlmeJoinStatus) -> &'static str {
    match s {
        NlmeJoinStatus::Success => "Success",
        NlmeJoinStatus::InvalidRequest => "InvalidRequest",
        NlmeJoinStatus::NotPermitted => "NotPermitted",
        NlmeJoinStatus::NoNetworks => "NoNetworks",
        NlmeJoinStatus::PanAtCapacity => "PanAtCapacity",
        NlmeJoinStatus::PanAccessDenied => "PanAccessDenied",
        NlmeJoinStatus::MacError => "MacError",
    }
}

fn error_word(e: &NetworkError) -> &'static str {
    match e {
        NetworkError::MacError(_) => "MacError",
        NetworkError::NotJoined => "NotJoined",
        NetworkError::ParentLinkFailure => "ParentLinkFailure",
        NetworkError::SecurityError(_) | NetworkError::ParseError => "Undecodable",
        e => panic!("unexpected error {e:?}"),
    }
}

async fn operate(nlme: Rc<Nlme<ScriptMac>>, start: Start) {
    match start {
        Start::Discovery { from, to, duration } => match nlme.network_discovery(from..to, duration).await {
            Err(_) => log(|| "discoveryfailed".to_string()),
            Ok(confirm) => {
                log(|| format!("discovered\t{}", confirm.network_descriptor.len()));
                for d in &confirm.network_descriptor {
                    log(|| {
                        format!(
                            "d\t{:016x}\t{:04x}\t{}\t{}\t{}\t{}\t{}\t{}\t{}\t{}\t{}",
                            d.extended_pan_id.0,
                            d.pan_id.0,
                            d.update_id,
                            d.logical_channel,
                            d.stack_profile,
                            d.zigbee_version,
                            u8::from(d.beacon_order),
                            u8::from(d.superframe_order),
                            flag(d.permit_joining),
                            flag(d.router_capacity),
                            flag(d.end_device_capacity)
                        )
                    });
                }
            }
        },
        Start::Join { kind, epid, capability, security, from, to, duration } => {
            let c = nlme
                .join(NlmeJoinRequest {
                    extended_pan_id: IeeeAddress(epid),
                    rejoin_network: match kind {
                        0 => RejoinNetwork::Association,
                        1 => RejoinNetwork::Orphan,
                        2 => RejoinNetwork::NwkRejoin,
                        _ => RejoinNetwork::ChannelChange,
                    },
                    capability_information: nib::CapabilityInformation(capability),
                    security_enabled: security,
                    scan_channels: from..to,
                    scan_duration: duration,
                })
                .await;
            log(|| format!("confirm\t{}\t{:04x}\t{:016x}\t{}", status_word(c.status), c.network_address.0, c.extended_pan_id.0, c.channel));
        }
        Start::Send { destination, secure } => {
            let r = nlme.send_data(ShortAddress(destination), secure, &[]).await;
            log(|| format!("sendanswer\t{}", r.as_ref().map_or_else(error_word, |()| "Ok")));
        }
        Start::Poll | Start::Receive => {
            let mut buf = [0u8; 128];
            let r = if start == Start::Poll { nlme.poll_nwk_frame(&mut buf).await } else { nlme.receive_nwk_frame(&mut buf).await };
            let word = match &r {
                Ok(Some(_)) => "Data",
                Ok(None) => "Nothing",
                Err(e) => error_word(e),
            };
            log(|| format!("pollanswer\t{word}"));
        }
        Start::Negotiate => {
            let r = nlme.negotiate_end_device_timeout().await;
            let word = match &r {
                Ok(true) => "1",
                Ok(false) => "0",
                Err(e) => error_word(e),
            };
            log(|| format!("negotiated\t{word}"));
        }
        Start::Keepalive => {
            let r = nlme.send_timeout_request_keepalive().await;
            log(|| format!("keepaliveanswer\t{}", r.as_ref().map_or_else(error_word, |()| "Ok")));
        }
    }
}

// ---- the node ----

pub struct Driver {
    nlme: Option<Rc<Nlme<ScriptMac>>>,
    operation: Option<Pin<Box<dyn Future<Output = ()>>>>,
    // `e` and `f` lines only directly behind `node`
    setting_up: bool,
}

impl Driver {
    pub fn new() -> Self {
        Self { nlme: None, operation: None, setting_up: false }
    }

    /// What the operation under way waits for; `None` when there is none.
    pub fn awaited(&self) -> Option<Kind> {
        if self.operation.is_some() { AWAITED.get() } else { None }
    }

    pub fn busy(&self) -> bool {
        self.operation.is_some()
    }

    pub fn volatile(&self) -> Volatile {
        self.nlme.as_ref().expect("a node").probe_read()
    }

    pub fn node(&self) -> Node {
        let v = self.volatile();
        let nib = nib::get_ref();
        Node {
            network_address: nib.network_address(),
            ieee: nib.ieee_address().0,
            epid: *nib.extended_panid(),
            pan: nib.panid(),
            update_id: nib.update_id(),
            capability: nib.capability_information().0,
            stack_profile: nib.stack_profile(),
            parent_information: nib.parent_information(),
            timeout: nib.end_device_timeout(),
            timeout_default: nib.end_device_timeout_default(),
            leave_allowed: nib.leave_request_allowed(),
            sequence: v.sequence,
            pending: v.pending,
            timer: v.timer,
        }
    }

    pub fn entries(&self) -> Vec<Entry> {
        nib::get_ref()
            .neighbor_table()
            .iter()
            .map(|n| Entry {
                ieee: n.extended_address.0,
                address: n.network_address.0,
                device_type: match n.device_type {
                    DeviceType::Coordinator => 0,
                    DeviceType::Router => 1,
                    DeviceType::EndDevice => 2,
                    DeviceType::Invalid(v) => v,
                },
                rx_on: n.rx_on_when_idle,
                configuration: n.end_device_configuration,
                relationship: n.relationship,
                lqi: n.lqi,
                outgoing_cost: n.outgoing_cost,
                age: n.age,
                keepalive: n.keepalive_received,
                epid: n.extended_pan_id.0,
                channel: n.logical_channel,
                depth: n.depth,
                permit: n.permit_joining,
                potential: n.potential_parent,
                router: n.router_capacity,
                end_device: n.end_device_capacity,
                update_id: n.update_id,
                pan: n.pan_id,
            })
            .collect()
    }

    /// What the port turns the call down with; the source has no refusals. (5 speaks of states that no trace leads to.)
    fn refusal(&self, call: &Call) -> Option<u8> {
        match call {
            Call::Start(_) if self.busy() => Some(1),
            Call::Outcome(o) if !self.awaited().is_some_and(|kind| kind.takes(o)) => Some(2),
            Call::Outcome(Outcome::Scan(beacons)) => {
                let shorts = beacons.iter().filter(|b| matches!(b.address, BeaconAddress::Short(_))).count();
                if beacons.len() > 27 {
                    Some(3)
                } else if shorts > 16 {
                    Some(4)
                } else {
                    None
                }
            }
            _ => None,
        }
    }

    /// Handles one call; the lines it gives, or why its line is bad.
    pub fn feed(&mut self, call: &Call) -> Result<Vec<String>, String> {
        match call {
            Call::Node(n) => self.set_node(n),
            Call::Entry(e) => self.set_entry(e)?,
            Call::Failure(address, count) => self.set_failure(*address, *count)?,
            call => {
                self.setting_up = false;
                let nlme = self.nlme.clone().ok_or("no node yet")?;
                match self.refusal(call) {
                    Some(number) => log(|| format!("refused\t{number}")),
                    None => self.call(nlme, call),
                }
            }
        }
        Ok(crate::hooks::take_log())
    }

    fn call(&mut self, nlme: Rc<Nlme<ScriptMac>>, call: &Call) {
        match call {
            Call::Node(_) | Call::Entry(_) | Call::Failure(..) => unreachable!(),
            Call::Start(start) => {
                self.operation = Some(Box::pin(operate(nlme, start.clone())));
                self.step();
            }
            Call::Outcome(o) => {
                OUTCOME.replace(Some(o.clone()));
                self.step();
                assert!(OUTCOME.take().is_none(), "outcome not taken");
            }
            Call::Tick(ms) => {
                let expired = nlme.tick_parent_timeout(*ms);
                log(|| format!("expired\t{}", flag(expired)));
            }
            Call::TakeLeave => match nlme.take_leave_indication() {
                Some(i) => log(|| format!("leaveindication\t{}\t{}", device(i.device_address), flag(i.rejoin))),
                None => log(|| "nothing".to_string()),
            },
            Call::TakeStatus => match nlme.take_nwk_status_indication() {
                Some(i) => log(|| format!("statusindication\t{:04x}", i.network_address.0)),
                None => log(|| "nothing".to_string()),
            },
            Call::Refresh => {
                nlme.refresh_parent_timeout();
                log(|| "done".to_string());
            }
            Call::Candidates { epid, router, permit } => {
                let c = nlme.probe_candidates(*epid, *router, *permit);
                log(|| c.iter().fold("candidates".to_string(), |s, i| format!("{s}\t{i}")));
            }
            Call::State => {
                for line in self.state_lines() {
                    log(|| line);
                }
            }
        }
    }

    /// What `state` prints.
    pub fn state_lines(&self) -> Vec<String> {
        let v = self.volatile();
        let mut lines = vec![self.node().line()];
        lines.extend(self.entries().iter().map(Entry::line));
        lines.extend(v.failures.iter().map(|(a, n)| format!("f\t{a:04x}\t{n}")));
        if let Some((a, s)) = v.rejoin_response {
            lines.push(format!("rejoinresponse\t{a:04x}\t{s}"));
        }
        if let Some((s, p)) = v.timeout_response {
            lines.push(format!("timeoutresponse\t{s}\t{p}"));
        }
        if let Some((a, r)) = v.leave_indication {
            lines.push(format!("leaveindication\t{}\t{}", device(a.map(IeeeAddress)), flag(r)));
        }
        if let Some(a) = v.status_indication {
            lines.push(format!("statusindication\t{a:04x}"));
        }
        lines.push("end".to_string());
        lines
    }

    // polls the operation's future once
    fn step(&mut self) {
        let Some(operation) = &mut self.operation else { return };
        let mut cx = Context::from_waker(Waker::noop());
        if operation.as_mut().poll(&mut cx).is_ready() {
            self.operation = None;
            AWAITED.set(None);
        } else {
            assert!(AWAITED.get().is_some(), "suspended with no request");
        }
    }

    fn set_node(&mut self, n: &Node) {
        self.operation = None;
        AWAITED.set(None);
        OUTCOME.replace(None);
        BY_SHORT.set(None);
        TURN.set(0);
        let nib = nib::get_ref();
        nib.reset_all();
        nib.update_network_address(|v| *v = n.network_address);
        nib.update_extended_panid(|v| *v = n.epid);
        nib.update_panid(|v| *v = n.pan);
        nib.update_update_id(|v| *v = n.update_id);
        nib.update_capability_information(|v| *v = nib::CapabilityInformation(n.capability));
        nib.update_stack_profile(|v| *v = n.stack_profile);
        nib.update_parent_information(|v| *v = n.parent_information);
        nib.update_end_device_timeout(|v| *v = n.timeout);
        nib.update_end_device_timeout_default(|v| *v = n.timeout_default);
        nib.update_leave_request_allowed(|v| *v = n.leave_allowed);
        // reads IEEE address and sequence number from the MAC
        let nlme = Nlme::new(ScriptMac { ieee: n.ieee, sequence: n.sequence });
        nlme.probe_write(n.pending, n.timer);
        self.nlme = Some(Rc::new(nlme));
        self.setting_up = true;
    }

    fn set_entry(&mut self, e: &Entry) -> Result<(), String> {
        if !self.setting_up {
            return Err("an `e` line not directly behind `node`".to_string());
        }
        let neighbor = NwkNeighbor {
            extended_address: IeeeAddress(e.ieee),
            network_address: ShortAddress(e.address),
            device_type: match e.device_type {
                0 => DeviceType::Coordinator,
                1 => DeviceType::Router,
                2 => DeviceType::EndDevice,
                v => DeviceType::Invalid(v),
            },
            rx_on_when_idle: e.rx_on,
            end_device_configuration: e.configuration,
            relationship: e.relationship,
            lqi: e.lqi,
            outgoing_cost: e.outgoing_cost,
            age: e.age,
            keepalive_received: e.keepalive,
            extended_pan_id: IeeeAddress(e.epid),
            logical_channel: e.channel,
            depth: e.depth,
            permit_joining: e.permit,
            potential_parent: e.potential,
            router_capacity: e.router,
            end_device_capacity: e.end_device,
            update_id: e.update_id,
            pan_id: e.pan,
        };
        nib::get_ref().update_neighbor_table(|t| t.push(neighbor)).map_err(|_| "more than 16 `e` lines".to_string())
    }

    fn set_failure(&mut self, address: u16, count: u8) -> Result<(), String> {
        match &self.nlme {
            Some(nlme) if self.setting_up => {
                if nlme.probe_failure(address, count) {
                    Ok(())
                } else {
                    Err("more than 16 `f` lines".to_string())
                }
            }
            _ => Err("an `f` line not directly behind `node`".to_string()),
        }
    }
}
