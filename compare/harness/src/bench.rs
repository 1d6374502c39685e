//! The source at work with nothing around it, for counting instructions and for taking times: the choice of candidates among 16 entries, a
//! discovery with a join that fails at 16 candidates, and a rejoin with 16 candidates of 20 polls each.
use core::cell::Cell;
use core::future::{Future, poll_fn};
use core::pin::pin;
use core::task::{Context, Poll, Waker};
use std::hint::black_box;
use std::time::Instant;

use zigbee_mac::mlme::{AssociationResponse, MacConfig, MacError, Mlme, ScanResult, ScanType};
use zigbee_mac::{Address, AssociationStatus, CapabilityInformation};
use zigbee_types::{IeeeAddress, ShortAddress};

use crate::driver::descriptor;
use crate::nwk::nib;
use crate::nwk::nlme::Nlme;
use crate::nwk::nlme::management::{NlmeJoinRequest, NlmeJoinStatus, RejoinNetwork};
use crate::trace::{Beacon, BeaconAddress};

/// Answers every request the same way; pending once for each when `PENDING`, so that each outcome costs a poll of the operation's future.
struct BenchMac<const PENDING: bool> {
    beacons: Vec<Beacon>,
    requests: Cell<u64>,
}

impl<const PENDING: bool> BenchMac<PENDING> {
    async fn turn(&self) {
        self.requests.set(self.requests.get() + 1);
        let mut waited = !PENDING;
        poll_fn(|_| if core::mem::replace(&mut waited, true) { Poll::Ready(()) } else { Poll::Pending }).await;
    }
}

impl<const PENDING: bool> Mlme for BenchMac<PENDING> {
    fn ieee_address(&self) -> IeeeAddress {
        IeeeAddress(0x0011_2233_4455_6677)
    }
    async fn configure(&self, config: MacConfig) {
        black_box(config);
    }
    async fn scan_network(&self, ty: ScanType, _: core::ops::Range<u8>, _: u8) -> Result<ScanResult, MacError> {
        self.turn().await;
        Ok(ScanResult { scan_type: ty, pan_descriptor: self.beacons.iter().map(descriptor).collect() })
    }
    async fn associate(&self, _: u8, _: Address, _: CapabilityInformation) -> Result<AssociationResponse, MacError> {
        self.turn().await;
        Ok(AssociationResponse {
            device_address: IeeeAddress(0),
            association_address: ShortAddress(0xffff),
            status: AssociationStatus::NetworkAtCapacity,
        })
    }
    async fn poll_data(&self, _: Address, _: &mut [u8]) -> Result<(usize, u8), MacError> {
        self.turn().await;
        Err(MacError::NoData)
    }
    async fn receive(&self, _: &mut [u8]) -> Result<(usize, u8), MacError> {
        unreachable!()
    }
    async fn transmit_data(&self, _: Address, payload: &[u8]) -> Result<(), MacError> {
        black_box(payload);
        self.turn().await;
        Ok(())
    }
    fn random_u32(&self) -> u32 {
        0
    }
}

fn complete<F: Future>(f: F) -> F::Output {
    let mut f = pin!(f);
    let mut cx = Context::from_waker(Waker::noop());
    loop {
        if let Poll::Ready(v) = f.as_mut().poll(&mut cx) {
            return v;
        }
    }
}

const EPID: u64 = 0xaa;

fn beacons() -> Vec<Beacon> {
    (0..16u16)
        .map(|i| Beacon {
            channel: 11 + i as u8,
            pan: 0x0011,
            address: BeaconAddress::Short(i),
            epid: EPID,
            permit: true,
            router: true,
            end_device: true,
            // descending, so that the sort has the most to do
            depth: 15 - i as u8,
            update_id: 3,
            lqi: 200,
            stack_profile: 2,
            version: 2,
            beacon_order: 15,
            superframe_order: 15,
        })
        .collect()
}

fn request(kind: RejoinNetwork) -> NlmeJoinRequest {
    NlmeJoinRequest {
        extended_pan_id: IeeeAddress(EPID),
        rejoin_network: kind,
        capability_information: nib::CapabilityInformation(0x8e),
        security_enabled: true,
        scan_channels: 11..27,
        scan_duration: 3,
    }
}

fn fresh<const P: bool>(address: u16) -> Nlme<BenchMac<P>> {
    let nib = nib::get_ref();
    nib.reset_all();
    nib.update_stack_profile(|v| *v = 1);
    nib.update_network_address(|v| *v = address);
    Nlme::new(BenchMac { beacons: beacons(), requests: Cell::new(0) })
}

fn select<const P: bool>(nlme: &Nlme<BenchMac<P>>) -> usize {
    let c = nlme.probe_candidates(black_box(EPID), black_box(true), black_box(true));
    black_box(&c).len()
}

fn discover<const P: bool>(nlme: &Nlme<BenchMac<P>>) {
    black_box(complete(nlme.network_discovery(11..27, 3)).expect("discovery"));
}

fn join<const P: bool>(nlme: &Nlme<BenchMac<P>>) {
    discover(nlme);
    let c = complete(nlme.join(request(RejoinNetwork::Association)));
    assert_eq!(c.status, NlmeJoinStatus::PanAtCapacity);
    black_box(c);
}

fn rejoin<const P: bool>(nlme: &Nlme<BenchMac<P>>) {
    // no remembered parent: the last one tried is forgotten
    nib::get_ref().update_neighbor_table(|t| t.clear());
    let c = complete(nlme.join(request(RejoinNetwork::NwkRejoin)));
    assert_eq!(c.status, NlmeJoinStatus::MacError);
    black_box(c);
}

/// Does the work so many times; what it answered, or `None` where there is no such work.
pub fn work(name: &str, times: u64) -> Option<String> {
    crate::hooks::set_logging(false);
    let mut requests = 0;
    match name {
        "choice" => {
            let nlme = fresh::<true>(0xffff);
            discover(&nlme);
            for _ in 0..times {
                requests += select(&nlme) as u64;
            }
        }
        "join" => {
            let nlme = fresh::<true>(0xffff);
            (0..times).for_each(|_| join(&nlme));
            requests = nlme.probe_mac().requests.get();
        }
        "rejoin" => {
            let nlme = fresh::<true>(0x1234);
            (0..times).for_each(|_| rejoin(&nlme));
            requests = nlme.probe_mac().requests.get();
        }
        // what the scripted radio does of its own for a scan
        "scan" => {
            let beacons = beacons();
            for _ in 0..times {
                let list: zigbee_mac::mlme::PanDescriptorList = black_box(&beacons).iter().map(descriptor).collect();
                requests += black_box(&list).len() as u64;
            }
        }
        _ => return None,
    }
    Some(format!("{name}\t{times}\t{requests}\n"))
}

fn best(runs: usize, calls: u64, mut f: impl FnMut()) -> f64 {
    let mut best = f64::MAX;
    for _ in 0..runs {
        let t = Instant::now();
        for _ in 0..calls {
            f();
        }
        best = best.min(t.elapsed().as_nanos() as f64 / calls as f64);
    }
    best
}

fn times<const P: bool>(what: &str) {
    let nlme = fresh::<P>(0xffff);
    let failing = best(9, 20_000, || join(&nlme));
    let nlme = fresh::<P>(0x1234);
    let again = best(9, 4_000, || rejoin(&nlme));
    println!("discovery and failing join, 16 candidates, {what}\t{failing:.0}");
    println!("rejoin, 16 candidates, 20 polls each, {what}\t{again:.0}");
}

/// Nanoseconds per call, best of 9 runs.
pub fn bench() {
    crate::hooks::set_logging(false);
    let nlme = fresh::<false>(0xffff);
    discover(&nlme);
    let choice = best(9, 200_000, || assert_eq!(select(&nlme), 16));
    println!("choice of candidates, 16 entries\t{choice:.0}");
    times::<false>("radio ready at once");
    times::<true>("radio pending once for each request");
}
