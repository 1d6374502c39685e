//! The way to the private parts of the `Nlme`: the stand-in `derive(Error)` calls `probe!` on `NetworkError`, so that what stands here is
//! compiled inside that module of the source, whose file stays as it is.

/// What the `Nlme` holds beside the NIB.
#[derive(Debug, Clone, PartialEq, Eq, Default)]
pub struct Volatile {
    pub sequence: u8,
    pub pending: u8,
    pub timer: u32,
    pub failures: Vec<(u16, u8)>,
    /// network address, status
    pub rejoin_response: Option<(u16, u8)>,
    /// status, parent information
    pub timeout_response: Option<(u8, u8)>,
    /// device address, rejoin
    pub leave_indication: Option<(Option<u64>, bool)>,
    pub status_indication: Option<u16>,
}

macro_rules! probe {
    () => {
        impl<M: Mlme> Nlme<M> {
            pub(crate) fn probe_candidates(&self, extended_pan_id: u64, as_router: bool, permit: bool) -> heapless::Vec<usize, 16> {
                self.select_candidates(IeeeAddress(extended_pan_id), as_router, permit)
            }

            pub(crate) fn probe_mac(&self) -> &M {
                &self.mac
            }

            pub(crate) fn probe_read(&self) -> crate::probe::Volatile {
                crate::probe::Volatile {
                    sequence: self.nwk_seq.load(Ordering::Relaxed),
                    pending: self.pending_timeout_request.load(Ordering::Relaxed),
                    timer: self.parent_timeout_remaining_ms.load(Ordering::Relaxed),
                    failures: self.transmit_failures.read().iter().map(|(a, n)| (a.0, *n)).collect(),
                    rejoin_response: self.rejoin_response.peek().map(|r| (r.network_address.0, r.status)),
                    timeout_response: self.timeout_response.peek().map(|r| (r.status, r.parent_information)),
                    leave_indication: self.leave_indication.peek().map(|i| (i.device_address.map(|a| a.0), i.rejoin)),
                    status_indication: self.nwk_status_indication.peek().map(|i| i.network_address.0),
                }
            }

            pub(crate) fn probe_write(&self, pending: u8, timer: u32) {
                self.pending_timeout_request.store(pending, Ordering::Relaxed);
                self.parent_timeout_remaining_ms.store(timer, Ordering::Relaxed);
            }

            /// False when there are 16 already.
            pub(crate) fn probe_failure(&self, address: u16, count: u8) -> bool {
                self.transmit_failures.write().push((ShortAddress(address), count)).is_ok()
            }
        }
    };
}
