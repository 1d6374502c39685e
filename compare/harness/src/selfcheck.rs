//! Checks of the tables that document 01 gives, over all their inputs, and of the order in which the sort leaves ties.
use crate::nwk::frame::command::end_device_timeout_request::timeout_seconds;
use crate::nwk::nib::{CapabilityInformation, link_cost_from_lqi};
use crate::scenarios::Rng;

pub fn selfcheck() -> String {
    let mut out = String::new();
    let mut line = |what: &str, bad: usize| out.push_str(&format!("{what}\t{}\n", if bad == 0 { "holds" } else { "FAILS" }));

    let table = |lqi: u8| match lqi {
        128.. => 1,
        77.. => 2,
        26.. => 3,
        11.. => 5,
        1.. => 6,
        0 => 7,
    };
    line("link cost of all 256 LQI", (0..=255).filter(|l| link_cost_from_lqi(*l) != table(*l)).count());

    let timer = |i: u8| timeout_seconds(i).map_or(0, |s| s.saturating_mul(1000));
    line("P8 index 0 is 10,000 ms", usize::from(timer(0) != 10_000));
    line("P8 index 14 is 983,040,000 ms", usize::from(timer(14) != 983_040_000));
    line("P8 index 15 to 255 inactive", (15..=255).filter(|i| timer(*i) != 0).count());
    line("index 1 to 14: 120 s doubled", (1..=14u8).filter(|i| timer(*i) != 120_000u32 << (i - 1)).count());

    line(
        "capability bits 1 2 3 6 7",
        (0..=255u8)
            .filter(|v| {
                let c = CapabilityInformation(*v);
                let bit = |i: u8| v >> i & 1 != 0;
                (c.device_type(), c.power_source(), c.receiver_on_when_idle(), c.security_capability(), c.allocate_address())
                    != (bit(1), bit(2), bit(3), bit(6), bit(7))
            })
            .count(),
    );

    // the sort of the candidate list: ties stay in order for at most 20
    let mut r = Rng::new(5);
    let mut unstable = 0;
    for _ in 0..1_000_000 {
        let n = r.below(17) as usize;
        let keys: Vec<u8> = (0..n).map(|_| r.below(5) as u8).collect();
        let mut a: Vec<usize> = (0..n).collect();
        a.sort_unstable_by_key(|&i| keys[i]);
        unstable += usize::from(!a.is_sorted_by_key(|&i| (keys[i], i)));
    }
    line("sort_unstable_by_key keeps ties in order, up to 16", unstable);
    out
}
