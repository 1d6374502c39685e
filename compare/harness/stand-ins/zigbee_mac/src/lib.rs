//! Stand-in for the root of `zigbee_mac`; `mlme` is the source.
#![allow(unexpected_cfgs, async_fn_in_trait, dead_code, unused_imports)]

pub use ieee802154::mac::Address;
pub use ieee802154::mac::ExtendedAddress;
pub use ieee802154::mac::PanId;
pub use ieee802154::mac::ShortAddress as MacShortAddress;
pub use ieee802154::mac::beacon::BeaconOrder;
pub use ieee802154::mac::beacon::SuperframeOrder;
pub use ieee802154::mac::beacon::SuperframeSpecification;
pub use ieee802154::mac::command::AssociationStatus;
pub use ieee802154::mac::command::CapabilityInformation;

#[path = "../../../source/zigbee-mac/src/mlme.rs"]
pub mod mlme;

/// `PanDescriptor` is non-exhaustive, so only this crate can build one.
pub fn pan_descriptor(
    channel: u8,
    coord_pan_id: u16,
    coord_address: Address,
    superframe_spec: SuperframeSpecification,
    link_quality: u8,
    zigbee_beacon: mlme::ZigbeeBeacon,
) -> mlme::PanDescriptor {
    mlme::PanDescriptor {
        channel,
        coord_addr_mode: match coord_address {
            Address::Short(..) => 2,
            Address::Extended(..) => 3,
        },
        coord_pan_id: zigbee_types::ShortAddress(coord_pan_id),
        coord_address,
        superframe_spec,
        link_quality,
        security_use: false,
        zigbee_beacon,
    }
}
