//! Stand-in for `ieee802154`: the types that the source names.
pub mod mac {
    #[derive(Debug, Clone, Copy, PartialEq, Eq)]
    pub struct PanId(pub u16);
    #[derive(Debug, Clone, Copy, PartialEq, Eq)]
    pub struct ShortAddress(pub u16);
    #[derive(Debug, Clone, Copy, PartialEq, Eq)]
    pub struct ExtendedAddress(pub u64);
    #[derive(Debug, Clone, Copy, PartialEq, Eq)]
    pub enum Address {
        Short(PanId, ShortAddress),
        Extended(PanId, ExtendedAddress),
    }

    pub mod beacon {
        /// 0..=14, or 15 for none.
        #[derive(Debug, Clone, Copy, PartialEq, Eq)]
        pub enum BeaconOrder {
            BeaconOrder(u8),
            OnDemand,
        }
        #[derive(Debug, Clone, Copy, PartialEq, Eq)]
        pub enum SuperframeOrder {
            SuperframeOrder(u8),
            Inactive,
        }
        impl From<u8> for BeaconOrder {
            fn from(v: u8) -> Self {
                if v < 15 { Self::BeaconOrder(v) } else { Self::OnDemand }
            }
        }
        impl From<BeaconOrder> for u8 {
            fn from(v: BeaconOrder) -> u8 {
                match v {
                    BeaconOrder::BeaconOrder(v) => v,
                    BeaconOrder::OnDemand => 15,
                }
            }
        }
        impl From<u8> for SuperframeOrder {
            fn from(v: u8) -> Self {
                if v < 15 { Self::SuperframeOrder(v) } else { Self::Inactive }
            }
        }
        impl From<SuperframeOrder> for u8 {
            fn from(v: SuperframeOrder) -> u8 {
                match v {
                    SuperframeOrder::SuperframeOrder(v) => v,
                    SuperframeOrder::Inactive => 15,
                }
            }
        }
        #[derive(Debug, Clone, Copy, PartialEq, Eq)]
        pub struct SuperframeSpecification {
            pub beacon_order: BeaconOrder,
            pub superframe_order: SuperframeOrder,
            pub final_cap_slot: u8,
            pub battery_life_extension: bool,
            pub pan_coordinator: bool,
            pub association_permit: bool,
        }
    }

    pub mod command {
        #[derive(Debug, Clone, Copy, PartialEq, Eq)]
        pub enum AssociationStatus {
            Successful,
            NetworkAtCapacity,
            AccessDenied,
            HoppingSequenceOffsetDuplication,
            FastAssociationSuccessful,
            /// Any other number, so that a trace can name it; the real crate has no such variant.
            Other(u8),
        }
        impl From<AssociationStatus> for u8 {
            fn from(v: AssociationStatus) -> u8 {
                match v {
                    AssociationStatus::Successful => 0,
                    AssociationStatus::NetworkAtCapacity => 1,
                    AssociationStatus::AccessDenied => 2,
                    AssociationStatus::HoppingSequenceOffsetDuplication => 3,
                    AssociationStatus::FastAssociationSuccessful => 0x80,
                    AssociationStatus::Other(v) => v,
                }
            }
        }
        impl From<u8> for AssociationStatus {
            fn from(v: u8) -> Self {
                match v {
                    0 => Self::Successful,
                    1 => Self::NetworkAtCapacity,
                    2 => Self::AccessDenied,
                    3 => Self::HoppingSequenceOffsetDuplication,
                    0x80 => Self::FastAssociationSuccessful,
                    v => Self::Other(v),
                }
            }
        }
        #[derive(Debug, Clone, Copy, PartialEq, Eq)]
        pub struct CapabilityInformation {
            pub full_function_device: bool,
            pub mains_power: bool,
            pub idle_receive: bool,
            pub frame_protection: bool,
            pub allocate_address: bool,
        }
    }
}
