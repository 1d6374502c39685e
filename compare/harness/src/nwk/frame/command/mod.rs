//! Stand-in for the NWK commands; the two timeout commands and the rejoin request are the source's.
use byte::{BytesExt, TryRead, TryWrite};

#[path = "../../../../source/zigbee-core/src/nwk/frame/command/end_device_timeout_request.rs"]
pub mod end_device_timeout_request;
#[path = "../../../../source/zigbee-core/src/nwk/frame/command/end_device_timeout_response.rs"]
pub mod end_device_timeout_response;
#[path = "../../../../source/zigbee-core/src/nwk/frame/command/rejoin_request.rs"]
pub mod rejoin_request;

use end_device_timeout_request::EndDeviceTimeoutRequest;
use end_device_timeout_response::EndDeviceTimeoutResponse;
use leave::Leave;
use rejoin_request::RejoinRequest;
use rejoin_response::RejoinResponse;

pub mod leave {
    use zigbee_macros::impl_byte;
    impl_byte! {
        #[derive(Debug, Clone)]
        pub struct Leave {
            pub command_options: CommandOptions,
        }
    }
    impl_byte! {
        #[derive(Debug, Clone, Copy, PartialEq, Eq)]
        pub struct CommandOptions(pub u8);
    }
    /// Bit 5 rejoin, bit 6 request, bit 7 remove children (3.4.4.3).
    impl CommandOptions {
        pub fn rejoin(&self) -> bool {
            self.0 & 0x20 != 0
        }
        pub fn request(&self) -> bool {
            self.0 & 0x40 != 0
        }
        pub fn remove_children(&self) -> bool {
            self.0 & 0x80 != 0
        }
        pub fn set_rejoin(self, v: bool) -> Self {
            Self(self.0 & !0x20 | u8::from(v) << 5)
        }
        pub fn set_request(self, v: bool) -> Self {
            Self(self.0 & !0x40 | u8::from(v) << 6)
        }
        pub fn set_remove_children(self, v: bool) -> Self {
            Self(self.0 & !0x80 | u8::from(v) << 7)
        }
    }
}

pub mod rejoin_response {
    use zigbee_macros::impl_byte;
    use zigbee_types::ShortAddress;
    impl_byte! {
        #[derive(Debug, Clone)]
        pub struct RejoinResponse {
            pub network_address: ShortAddress,
            pub status: u8,
        }
    }
}

pub mod network_status {
    #[derive(Debug, Clone, Copy, PartialEq, Eq)]
    pub enum NetworkStatusCode {
        ParentLinkFailure,
    }
}

/// The payload of a command that the NLME ignores.
#[derive(Debug, Clone)]
pub struct Ignored<'a>(pub &'a [u8]);

#[derive(Debug, Clone)]
pub enum Command<'a> {
    RouteRequest(Ignored<'a>),
    RouteReply(Ignored<'a>),
    NetworkStatus(Ignored<'a>),
    Leave(Leave),
    RouteRecord(Ignored<'a>),
    RejoinRequest(RejoinRequest),
    RejoinResponse(RejoinResponse),
    LinkStatus(Ignored<'a>),
    NetworkReport(Ignored<'a>),
    NetworkUpdate(Ignored<'a>),
    EndDeviceTimeoutRequest(EndDeviceTimeoutRequest),
    EndDeviceTimeoutResponse(EndDeviceTimeoutResponse),
    LinkPowerDelta(Ignored<'a>),
    Reserved(u8),
}

impl TryWrite<()> for Command<'_> {
    fn try_write(self, bytes: &mut [u8], _: ()) -> byte::Result<usize> {
        let offset = &mut 0;
        let mut plain = |id: u8, rest: &[u8]| -> byte::Result<usize> {
            bytes.write_with(offset, id, ())?;
            bytes.write_with(offset, rest, ())?;
            Ok(*offset)
        };
        match self {
            Command::RouteRequest(r) => return plain(0x01, r.0),
            Command::RouteReply(r) => return plain(0x02, r.0),
            Command::NetworkStatus(r) => return plain(0x03, r.0),
            Command::RouteRecord(r) => return plain(0x05, r.0),
            Command::LinkStatus(r) => return plain(0x08, r.0),
            Command::NetworkReport(r) => return plain(0x09, r.0),
            Command::NetworkUpdate(r) => return plain(0x0a, r.0),
            Command::LinkPowerDelta(r) => return plain(0x0d, r.0),
            Command::Reserved(id) => return plain(id, &[]),
            Command::Leave(c) => {
                bytes.write_with(offset, 0x04u8, ())?;
                bytes.write_with(offset, c, ())?;
            }
            Command::RejoinRequest(c) => {
                bytes.write_with(offset, 0x06u8, ())?;
                bytes.write_with(offset, c, ())?;
            }
            Command::RejoinResponse(c) => {
                bytes.write_with(offset, 0x07u8, ())?;
                bytes.write_with(offset, c, ())?;
            }
            Command::EndDeviceTimeoutRequest(c) => {
                bytes.write_with(offset, 0x0bu8, ())?;
                bytes.write_with(offset, c, ())?;
            }
            Command::EndDeviceTimeoutResponse(c) => {
                bytes.write_with(offset, 0x0cu8, ())?;
                bytes.write_with(offset, c, ())?;
            }
        }
        Ok(*offset)
    }
}

impl<'a> TryRead<'a, ()> for Command<'a> {
    fn try_read(bytes: &'a [u8], _: ()) -> byte::Result<(Self, usize)> {
        let offset = &mut 0;
        let id: u8 = bytes.read_with(offset, ())?;
        let rest = Ignored(&bytes[1..]);
        let command = match id {
            0x01 => Command::RouteRequest(rest),
            0x02 => Command::RouteReply(rest),
            0x03 => Command::NetworkStatus(rest),
            0x04 => Command::Leave(bytes.read_with(offset, ())?),
            0x05 => Command::RouteRecord(rest),
            0x06 => Command::RejoinRequest(bytes.read_with(offset, ())?),
            0x07 => Command::RejoinResponse(bytes.read_with(offset, ())?),
            0x08 => Command::LinkStatus(rest),
            0x09 => Command::NetworkReport(rest),
            0x0a => Command::NetworkUpdate(rest),
            0x0b => Command::EndDeviceTimeoutRequest(bytes.read_with(offset, ())?),
            0x0c => Command::EndDeviceTimeoutResponse(bytes.read_with(offset, ())?),
            0x0d => Command::LinkPowerDelta(rest),
            id => Command::Reserved(id),
        };
        Ok((command, bytes.len()))
    }
}
