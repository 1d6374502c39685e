//! Stand-in for the security service: frames go out and come in as they are.
use byte::{BytesExt, TryRead};

use crate::nwk::frame::Frame as NwkFrame;
use crate::nwk::frame::header::Header as NwkHeader;

pub mod frame {
    #[derive(Debug, Clone, Copy, PartialEq, Eq)]
    pub enum SecurityLevel {
        EncMic32,
    }
    /// Imported by the frame module, not used by what is compiled here.
    pub struct AuxFrameHeader;
}

#[derive(Debug)]
pub enum SecurityError {
    ParseError(byte::Error),
    Unspecified,
}
impl From<byte::Error> for SecurityError {
    fn from(e: byte::Error) -> Self {
        Self::ParseError(e)
    }
}
impl From<SecurityError> for byte::Error {
    fn from(e: SecurityError) -> Self {
        match e {
            SecurityError::ParseError(e) => e,
            SecurityError::Unspecified => byte::Error::BadInput { err: "frame security failed" },
        }
    }
}

/// First byte of what the scripted MAC delivers as a frame that can't be decoded. (No frame begins with it: protocol version 15.)
pub const UNDECODABLE: u8 = 0xff;

pub struct SecurityContext<'a>(core::marker::PhantomData<&'a ()>);

impl SecurityContext<'_> {
    pub fn get() -> Self {
        Self(core::marker::PhantomData)
    }

    /// Header and payload, one after the other.
    pub fn encrypt_nwk_frame_in_place(&self, nwk_frame: NwkFrame<'_>, buf: &mut [u8]) -> Result<usize, SecurityError> {
        let offset = &mut 0;
        match nwk_frame {
            NwkFrame::Data(f) => {
                buf.write_with(offset, f.header, ())?;
                buf.write_with(offset, f.payload, ())?;
            }
            NwkFrame::NwkCommand(f) => {
                buf.write_with(offset, f.header, ())?;
                buf.write_with(offset, f.command, ())?;
            }
            NwkFrame::Reserved(h) | NwkFrame::InterPan(h) => buf.write_with(offset, h, ())?,
        }
        Ok(*offset)
    }

    pub fn decrypt_nwk_frame_in_place<'b>(&self, buf: &'b mut [u8]) -> Result<NwkFrame<'b>, SecurityError> {
        if buf.first() == Some(&UNDECODABLE) {
            return Err(SecurityError::Unspecified);
        }
        let buf: &'b [u8] = buf;
        let (header, n) = NwkHeader::try_read(buf, ())?;
        Ok(NwkFrame::from_payload(header, &buf[n..])?)
    }
}
