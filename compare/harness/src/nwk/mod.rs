//! Stand-in for the root of `zigbee-core/src/nwk`.
//!
//! `nib/mod.rs`, `frame/mod.rs` and `frame/frame_control.rs` are links into the source, made when the harness is built: they declare modules
//! that are stood in for here, and Rust looks for those beside the name under which a file is read.
pub mod frame;
pub mod nib;
#[path = "../../source/zigbee-core/src/nwk/nlme/mod.rs"]
pub mod nlme;
