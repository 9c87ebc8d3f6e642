// In place of the original's lib.rs: what utils.rs and xr/*.rs ask of their crate root, and no more.
// The traits and their provided functions are the original's, word for word in what they do. The
// errors are its error enums without `thiserror` (no crate from a registry) and without the cases
// that only other RTCP packets use. `build` sets this file beside the unchanged utils.rs and xr/.

use crate::utils;

pub use crate::xr::dlrr::{
    DelaySinceLastReceiverReport, DelaySinceLastReceiverReportBlock,
    DelaySinceLastReceiverReportBlockBuilder, DelaySinceLastReceiverReportBuilder,
};
pub use crate::xr::duplicate_rle::{DuplicateRle, DuplicateRleBuilder};
pub use crate::xr::loss_rle::{LossRle, LossRleBuilder};
pub use crate::xr::packet_receipt_time::{PacketReceiptTimes, PacketReceiptTimesBuilder};
pub use crate::xr::receiver_reference_time::{
    ReceiverReferenceTime, ReceiverReferenceTimeBuilder,
};
pub use crate::xr::rle::RleChunk;
pub use crate::xr::{
    Xr, XrBlock, XrBlockBuilder, XrBlockBuilderExt, XrBlockParser, XrBlockParserExt,
    XrBlockStaticType, XrBuilder,
};

pub trait RtcpPacket {
    const VERSION: u8 = 2;
    const MAX_COUNT: u8 = 0x1f;
    const MIN_PACKET_LEN: usize;
    const PACKET_TYPE: u8;
}

pub trait RtcpPacketParser<'a>: RtcpPacket + Sized {
    fn parse(data: &'a [u8]) -> Result<Self, RtcpParseError>;
    fn header_data(&self) -> [u8; 4];
}

pub trait RtcpPacketParserExt<'a>: RtcpPacketParser<'a> {
    fn version(&self) -> u8 {
        utils::parser::parse_version(&self.header_data())
    }
    fn type_(&self) -> u8 {
        utils::parser::parse_packet_type(&self.header_data())
    }
    fn subtype(&self) -> u8 {
        utils::parser::parse_count(&self.header_data())
    }
    fn length(&self) -> usize {
        utils::parser::parse_length(&self.header_data())
    }
    fn count(&self) -> u8 {
        utils::parser::parse_count(&self.header_data())
    }
}

impl<'a, T: RtcpPacketParser<'a>> RtcpPacketParserExt<'a> for T {}

pub trait RtcpPacketWriter: std::fmt::Debug + Send + Sync {
    fn calculate_size(&self) -> Result<usize, RtcpWriteError>;
    fn write_into_unchecked(&self, buf: &mut [u8]) -> usize;
    fn get_padding(&self) -> Option<u8>;
}

pub trait RtcpPacketWriterExt: RtcpPacketWriter {
    fn write_into(&self, buf: &mut [u8]) -> Result<usize, RtcpWriteError> {
        let req_size = self.calculate_size()?;
        if buf.len() < req_size {
            return Err(RtcpWriteError::OutputTooSmall(req_size));
        }

        Ok(self.write_into_unchecked(&mut buf[..req_size]))
    }
}

impl<T: RtcpPacketWriter> RtcpPacketWriterExt for T {}

#[derive(Debug, PartialEq, Eq)]
pub enum RtcpParseError {
    UnsupportedVersion(u8),
    Truncated { expected: usize, actual: usize },
    TooLarge { expected: usize, actual: usize },
    InvalidPadding,
    WrongImplementation,
    PacketTypeMismatch { actual: u8, requested: u8 },
}

#[derive(Debug, PartialEq, Eq)]
pub enum RtcpWriteError {
    OutputTooSmall(usize),
    InvalidPadding { padding: u8 },
}

pub mod prelude {
    pub use super::{
        RtcpPacket, RtcpPacketParser, RtcpPacketParserExt, RtcpPacketWriter, RtcpPacketWriterExt,
        XrBlockBuilder, XrBlockBuilderExt, XrBlockParser, XrBlockParserExt, XrBlockStaticType,
    };
}
