use crate::{ask, Reading, Refusal, XrBuilder};
use std::iter::FusedIterator;

/// A parsed extended report packet (RFC 3611), in one of the two readings.
///
/// ```
/// use giunchemis::{LossRle, Reading, Xr};
///
/// let packet = [
///     0x80, 0xcf, 0x00, 0x05, 0x00, 0x00, 0x00, 0x01, 0x01, 0x00, 0x00, 0x03,
///     0x00, 0x00, 0x00, 0x07, 0x00, 0x0a, 0x00, 0x0e, 0x40, 0x02, 0x40, 0x02,
/// ];
/// for (reading, listed) in [(Reading::Standard, vec![10, 11, 12, 13]), (Reading::Crate, vec![10, 11])] {
///     let xr = Xr::parse_as(reading, &packet)?;
///     assert_eq!(xr.sender_ssrc(), 1);
///     for block in xr.block_iter() {
///         assert_eq!((block.block_type(), block.length()), (1, 16));
///         let loss = block.parse_into::<LossRle>()?;
///         assert_eq!(loss.sequence_iter().collect::<Vec<_>>(), listed);
///     }
/// }
/// # Ok::<(), giunchemis::Refusal>(())
/// ```
#[derive(Clone, Copy, Debug, PartialEq, Eq)]
pub struct Xr<'a> {
    reading: Reading,
    data: &'a [u8],
    blocks: usize,
    sender_ssrc: u32,
}

impl<'a> Xr<'a> {
    /// The RTCP packet type of extended reports.
    pub const PACKET_TYPE: u8 = 207;

    /// The fewest bytes that a packet has in the crate's reading.
    pub const MIN_PACKET_LEN: usize = 12;

    /// The fewest bytes that a packet has in the standard reading: header and sender, and no blocks.
    pub const LEAST_LEN: usize = 8;

    /// Parses a packet in the standard reading: 1 to 6.
    pub fn parse(data: &'a [u8]) -> Result<Self, Refusal> {
        Self::parse_as(Reading::Standard, data)
    }

    /// Parses a packet in the reading that is asked: 1 to 6.
    pub fn parse_as(reading: Reading, data: &'a [u8]) -> Result<Self, Refusal> {
        let (blocks, sender_ssrc) = ask::parse(reading, data)?;
        Ok(Self { reading, data, blocks, sender_ssrc })
    }

    /// A builder of packets.
    pub fn builder() -> XrBuilder {
        XrBuilder::default()
    }

    /// The reading in which it was parsed.
    pub fn reading(&self) -> Reading {
        self.reading
    }

    /// The packet's bytes, as they were given.
    pub fn data(&self) -> &'a [u8] {
        self.data
    }

    /// The packet's four header bytes.
    pub fn header_data(&self) -> [u8; 4] {
        [self.data[0], self.data[1], self.data[2], self.data[3]]
    }

    /// The packet's length in bytes.
    pub fn length(&self) -> usize {
        self.data.len()
    }

    /// How many bytes of padding the packet has, where its padding bit is set.
    pub fn padding(&self) -> Option<u8> {
        if self.data[0] & 0x20 == 0 {
            return None;
        }
        self.data.last().copied()
    }

    /// The SSRC of the sender.
    pub fn sender_ssrc(&self) -> u32 {
        self.sender_ssrc
    }

    /// How many blocks the packet has in its reading.
    pub fn block_count(&self) -> usize {
        self.blocks
    }

    /// The blocks in order, each at the cost of one.
    pub fn block_iter(&self) -> XrBlockIter<'a> {
        XrBlockIter { reading: self.reading, data: self.data, at: Self::LEAST_LEN, left: self.blocks }
    }

    /// The block of an index, from 0: 9. It walks the packet; to see all blocks, take [`block_iter`](Xr::block_iter).
    pub fn block(&self, k: usize) -> Result<XrBlock<'a>, Refusal> {
        let view = ask::locate(self.reading, self.data, k)?;
        Ok(XrBlock::at(self.reading, self.data, view.start).0)
    }
}

/// The blocks of a packet ([`Xr::block_iter`]).
#[derive(Clone, Debug)]
pub struct XrBlockIter<'a> {
    reading: Reading,
    data: &'a [u8],
    at: usize,
    left: usize,
}

impl<'a> Iterator for XrBlockIter<'a> {
    type Item = XrBlock<'a>;

    fn next(&mut self) -> Option<XrBlock<'a>> {
        if self.left == 0 {
            return None;
        }
        let (block, next) = XrBlock::at(self.reading, self.data, self.at);
        self.at = next;
        self.left -= 1;
        Some(block)
    }

    fn size_hint(&self) -> (usize, Option<usize>) {
        (self.left, Some(self.left))
    }
}

impl ExactSizeIterator for XrBlockIter<'_> {}
impl FusedIterator for XrBlockIter<'_> {}

/// One block of a packet: its header, and the part of the packet that its reading looks at.
#[derive(Clone, Copy, Debug, PartialEq, Eq)]
pub struct XrBlock<'a> {
    reading: Reading,
    view: &'a [u8],
    length: usize,
    block_type: u8,
    type_specific_byte: u8,
}

impl<'a> XrBlock<'a> {
    /// The block that begins at a place of a parsed packet, and where the next one begins.
    fn at(reading: Reading, data: &'a [u8], at: usize) -> (Self, usize) {
        let here = ask::block_at(reading, data, at);
        let block = XrBlock {
            reading,
            view: &data[at..at + here.size],
            length: here.length,
            block_type: here.block_type,
            type_specific_byte: here.type_specific_byte,
        };
        (block, here.next)
    }

    /// The block as the record of its type: 10, then 7, then 8.
    pub fn parse_into<T: XrBlockParser<'a>>(&self) -> Result<T, Refusal> {
        T::from_block(*self)
    }

    /// The reading in which the packet was parsed.
    pub fn reading(&self) -> Reading {
        self.reading
    }

    /// The block's view, that part of the packet itself: its own [`length`](XrBlock::length) bytes in the standard
    /// reading, everything up to the packet's end in the crate's.
    pub fn data(&self) -> &'a [u8] {
        self.view
    }

    /// The block's four header bytes: its type, the type's own byte, and two bytes of length.
    pub fn header_data(&self) -> [u8; 4] {
        [self.view[0], self.view[1], self.view[2], self.view[3]]
    }

    /// The block's type.
    pub fn block_type(&self) -> u8 {
        self.block_type
    }

    /// The header byte whose meaning depends on the type.
    pub fn type_specific_byte(&self) -> u8 {
        self.type_specific_byte
    }

    /// The block's length in bytes, its header included.
    pub fn length(&self) -> usize {
        self.length
    }
}

/// A record that has a block type of its own.
pub trait XrBlockStaticType {
    /// The block type.
    const BLOCK_TYPE: u8;
}

/// A record that can be had of a block ([`XrBlock::parse_into`]).
///
/// A program can implement it for types of its own. The library knows types 1 to 6; of other blocks
/// [`XrBlock::data`] has the bytes, unchecked.
pub trait XrBlockParser<'a>: XrBlockStaticType + Sized {
    /// The record of a block, or why there is none.
    fn from_block(block: XrBlock<'a>) -> Result<Self, Refusal>;
}
