//! What a boot makes, as values, and zero pages.

use crate::ffi;
use std::fmt;

/// Usable memory, in an E820 table.
pub const E820_RAM: u32 = 1;
/// Reserved addresses, in an E820 table.
pub const E820_RESERVED: u32 = 2;

/// The bytes of a frame.
const FRAME_SIZE: u64 = 4096;

/// A range of addresses, from `first` to `last`, both included.
#[derive(Clone, Copy, Debug, PartialEq, Eq)]
pub struct Range {
    pub first: u64,
    pub last: u64,
}

impl Range {
    /// Returns the number of bytes of the range.
    pub fn size(&self) -> u64 {
        self.last - self.first + 1
    }

    /// Returns the range of `size` bytes from address `base` on, or `None` if `size` is 0.
    fn of(base: u64, size: u64) -> Option<Range> {
        Some(Range {
            first: base,
            last: base + size.checked_sub(1)?,
        })
    }
}

/// A run of the memory map: a range whose addresses all have one type.
#[derive(Clone, Copy, Debug, PartialEq, Eq)]
pub struct Run {
    pub range: Range,
    /// The type (`enum e820_type`).
    pub kind: u32,
}

/// Why there is or isn't a crash area.
#[derive(Clone, Copy, Debug, Default, PartialEq, Eq)]
pub enum CrashState {
    /// The command line requests no crash area.
    #[default]
    NotRequested,
    /// The area is reserved.
    Reserved,
    /// No free range is large enough for the area.
    NoArea,
    /// The requested range isn't free, or its base isn't a multiple of 1 MiB.
    InUse,
    /// No free range below 4 GiB is large enough for the area's low part.
    LowFailed,
}

/// The crash area and its low part.
#[derive(Clone, Copy, Debug, Default, PartialEq, Eq)]
pub struct Crash {
    pub state: CrashState,
    pub high: Option<Range>,
    pub low: Option<Range>,
}

/// A record of memblock's table of memory.
#[derive(Clone, Copy, Debug, PartialEq, Eq)]
pub struct MemoryRange {
    pub range: Range,
    pub node: u32,
    /// Whether the firmware keeps this memory twice.
    pub is_mirrored: bool,
}

/// A node that has memory.
#[derive(Clone, Copy, Debug, PartialEq, Eq)]
pub struct Node {
    pub node: u32,
    /// Its proximity domain, if the SRAT is used.
    pub domain: Option<u32>,
}

/// The frames that a node spans in a zone.
#[derive(Clone, Copy, Debug, PartialEq, Eq)]
pub struct ZoneSpan {
    pub node: u32,
    pub zone: Zone,
    /// The addresses of these frames.
    pub range: Range,
    /// The number of frames in the range that are memory of this node.
    pub present: u64,
}

/// The zone of a frame.
#[derive(Clone, Copy, Debug, PartialEq, Eq)]
pub enum Zone {
    /// Below 16 MiB.
    Dma,
    /// From 16 MiB to below 4 GiB.
    Dma32,
    /// From 4 GiB on.
    Normal,
}

/// A free block: 2^order frames of 4,096 bytes.
#[derive(Clone, Copy, Debug, PartialEq, Eq)]
pub struct Block {
    pub node: u32,
    pub zone: Zone,
    pub order: u32,
    /// Its addresses.
    pub range: Range,
}

pub(crate) fn run(run: &ffi::MapRun) -> Option<Run> {
    Some(Run {
        range: Range::of(run.base, run.size)?,
        kind: run.kind,
    })
}

pub(crate) fn crash(area: &ffi::CrashArea) -> Crash {
    Crash {
        state: match area.state {
            1 => CrashState::Reserved,
            2 => CrashState::NoArea,
            3 => CrashState::InUse,
            4 => CrashState::LowFailed,
            _ => CrashState::NotRequested,
        },
        high: Range::of(area.base, area.size),
        low: Range::of(area.low_base, area.low_size),
    }
}

/// The zone of this number (`enum zone_type`).
fn zone(number: u32) -> Zone {
    match number {
        0 => Zone::Dma,
        1 => Zone::Dma32,
        _ => Zone::Normal,
    }
}

pub(crate) fn memory(range: &ffi::MemoryRange) -> Option<MemoryRange> {
    Some(MemoryRange {
        range: Range::of(range.base, range.size)?,
        node: range.node,
        is_mirrored: range.flags & 2 != 0,
    })
}

pub(crate) fn node(node: &ffi::MemoryNode) -> Option<Node> {
    Some(Node {
        node: node.node,
        domain: (node.has_domain != 0).then_some(node.domain),
    })
}

pub(crate) fn span(span: &ffi::ZoneSpan) -> Option<ZoneSpan> {
    let frames = span.end.checked_sub(span.start)?;
    Some(ZoneSpan {
        node: span.node,
        zone: zone(span.zone),
        range: Range::of(FRAME_SIZE * span.start, FRAME_SIZE * frames)?,
        present: span.present,
    })
}

pub(crate) fn block(block: &ffi::FreeBlock) -> Option<Block> {
    Some(Block {
        node: block.node,
        zone: zone(block.zone),
        order: block.order,
        range: Range::of(FRAME_SIZE * block.first, FRAME_SIZE << block.order)?,
    })
}

/// An entry of the firmware's map: base and size in bytes, and the E820 type.
pub type Entry = (u64, u64, u32);

/// The most entries of a zero page, and of an extension.
pub const ZERO_PAGE_ENTRIES: usize = 128;
pub const EXTENSION_ENTRIES: usize = 3072;

/// There are more entries than a zero page or an extension has room for.
#[derive(Clone, Copy, Debug, PartialEq, Eq)]
pub struct TooManyEntries {
    pub count: usize,
    pub limit: usize,
}

impl fmt::Display for TooManyEntries {
    fn fmt(&self, f: &mut fmt::Formatter<'_>) -> fmt::Result {
        let TooManyEntries { count, limit } = self;
        if *limit == ZERO_PAGE_ENTRIES {
            return write!(
                f,
                "a zero page has room for {limit} entries, not {count}: the further ones belong into an extension (`extension`, `Boot::e820ext`)"
            );
        }
        write!(f, "an extension has room for {limit} entries, not {count}")
    }
}

impl std::error::Error for TooManyEntries {}

/// The entries as the zero page and the extension hold them (`struct boot_e820_entry`).
fn entry_bytes(entries: &[Entry], limit: usize) -> Result<Vec<u8>, TooManyEntries> {
    let count = entries.len();
    if count > limit {
        return Err(TooManyEntries { count, limit });
    }
    let mut bytes = Vec::with_capacity(20 * count);
    for (base, size, kind) in entries {
        bytes.extend(base.to_le_bytes());
        bytes.extend(size.to_le_bytes());
        bytes.extend(kind.to_le_bytes());
    }
    Ok(bytes)
}

/// A zero page that has these entries and nothing else (`struct boot_params`).
///
/// # Errors
///
/// There are more than 128 entries. [`extension`] has room for the further ones.
pub fn zero_page(entries: &[Entry]) -> Result<Vec<u8>, TooManyEntries> {
    let bytes = entry_bytes(entries, ZERO_PAGE_ENTRIES)?;
    let mut page = vec![0; 4096];
    page[0x1e8] = entries.len() as u8;
    page[0x2d0..0x2d0 + bytes.len()].copy_from_slice(&bytes);
    Ok(page)
}

/// An extension with these entries (`struct setup_data` of type `SETUP_E820_EXT`).
///
/// # Errors
///
/// There are more than 3,072 entries.
pub fn extension(entries: &[Entry]) -> Result<Vec<u8>, TooManyEntries> {
    let bytes = entry_bytes(entries, EXTENSION_ENTRIES)?;
    let mut data = vec![0; 8];
    data.extend(1u32.to_le_bytes());
    data.extend((bytes.len() as u32).to_le_bytes());
    data.extend(bytes);
    Ok(data)
}
