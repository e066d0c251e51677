//! What `include/bootmem.h` declares.

#[repr(C)]
pub struct Bytes {
    pub at: *const u8,
    pub len: usize,
}

#[repr(C)]
pub struct File {
    pub name: Bytes,
    pub bytes: Bytes,
}

#[repr(C)]
pub struct Text {
    pub at: *mut u8,
    pub room: usize,
    pub needed: usize,
}

#[repr(C)]
#[derive(Clone, Copy, Default)]
pub struct MapRun {
    pub base: u64,
    pub size: u64,
    pub kind: u32,
}

#[repr(C)]
#[derive(Clone, Copy, Default)]
pub struct CrashArea {
    pub base: u64,
    pub size: u64,
    pub low_base: u64,
    pub low_size: u64,
    pub state: u32,
}

#[repr(C)]
#[derive(Clone, Copy, Default)]
pub struct MemoryRange {
    pub base: u64,
    pub size: u64,
    pub flags: u32,
    pub node: u32,
}

#[repr(C)]
#[derive(Clone, Copy, Default)]
pub struct MemoryNode {
    pub node: u32,
    pub domain: u32,
    pub has_domain: u32,
}

#[repr(C)]
#[derive(Clone, Copy, Default)]
pub struct ZoneSpan {
    pub start: u64,
    pub end: u64,
    pub present: u64,
    pub node: u32,
    pub zone: u32,
}

#[repr(C)]
#[derive(Clone, Copy, Default)]
pub struct FreeBlock {
    pub first: u64,
    pub order: u32,
    pub node: u32,
    pub zone: u32,
}

/// A buffer for values, such as `struct bootmem_map_runs`: all of them have this layout.
#[repr(C)]
pub struct Values<T> {
    pub at: *mut T,
    pub room: usize,
    pub count: usize,
}

extern "C" {
    pub fn bootmem_run_as(
        profile: u32,
        words: *const Bytes,
        words_len: usize,
        files: *const File,
        files_len: usize,
        out: *mut Text,
        err: *mut Text,
    ) -> u8;
    pub fn bootmem_map(
        words: *const Bytes,
        words_len: usize,
        files: *const File,
        files_len: usize,
        out: *mut Values<MapRun>,
    ) -> u8;
    pub fn bootmem_crash_as(
        profile: u32,
        words: *const Bytes,
        words_len: usize,
        files: *const File,
        files_len: usize,
        out: *mut CrashArea,
    ) -> u8;
    pub fn bootmem_memory_as(
        profile: u32,
        words: *const Bytes,
        words_len: usize,
        files: *const File,
        files_len: usize,
        out: *mut Values<MemoryRange>,
    ) -> u8;
    pub fn bootmem_nodes_as(
        profile: u32,
        words: *const Bytes,
        words_len: usize,
        files: *const File,
        files_len: usize,
        out: *mut Values<MemoryNode>,
    ) -> u8;
    pub fn bootmem_zones_as(
        profile: u32,
        words: *const Bytes,
        words_len: usize,
        files: *const File,
        files_len: usize,
        out: *mut Values<ZoneSpan>,
    ) -> u8;
    pub fn bootmem_blocks_as(
        profile: u32,
        words: *const Bytes,
        words_len: usize,
        files: *const File,
        files_len: usize,
        out: *mut Values<FreeBlock>,
    ) -> u8;
    pub fn bootmem_version() -> u32;
}

impl Bytes {
    pub fn of(bytes: &[u8]) -> Bytes {
        Bytes {
            at: bytes.as_ptr(),
            len: bytes.len(),
        }
    }
}

impl Text {
    pub fn of(room: &mut [u8]) -> Text {
        Text {
            at: room.as_mut_ptr(),
            room: room.len(),
            needed: 0,
        }
    }
}

/// The layout of each struct, by the numbers of `tests/layout.c`.
#[cfg(test)]
mod tests {
    use super::*;
    use std::mem::{size_of, MaybeUninit};
    use std::ptr::addr_of;

    /// The size of a type and the offsets of its fields.
    macro_rules! layout {
        ($type:ty, $($field:ident),+) => {{
            let value = MaybeUninit::<$type>::uninit();
            let at = value.as_ptr();
            // Takes the field's address and reads nothing.
            let offsets = vec![$(unsafe { addr_of!((*at).$field) } as usize - at as usize),+];
            (size_of::<$type>(), offsets)
        }};
    }

    #[test]
    fn words_files_and_texts_have_the_layout_of_c() {
        assert_eq!(layout!(Bytes, at, len), (16, vec![0, 8]));
        assert_eq!(layout!(File, name, bytes), (32, vec![0, 16]));
        assert_eq!(layout!(Text, at, room, needed), (24, vec![0, 8, 16]));
        assert_eq!(
            layout!(Values<FreeBlock>, at, room, count),
            (24, vec![0, 8, 16])
        );
    }

    #[test]
    fn values_have_the_layout_of_c() {
        assert_eq!(layout!(MapRun, base, size, kind), (24, vec![0, 8, 16]));
        assert_eq!(
            layout!(CrashArea, base, size, low_base, low_size, state),
            (40, vec![0, 8, 16, 24, 32])
        );
        assert_eq!(
            layout!(MemoryRange, base, size, flags, node),
            (24, vec![0, 8, 16, 20])
        );
        assert_eq!(
            layout!(MemoryNode, node, domain, has_domain),
            (12, vec![0, 4, 8])
        );
        assert_eq!(
            layout!(ZoneSpan, start, end, present, node, zone),
            (32, vec![0, 8, 16, 24, 28])
        );
        assert_eq!(
            layout!(FreeBlock, first, order, node, zone),
            (24, vec![0, 8, 12, 16])
        );
    }
}
