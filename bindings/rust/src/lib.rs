//! What x86-64 Linux 6.1 makes of a machine's memory at boot, from `libbootmem`.
//!
//! [`run`] is the program `bootmem` as one call over words and files in memory. [`map`], [`crash`], [`memory`], [`nodes`], [`zones`] and
//! [`blocks`] are what its boot makes, as values. [`run_as`], [`crash_as`] and so on take a [`Profile`] first: with [`Profile::Linux61`] they are
//! the program `bootmem61` and its boot. [`Boot`] has a method for each input, for tests of the E820 table that a VMM builds.
//!
//! Any number of threads may call the library at once: it has no state.
//!
//! ```no_run
//! use bootmem::{zero_page, Boot, E820_RAM, E820_RESERVED};
//!
//! let page = zero_page(&[(0, 0x9_fc00, E820_RAM), (0x10_0000, 0x7ff0_0000, E820_RAM), (0xfeff_c000, 0x4000, E820_RESERVED)])?;
//! let boot = Boot::new(&page).cmdline("crashkernel=256M");
//! assert_eq!(boot.map().unwrap()[1].kind, E820_RAM);
//! assert_eq!(boot.crash().unwrap().high.unwrap().size(), 256 << 20);
//! # Ok::<(), bootmem::TooManyEntries>(())
//! ```

mod ffi;
mod values;

pub use values::{
    extension, zero_page, Block, Crash, CrashState, Entry, MemoryRange, Node, Range, Run,
    TooManyEntries, Zone, ZoneSpan, E820_RAM, E820_RESERVED, EXTENSION_ENTRIES, ZERO_PAGE_ENTRIES,
};

use std::fmt;

/// Which program's boot a call makes.
#[derive(Clone, Copy, Debug, Default, PartialEq, Eq)]
pub enum Profile {
    /// That of `bootmem`.
    #[default]
    Own = 0,
    /// That of `bootmem61`: the rules of Linux 6.1, and early claims.
    Linux61 = 1,
}

/// Why a call has no result.
#[derive(Clone, Copy, Debug, PartialEq, Eq)]
pub enum Reason {
    /// `bootmem` doesn't accept the words of the command line.
    Usage,
    /// A file that the words name isn't among the files that are passed.
    Unread,
    /// A file is malformed or too long.
    Faulty,
    /// The boot stops.
    Stopped,
    /// Out of memory.
    Memory,
}

/// Why a call has no result, and the line that `bootmem` prints on standard error for it, without its line feed.
#[derive(Clone, Debug, PartialEq, Eq)]
pub struct Refusal {
    pub reason: Reason,
    pub line: String,
}

impl fmt::Display for Refusal {
    fn fmt(&self, f: &mut fmt::Formatter<'_>) -> fmt::Result {
        f.write_str(&self.line)
    }
}

impl std::error::Error for Refusal {}

/// The library's version: major * 1000000 + minor * 1000 + patch.
pub fn version() -> u32 {
    unsafe { ffi::bootmem_version() }
}

/// A call of the library that hands over some values, by a profile.
type Call<T> = unsafe extern "C" fn(
    u32,
    *const ffi::Bytes,
    usize,
    *const ffi::File,
    usize,
    *mut ffi::Values<T>,
) -> u8;

/// The runs of the map, which are the same by each profile.
///
/// # Safety
///
/// As for `bootmem_map`.
unsafe extern "C" fn map_by_any(
    _profile: u32,
    words: *const ffi::Bytes,
    words_len: usize,
    files: *const ffi::File,
    files_len: usize,
    out: *mut ffi::Values<ffi::MapRun>,
) -> u8 {
    ffi::bootmem_map(words, words_len, files, files_len, out)
}

/// A profile, the words of a command line, and the files that it may name, each as its name and its bytes.
#[derive(Clone, Copy)]
struct Asked<'a> {
    profile: Profile,
    words: &'a [&'a [u8]],
    files: &'a [(&'a [u8], &'a [u8])],
}

impl Asked<'_> {
    /// Calls `call` with the words and files in the form that C takes, and returns what it returns.
    fn lent<T>(&self, call: impl FnOnce(&[ffi::Bytes], &[ffi::File]) -> T) -> T {
        let words: Vec<ffi::Bytes> = self.words.iter().map(|word| ffi::Bytes::of(word)).collect();
        let files: Vec<ffi::File> = self
            .files
            .iter()
            .map(|(name, bytes)| ffi::File {
                name: ffi::Bytes::of(name),
                bytes: ffi::Bytes::of(bytes),
            })
            .collect();
        call(&words, &files)
    }

    /// Calls `bootmem_run` with these two buffers. Returns the status and the lengths of the two texts in bytes. A text that is longer than its
    /// buffer isn't copied.
    fn texts(&self, out: &mut [u8], err: &mut [u8]) -> (u8, usize, usize) {
        let (mut out, mut err) = (ffi::Text::of(out), ffi::Text::of(err));
        // Each pointer is a slice's own, so it is no null, and is valid for its length; the two rooms are borrowed alone.
        let status = self.lent(|words, files| unsafe {
            ffi::bootmem_run_as(
                self.profile as u32,
                words.as_ptr(),
                words.len(),
                files.as_ptr(),
                files.len(),
                &mut out,
                &mut err,
            )
        });
        (status, out.needed, err.needed)
    }

    /// Returns all values that `call`, one of the exports for values, makes. Repeats the call with a larger buffer if they don't all fit.
    fn values<T: Copy + Default>(&self, call: Call<T>) -> Result<Vec<T>, Refusal> {
        let mut values = vec![T::default(); 1 << 10];
        loop {
            let mut out = ffi::Values {
                at: values.as_mut_ptr(),
                room: values.len(),
                count: 0,
            };
            // As in `texts`.
            let status = self.lent(|words, files| unsafe {
                call(
                    self.profile as u32,
                    words.as_ptr(),
                    words.len(),
                    files.as_ptr(),
                    files.len(),
                    &mut out,
                )
            });
            if status != 0 {
                return Err(self.refusal(status));
            }
            if out.count <= values.len() {
                values.truncate(out.count);
                return Ok(values);
            }
            values.resize(out.count, T::default());
        }
    }

    /// Returns the refusal for a status of an export for values. Such an export has no error line, so the line is taken from [`run`].
    fn refusal(&self, status: u8) -> Refusal {
        let told = run_as(self.profile, self.words, self.files);
        let line = told.err().map(|told| told.line);
        Refusal {
            reason: reason(status),
            line: line.unwrap_or_default(),
        }
    }
}

/// Returns the reason for an exit status other than 0.
fn reason(status: u8) -> Reason {
    match status {
        2 => Reason::Usage,
        3 => Reason::Unread,
        5 => Reason::Faulty,
        6 => Reason::Stopped,
        _ => Reason::Memory,
    }
}

/// Runs `bootmem` with the words of its command line after the program's name, and with files, each as its name and its bytes. Returns the text
/// of the reports, or why there is none.
pub fn run(words: &[&[u8]], files: &[(&[u8], &[u8])]) -> Result<Vec<u8>, Refusal> {
    run_as(Profile::Own, words, files)
}

/// The program of a profile, as [`run`].
pub fn run_as(
    profile: Profile,
    words: &[&[u8]],
    files: &[(&[u8], &[u8])],
) -> Result<Vec<u8>, Refusal> {
    let asked = Asked {
        profile,
        words,
        files,
    };
    let (mut out, mut err) = (vec![0; 1 << 16], vec![0; 1 << 10]);
    loop {
        let (status, written, told) = asked.texts(&mut out, &mut err);
        if written > out.len() || told > err.len() {
            out.resize(written.max(out.len()), 0);
            err.resize(told.max(err.len()), 0);
            continue;
        }
        out.truncate(written);
        if status == 0 {
            return Ok(out);
        }
        let line = String::from_utf8_lossy(&err[..told]).trim_end().to_string();
        return Err(Refusal {
            reason: reason(status),
            line,
        });
    }
}

/// The map that the kernel works with, ascending. It is the same by each profile.
pub fn map(words: &[&[u8]], files: &[(&[u8], &[u8])]) -> Result<Vec<Run>, Refusal> {
    let asked = Asked {
        profile: Profile::Own,
        words,
        files,
    };
    let runs = asked.values(map_by_any)?;
    Ok(runs.iter().filter_map(values::run).collect())
}

/// The crash area, or why there is none.
pub fn crash(words: &[&[u8]], files: &[(&[u8], &[u8])]) -> Result<Crash, Refusal> {
    crash_as(Profile::Own, words, files)
}

/// The crash area of a boot by a profile, as [`crash`].
pub fn crash_as(
    profile: Profile,
    words: &[&[u8]],
    files: &[(&[u8], &[u8])],
) -> Result<Crash, Refusal> {
    let asked = Asked {
        profile,
        words,
        files,
    };
    let mut area = ffi::CrashArea::default();
    // As in `Asked::texts`.
    let status = asked.lent(|words, files| unsafe {
        ffi::bootmem_crash_as(
            profile as u32,
            words.as_ptr(),
            words.len(),
            files.as_ptr(),
            files.len(),
            &mut area,
        )
    });
    if status != 0 {
        return Err(asked.refusal(status));
    }
    Ok(values::crash(&area))
}

/// The records of memory, ascending.
pub fn memory(words: &[&[u8]], files: &[(&[u8], &[u8])]) -> Result<Vec<MemoryRange>, Refusal> {
    memory_as(Profile::Own, words, files)
}

/// The records of memory of a boot by a profile, as [`memory`].
pub fn memory_as(
    profile: Profile,
    words: &[&[u8]],
    files: &[(&[u8], &[u8])],
) -> Result<Vec<MemoryRange>, Refusal> {
    let asked = Asked {
        profile,
        words,
        files,
    };
    let ranges = asked.values(ffi::bootmem_memory_as)?;
    Ok(ranges.iter().filter_map(values::memory).collect())
}

/// The nodes that have memory, ascending.
pub fn nodes(words: &[&[u8]], files: &[(&[u8], &[u8])]) -> Result<Vec<Node>, Refusal> {
    nodes_as(Profile::Own, words, files)
}

/// The nodes of a boot by a profile, as [`nodes`].
pub fn nodes_as(
    profile: Profile,
    words: &[&[u8]],
    files: &[(&[u8], &[u8])],
) -> Result<Vec<Node>, Refusal> {
    let asked = Asked {
        profile,
        words,
        files,
    };
    let nodes = asked.values(ffi::bootmem_nodes_as)?;
    Ok(nodes.iter().filter_map(values::node).collect())
}

/// The zones that have memory, by node and then by zone.
pub fn zones(words: &[&[u8]], files: &[(&[u8], &[u8])]) -> Result<Vec<ZoneSpan>, Refusal> {
    zones_as(Profile::Own, words, files)
}

/// The zones of a boot by a profile, as [`zones`].
pub fn zones_as(
    profile: Profile,
    words: &[&[u8]],
    files: &[(&[u8], &[u8])],
) -> Result<Vec<ZoneSpan>, Refusal> {
    let asked = Asked {
        profile,
        words,
        files,
    };
    let spans = asked.values(ffi::bootmem_zones_as)?;
    Ok(spans.iter().filter_map(values::span).collect())
}

/// The free blocks at the handover, ascending.
pub fn blocks(words: &[&[u8]], files: &[(&[u8], &[u8])]) -> Result<Vec<Block>, Refusal> {
    blocks_as(Profile::Own, words, files)
}

/// The free blocks of a boot by a profile, as [`blocks`].
pub fn blocks_as(
    profile: Profile,
    words: &[&[u8]],
    files: &[(&[u8], &[u8])],
) -> Result<Vec<Block>, Refusal> {
    let asked = Asked {
        profile,
        words,
        files,
    };
    let blocks = asked.values(ffi::bootmem_blocks_as)?;
    Ok(blocks.iter().filter_map(values::block).collect())
}

/// The inputs of a boot. Each method that adds an input returns the inputs with it.
#[derive(Clone, Debug, Default)]
pub struct Boot<'a> {
    profile: Profile,
    has_claims: bool,
    words: Vec<String>,
    files: Vec<(&'a str, Vec<u8>)>,
}

impl<'a> Boot<'a> {
    /// Returns the inputs of a boot with this zero page (4,096 bytes) and nothing else.
    pub fn new(zero_page: &[u8]) -> Boot<'a> {
        Boot {
            profile: Profile::Own,
            has_claims: false,
            words: Vec::new(),
            files: vec![("zeropage", zero_page.to_vec())],
        }
    }

    fn file(mut self, option: &str, name: &'a str, bytes: &[u8]) -> Boot<'a> {
        self.words.extend([option.to_string(), name.to_string()]);
        self.files.push((name, bytes.to_vec()));
        self
    }

    /// The profile of the boot: [`Profile::Own`], unless another is given.
    pub fn profile(mut self, profile: Profile) -> Boot<'a> {
        self.profile = profile;
        self
    }

    /// The early claims, which only [`Profile::Linux61`] has. They change nothing of the map.
    pub fn claims(mut self, lines: &str) -> Boot<'a> {
        self.has_claims = true;
        self.files.push(("claims", lines.as_bytes().to_vec()));
        self
    }

    /// The kernel's command line.
    pub fn cmdline(self, line: &str) -> Boot<'a> {
        self.file("--cmdline", "cmdline", line.as_bytes())
    }

    /// The extension: the entries for which the zero page has no room ([`extension`] makes one).
    pub fn e820ext(self, table: &[u8]) -> Boot<'a> {
        self.file("--e820ext", "e820ext", table)
    }

    /// The memory map of UEFI (`docs/FORMATS.md` says in which form).
    pub fn efi(self, table: &[u8]) -> Boot<'a> {
        self.file("--efi", "efi", table)
    }

    /// The early script: allocations before the handover.
    pub fn script(self, lines: &str) -> Boot<'a> {
        self.file("--script", "script", lines.as_bytes())
    }

    /// The page script: requests to the page allocator.
    pub fn pages(self, lines: &str) -> Boot<'a> {
        self.file("--pages", "pages", lines.as_bytes())
    }

    /// The firmware's table of proximity domains (ACPI SRAT).
    pub fn srat(self, table: &[u8]) -> Boot<'a> {
        self.file("--srat", "srat", table)
    }

    /// The firmware's table of distances between domains (ACPI SLIT).
    pub fn slit(self, table: &[u8]) -> Boot<'a> {
        self.file("--slit", "slit", table)
    }

    /// The range of the kernel's image: its first address and its size in bytes.
    pub fn kernel(mut self, base: u64, size: u64) -> Boot<'a> {
        self.words
            .extend(["--kernel".to_string(), format!("{base:#x},{size:#x}")]);
        self
    }

    /// Ranges of mirrored memory, in bytes: the base and size of each.
    pub fn mirror(mut self, ranges: &[(u64, u64)]) -> Boot<'a> {
        let list: Vec<String> = ranges
            .iter()
            .map(|(base, size)| format!("{base:#x},{size:#x}"))
            .collect();
        self.words.extend(["--mirror".to_string(), list.join(":")]);
        self
    }

    /// Physical addresses of 52 bits instead of 46.
    pub fn la57(mut self) -> Boot<'a> {
        self.words.push("--la57".to_string());
        self
    }

    /// Searches for free memory go up from the lowest address.
    pub fn bottom_up(mut self) -> Boot<'a> {
        self.words.push("--bottom-up".to_string());
        self
    }

    /// Calls `call` with the words `front`, then those of this boot, and with its files. Returns what it returns.
    fn ask<T>(&self, front: &[&[u8]], call: impl FnOnce(&[&[u8]], &[(&[u8], &[u8])]) -> T) -> T {
        let mut words = front.to_vec();
        words.extend(self.words.iter().map(|word| word.as_bytes()));
        words.push(b"zeropage");
        let files: Vec<(&[u8], &[u8])> = self
            .files
            .iter()
            .map(|(name, bytes)| (name.as_bytes(), &bytes[..]))
            .collect();
        call(&words, &files)
    }

    /// A call by the profile, which has the early claims too.
    fn ask_as<T>(
        &self,
        front: &[&[u8]],
        call: impl FnOnce(Profile, &[&[u8]], &[(&[u8], &[u8])]) -> T,
    ) -> T {
        let mut words = front.to_vec();
        if self.has_claims {
            words.extend([&b"--claims"[..], b"claims"]);
        }
        self.ask(&words, |words, files| call(self.profile, words, files))
    }

    /// Returns the text of the reports that the list names. Names are separated by commas.
    pub fn report(&self, list: &str) -> Result<String, Refusal> {
        let text = self.ask_as(&[b"--report", list.as_bytes()], run_as)?;
        Ok(String::from_utf8_lossy(&text).into_owned())
    }

    /// The map that the kernel works with, ascending.
    pub fn map(&self) -> Result<Vec<Run>, Refusal> {
        self.ask(&[], map)
    }

    /// The crash area, or why there is none.
    pub fn crash(&self) -> Result<Crash, Refusal> {
        self.ask_as(&[], crash_as)
    }

    /// The records of memory, ascending.
    pub fn memory(&self) -> Result<Vec<MemoryRange>, Refusal> {
        self.ask_as(&[], memory_as)
    }

    /// The nodes that have memory, ascending.
    pub fn nodes(&self) -> Result<Vec<Node>, Refusal> {
        self.ask_as(&[], nodes_as)
    }

    /// The zones that have memory, by node and then by zone.
    pub fn zones(&self) -> Result<Vec<ZoneSpan>, Refusal> {
        self.ask_as(&[], zones_as)
    }

    /// The free blocks at the handover, ascending.
    pub fn blocks(&self) -> Result<Vec<Block>, Refusal> {
        self.ask_as(&[], blocks_as)
    }
}
