//! What a VMM's author asks of the table that their builder makes. `e820_table` builds it as `linux-loader`'s users do: RAM up to the EBDA, RAM
//! from 1 MiB on up to the hole below 4 GiB, and what is left above 4 GiB.

use bootmem::{
    extension, run, run_as, zero_page, Boot, CrashState, Profile, Range, Reason, Zone, E820_RAM,
    E820_RESERVED,
};

const EBDA_START: u64 = 0x9_fc00;
const HIMEM_START: u64 = 0x10_0000;
const MMIO_GAP_START: u64 = 0xd000_0000;
const MMIO_GAP_END: u64 = 0x1_0000_0000;

/// The table of a machine with so many bytes of memory.
fn e820_table(memory: u64) -> Vec<(u64, u64, u32)> {
    let mut table = vec![(0, EBDA_START, E820_RAM)];
    if memory <= MMIO_GAP_START {
        table.push((HIMEM_START, memory - HIMEM_START, E820_RAM));
    } else {
        table.push((HIMEM_START, MMIO_GAP_START - HIMEM_START, E820_RAM));
        table.push((MMIO_GAP_END, memory - MMIO_GAP_START, E820_RAM));
    }
    table.push((MMIO_GAP_START, MMIO_GAP_END - MMIO_GAP_START, E820_RESERVED));
    table
}

fn usable(boot: &Boot) -> Vec<Range> {
    boot.map()
        .unwrap()
        .into_iter()
        .filter(|run| run.kind == E820_RAM)
        .map(|run| run.range)
        .collect()
}

#[test]
fn all_memory_is_usable() {
    let boot = Boot::new(&zero_page(&e820_table(6 << 30)).unwrap());
    let ranges = usable(&boot);
    assert_eq!(
        ranges[1],
        Range {
            first: HIMEM_START,
            last: MMIO_GAP_START - 1
        }
    );
    assert_eq!(
        ranges[2],
        Range {
            first: MMIO_GAP_END,
            last: MMIO_GAP_END + (6 << 30) - MMIO_GAP_START - 1
        }
    );
}

#[test]
fn a_crash_area_fits() {
    let boot = Boot::new(&zero_page(&e820_table(4 << 30)).unwrap())
        .cmdline("quiet crashkernel=256M")
        .kernel(0x100_0000, 0x340_0000);
    let crash = boot.crash().unwrap();
    assert_eq!(crash.high.unwrap().size(), 256 << 20);
    assert_eq!(crash.state, CrashState::Reserved);
    let small = Boot::new(&zero_page(&e820_table(128 << 20)).unwrap()).cmdline("crashkernel=256M");
    let none = small.crash().unwrap();
    assert_eq!((none.high, none.state), (None, CrashState::NoArea));
}

#[test]
fn why_there_is_no_crash_area() {
    let page = zero_page(&e820_table(1 << 30)).unwrap();
    for (line, state) in [
        ("quiet", CrashState::NotRequested),
        ("crashkernel=64M", CrashState::Reserved),
        ("crashkernel=2G", CrashState::NoArea),
        ("crashkernel=64M@16M", CrashState::InUse),
    ] {
        let boot = Boot::new(&page)
            .cmdline(line)
            .kernel(0x100_0000, 0x340_0000);
        let crash = boot.crash().unwrap();
        assert_eq!(crash.state, state, "{line}");
        assert_eq!(crash.high.is_some(), state == CrashState::Reserved);
    }
}

#[test]
fn memory_zones_and_nodes_agree() {
    let boot = Boot::new(&zero_page(&e820_table(6 << 30)).unwrap())
        .mirror(&[(HIMEM_START, 1 << 30), (MMIO_GAP_END, 1 << 30)]);
    let memory = boot.memory().unwrap();
    let frames: u64 = memory.iter().map(|one| one.range.size() / 4096).sum();
    let zones = boot.zones().unwrap();
    assert_eq!(frames, zones.iter().map(|span| span.present).sum::<u64>());
    assert_eq!(
        zones.iter().map(|span| span.zone).collect::<Vec<_>>(),
        [Zone::Dma, Zone::Dma32, Zone::Normal]
    );
    let mirrored: u64 = memory
        .iter()
        .filter(|one| one.is_mirrored)
        .map(|one| one.range.size())
        .sum();
    assert_eq!(mirrored, 2 << 30);
    let nodes = boot.nodes().unwrap();
    assert_eq!((nodes.len(), nodes[0].node, nodes[0].domain), (1, 0, None));
}

#[test]
fn each_input_is_read() {
    let page = zero_page(&e820_table(1 << 30)).unwrap();
    let more = extension(&[(1 << 32, 1 << 20, E820_RAM)]).unwrap();
    let boot = Boot::new(&page).e820ext(&more);
    assert_eq!(usable(&boot).last().unwrap().first, 1 << 32);
    // A file that is read and has a fault is named by its input.
    let faulty = [
        ("e820ext", Boot::new(&page).e820ext(b"x")),
        ("srat", Boot::new(&page).srat(b"x")),
        ("slit", Boot::new(&page).slit(b"x")),
        ("efi", Boot::new(&page).efi(b"x")),
        ("script", Boot::new(&page).script("x\n")),
        ("pages", Boot::new(&page).pages("x\n")),
    ];
    for (input, boot) in faulty {
        let refusal = boot.map().unwrap_err();
        assert_eq!(refusal.reason, Reason::Faulty);
        assert!(
            refusal.line.starts_with(&format!("bootmem: {input}: ")),
            "{refusal}"
        );
    }
    let down = Boot::new(&page).cmdline("crashkernel=64M");
    let up = down.clone().bottom_up();
    assert!(up.crash().unwrap().high.unwrap().first < down.crash().unwrap().high.unwrap().first);
    let far = zero_page(&[(0, 1 << 30, E820_RAM), (1 << 47, 1 << 30, E820_RAM)]).unwrap();
    let last = |boot: Boot| boot.memory().unwrap().last().unwrap().range.last;
    assert_eq!(last(Boot::new(&far)), (1 << 30) - 1);
    assert_eq!(last(Boot::new(&far).la57()), (1 << 47) + (1 << 30) - 1);
}

/// A SLIT of these distances, a row for each domain.
fn slit(rows: &[&[u8]]) -> Vec<u8> {
    let cells: Vec<u8> = rows.concat();
    let length = 44 + cells.len() as u32;
    let mut table = [b"SLIT", &length.to_le_bytes()[..], &[0; 28]].concat();
    table.extend((rows.len() as u64).to_le_bytes());
    table.extend(cells);
    table[9] = table.iter().fold(0u8, |sum, byte| sum.wrapping_sub(*byte));
    table
}

#[test]
fn a_slit_has_the_answers_of_the_program() {
    let page = zero_page(&e820_table(1 << 30)).unwrap();
    let whole = slit(&[&[10, 20], &[20, 10]]);
    let text = Boot::new(&page).slit(&whole).report("zonelists").unwrap();
    assert!(text.starts_with("slit no srat\n"), "{text}");
    let long = [&whole[..], b"x"].concat();
    for (table, fault) in [
        (&whole[..whole.len() - 1], "length"),
        (&long[..], "length"),
        (&whole[..43], "short"),
        (&slit(&[&[10, 20], &[20]])[..], "localities"),
    ] {
        let refusal = Boot::new(&page)
            .slit(table)
            .report("zonelists")
            .unwrap_err();
        assert_eq!(refusal.reason, Reason::Faulty);
        assert_eq!(refusal.line, format!("bootmem: slit: {fault}"));
    }
}

#[test]
fn too_many_entries_are_an_error() {
    let entries = vec![(0, 4096, E820_RAM); 129];
    let error = zero_page(&entries).unwrap_err();
    assert_eq!((error.count, error.limit), (129, 128));
    assert!(error.to_string().contains("extension"));
    assert!(extension(&entries).is_ok());
    assert!(extension(&vec![(0, 4096, E820_RAM); 3073]).is_err());
}

#[test]
fn the_table_in_the_wrong_order_is_the_same_table() {
    let mut table = e820_table(2 << 30);
    let sorted = Boot::new(&zero_page(&table).unwrap())
        .report("map,summary")
        .unwrap();
    table.reverse();
    assert_eq!(
        Boot::new(&zero_page(&table).unwrap())
            .report("map,summary")
            .unwrap(),
        sorted
    );
}

#[test]
fn free_blocks_lie_in_usable_memory() {
    let boot = Boot::new(&zero_page(&e820_table(1 << 30)).unwrap());
    let ranges = usable(&boot);
    let blocks = boot.blocks().unwrap();
    assert!(!blocks.is_empty());
    for block in blocks {
        assert_eq!(block.range.size(), 4096 << block.order);
        assert_eq!(block.zone == Zone::Dma, block.range.last < 16 << 20);
        assert!(
            ranges
                .iter()
                .any(|range| range.first <= block.range.first && block.range.last <= range.last),
            "{block:?}"
        );
    }
}

#[test]
fn values_are_those_of_the_reports() {
    let boot = Boot::new(&zero_page(&e820_table(6 << 30)).unwrap())
        .cmdline("crashkernel=256M,high")
        .kernel(0x100_0000, 0x340_0000);
    let text = boot.report("map,crash,blocks").unwrap();
    for run in boot.map().unwrap() {
        let Range { first, last } = run.range;
        assert!(text.contains(&format!("{first:#018x}..{last:#018x} {} ", run.kind)));
    }
    let crash = boot.crash().unwrap();
    for (front, range) in [("at", crash.high), ("low", crash.low)] {
        let Range { first, last } = range.unwrap();
        assert!(text.contains(&format!("crash {front} {first:#018x}..{last:#018x}\n")));
    }
    let blocks = boot.blocks().unwrap();
    assert_eq!(
        text.lines()
            .filter(|line| line.starts_with("node "))
            .count(),
        blocks.len()
    );
    for block in blocks {
        let zone = match block.zone {
            Zone::Dma => "DMA",
            Zone::Dma32 => "DMA32",
            Zone::Normal => "Normal",
        };
        let (node, order, first) = (block.node, block.order, block.range.first);
        assert!(text.contains(&format!(
            "node {node} zone {zone} order {order} {first:#018x}\n"
        )));
    }
}

#[test]
fn what_is_wrong_is_told() {
    let reserved = [(0, 4096, E820_RESERVED), (HIMEM_START, 4096, E820_RESERVED)];
    let none = Boot::new(&zero_page(&reserved).unwrap()).map().unwrap_err();
    assert_eq!(
        (none.reason, none.line.as_str()),
        (Reason::Stopped, "bootmem: stopped: no usable frame")
    );
    let short = Boot::new(&[0; 100]).map().unwrap_err();
    assert_eq!(
        (short.reason, short.line.as_str()),
        (Reason::Faulty, "bootmem: zeropage: wrong length")
    );
    let line = Boot::new(&zero_page(&e820_table(1 << 30)).unwrap())
        .cmdline("quiet memmap=1G!4X")
        .map()
        .unwrap_err();
    assert_eq!(
        (line.reason, line.line.as_str()),
        (Reason::Faulty, "bootmem: cmdline: word 2: memmap")
    );
    assert_eq!(run(&[b"page"], &[]).unwrap_err().reason, Reason::Unread);
    assert_eq!(run(&[b"--none"], &[]).unwrap_err().reason, Reason::Usage);
}

#[test]
fn the_rules_of_linux_are_another_profile() {
    let page = zero_page(&e820_table(1 << 30)).unwrap();
    let own = Boot::new(&page).cmdline("crashkernel=1G-:64M");
    let linux = own.clone().profile(Profile::Linux61);
    // The table has less than 1 GiB of memory; Linux 6.1 rounds it up.
    assert_eq!(own.crash().unwrap().state, CrashState::NotRequested);
    assert_eq!(linux.crash().unwrap().high.unwrap().size(), 64 << 20);
    let early = linux.clone().claims("reserve 1 0x20000000 0x1000\n");
    assert_eq!(early.report("claims").unwrap(), "1: done\n");
    assert_eq!(early.map().unwrap(), own.map().unwrap());
    let refusal = own.claims("").crash().unwrap_err();
    assert_eq!(
        (refusal.reason, refusal.line.as_str()),
        (Reason::Usage, "bootmem: usage")
    );
    let none = run_as(Profile::Linux61, &[b"page"], &[]).unwrap_err();
    assert_eq!(none.line, "bootmem61: cannot read page");
}

#[test]
fn calls_on_several_threads() {
    let page = zero_page(&e820_table(3 << 30)).unwrap();
    let alone = Boot::new(&page).report("summary").unwrap();
    std::thread::scope(|scope| {
        for _ in 0..8 {
            scope.spawn(|| assert_eq!(Boot::new(&page).report("summary").unwrap(), alone));
        }
    });
}

#[test]
fn the_version_is_the_crates() {
    let parts: Vec<u32> = env!("CARGO_PKG_VERSION")
        .split('.')
        .map(|part| part.parse().unwrap())
        .collect();
    assert_eq!(
        bootmem::version(),
        parts[0] * 1_000_000 + parts[1] * 1_000 + parts[2]
    );
}
