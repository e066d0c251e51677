#!/usr/bin/env python3
"""pins.py [--table]: checks that each wrong body names the clause that refuses it, that this clause
exists, and that every wrong body that a promise names is there.

The first line of each crates/NAME/must-fail/*.edit is `# pins: FUNCTION clause CLAUSE`, and `: ` and
a reason may follow. FUNCTION is defined in the crate's src/ and has an ensures of that name. The
name 1 is its only ensures without a name, `invariant` that of a type, and `from_gives` that of an
impl of From. The ensures of a method may be in a trait, also in another crate. An edit changes only
files of src/, and the text that it replaces occurs once in its file. `rt must-fail` tries whether
the prover refuses it. --table prints one line per wrong body: crate, name, clause and reason.
"""

import glob
import os
import re
import sys

sys.dont_write_bytecode = True

from documents import TOP, read

# The wrong bodies that a promise names, in the order of the boot. These must never be removed.
PROMISED = {
    # profile of Linux 6.1
    "boot_model/extra-own-own_profile_rounds",
    "boot_stages/added-added_by_run-rounded_before_partial_frames_count",
    "boot_stages/later-run_stages-claims_ids_forgotten",
    "boot_stages/later-run_stages-early_claims_after_the_nodes",
    "crash_kernel/request-bounded_size_for_total-range_after_the_refused_one",
    "crash_kernel/request-rounded_total-rounded_down",
    "zone_spans/hull-add_zone_parts_of_hull-hull_of_all_nodes_so_far",
    # firmware map
    "e820_model/run-join-later_entry_wins",
    "boot_stages/map-append_and_sanitise-edits_act_on_unsettled_claims",
    # memory, searches and the tables' growth
    "memblock_ranges/trim-whole_frame_bounds-frame_with_a_byte_that_isnt_memory_is_kept",
    "memblock_find/down-bottom-place_over_the_border_of_two_nodes",
    "memblock_find/search-last_between-lowest_place_of_the_gap",
    "memblock_grow/request-allocate-always_no_gap",
    "memblock_grow/places-table_frames_beside-new_place_meets_the_claimed_range",
    "memblock_grow/reserved-grow_reserved-new_place_is_never_claimed",
    "memblock_grow/new_records-lacks_room-table_doubles_one_record_early",
    "memblock_grow/places-old_place_frames-old_place_stays_claimed",
    "boot_stages/memory-limit_and_claim_first_mib-all_memory_is_claimed_for_the_kernel",
    # nodes and the early script
    "srat_reader/table-srat_header_fault-checksum_isnt_tested",
    "srat_reader/table-srat_header_fault-checksum_is_named_before_the_length",
    "early_script/live-fill-byte_past_the_id_is_written",
    # free frames and pages
    "buddy_handover/buddy-mark_free-last_frame_of_a_free_range_is_dropped",
    "buddy_blocks/run-is_same-runs_of_two_nodes_are_one",
    "buddy_blocks/run-is_same-ranges_that_meet_stay_apart",
    "buddy_handover/buddy-take-always_no_block",
    "buddy_handover/buddy-put_back-frames_are_not_merged",
    # the program's statuses
    "program_run/program-run-always_2",
    "program_run/program-run-always_3_after_another_name",
    "program_run/program-run-always_4",
    "program_run/program-run-always_5",
    "program_run/program-run-always_6",
    # the audit
    "boot_audit/judgement-judge-always_sound",
    "boot_audit/judgement-judge-always_lost",
    "boot_audit/fetching-fetch_lines-name_that_the_words_dont_give",
}

FORM = re.compile(r"# pins: (?:(\w+)::)?(\w+) clause (\w+)(?:: (.+))?$")
CONTRACT = re.compile(
    r"^([ \t]*)(?:pub(?:\(crate\))? )?(?:const )?(?:unsafe )?(?:extern \"C\" )?fn (\w+)", re.M
)
CLAUSE = re.compile(r"^\s*ensures\*?\s+(?:([a-z_]\w*)\s+)?\{", re.M)
COMMENT = re.compile(r"^[ \t]*//.*$", re.M)


def text_of(crate, folder):
    """The files of a folder of a crate, joined to one text."""
    paths = sorted(glob.glob(f"{TOP}/crates/{crate}/{folder}/**/*", recursive=True))
    return "\n".join(read(path) for path in paths if os.path.isfile(path))


def contract_end(source, match):
    """The place at which a contract ends: the brace of the body, or a semicolon outside of all clauses."""
    body = source.find("\n" + match.group(1) + "{", match.end())
    depth = 0
    for at in range(match.end(), len(source) if body < 0 else body):
        depth += (source[at] in "{[") - (source[at] in "}]")
        if source[at] == ";" and depth == 0:
            return at
    return len(source) if body < 0 else body


def clauses(source):
    """The names of the clauses of each function of a text."""
    source = COMMENT.sub("", source)  # a comment may contain a semicolon or a brace
    found = {}
    for match in CONTRACT.finditer(source):
        contract = source[match.start() : contract_end(source, match)]
        names = [name or "1" for name in CLAUSE.findall(contract)]
        found.setdefault(match.group(2), set()).update(names)
    return found


def has_clause(match, source, own, anywhere):
    """Whether the clause that a first line names exists: in its crate, or for a method in any crate."""
    of_type, function, clause, _ = match.groups()
    if clause == "invariant":
        model = rf"impl(?:<[^{{]*>)? Model for {function}\b"
        return re.search(rf"{model}|struct {function}\b[^}}]*ghost [^}}]*by", source)
    if clause == "from_gives":
        return of_type and re.search(rf"impl From<\w+> for {of_type}\b", source)
    if clause in own.get(function, set()):
        return True
    return of_type and clause in anywhere.get(function, set())


def faults_of_text(crate, lines):
    """Faults in the names of the files that an edit changes, and in the first text that it replaces."""
    text = ""
    for line in lines:
        if line.startswith("file: "):
            if not line.startswith("file: src/"):
                yield f"it changes {line[6:]}, which has no body"
                return
            text = read(f"{TOP}/crates/{crate}/{line[6:]}")
        if line.startswith("old: "):
            if text.count(line[5:]) != 1:
                yield f"the text that it replaces occurs {text.count(line[5:])} times in its file"
            return


def main():
    crates = sorted(os.path.basename(p) for p in glob.glob(f"{TOP}/crates/*"))
    sources = {crate: text_of(crate, "src") for crate in crates}
    own = {crate: clauses(sources[crate]) for crate in crates}
    anywhere = {}
    for functions in own.values():
        for function, names in functions.items():
            anywhere.setdefault(function, set()).update(names)
    wrong, names = [], set()
    for path in sorted(glob.glob(f"{TOP}/crates/*/must-fail/*.edit")):
        crate, edit = path.split("/")[-3], os.path.basename(path)[: -len(".edit")]
        names.add(f"{crate}/{edit}")
        lines = read(path).split("\n")
        match = FORM.match(lines[0])
        if not match:
            wrong.append(f"{crate}/{edit}: its first line isn't `# pins: FUNCTION clause CLAUSE`")
            continue
        of_type, function, clause, reason = match.groups()
        if not has_clause(match, sources[crate], own[crate], anywhere):
            wrong.append(f"{crate}/{edit}: there is no {function} clause {clause}")
        wrong += [f"{crate}/{edit}: {fault}" for fault in faults_of_text(crate, lines)]
        if "--table" in sys.argv[1:]:
            name = f"{of_type}::{function}" if of_type else function
            print(f"{crate}\t{edit}\t{name} clause {clause}\t{reason or ''}")
    missing = sorted(PROMISED - names)
    wrong += [f"{name}: a promise names this wrong body, but it doesn't exist" for name in missing]
    for line in wrong:
        print(line, file=sys.stderr)
    if "--table" not in sys.argv[1:]:
        count = f"{len(names)} wrong bodies, of which promises name {len(PROMISED)}"
        print(f"pins: {count}, {len(wrong)} faults")
    return 1 if wrong else 0


if __name__ == "__main__":
    sys.exit(main())
