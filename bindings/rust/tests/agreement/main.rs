//! The header, the Rust declarations and the exporting crate declare one interface; and a damaged text of any of them is seen.

mod header;
mod model;
mod rust;
mod text;

use haskumye::{BadForm, Mode, NoWayOn, Reason, Refusal};
use model::{constants_differ, functions_differ, structs_differ, Interface};
use std::path::{Path, PathBuf};

/// Where the lengths of what crosses are declared, each before its use: places and fields use one another's.
const LENGTHS: [&str; 9] = [
    "crates/rules/src/lib.rt",
    "crates/numbers/src/lib.rt",
    "crates/notes/src/lib.rt",
    "crates/tables/src/places.rt",
    "crates/tables/src/fields.rt",
    "crates/tables/src/places.rt",
    "crates/surveying/src/counting.rt",
    "crates/surveying/src/lib.rt",
    "crates/opinion_log/src/places.rt",
];

/// The texts of the three sources, and of the numbers of documents 01 and 02.
#[derive(Clone)]
struct Texts {
    header: String,
    rust: String,
    rattle: String,
    numbers: String,
}

fn root() -> PathBuf {
    Path::new(env!("CARGO_MANIFEST_DIR")).join("../..")
}

fn text(path: &str) -> String {
    std::fs::read_to_string(root().join(path)).unwrap_or_else(|error| panic!("{path}: {error}"))
}

/// The Rattle files of a folder, one after another.
fn rattle_texts(folder: &str) -> String {
    let mut paths: Vec<PathBuf> = std::fs::read_dir(root().join(folder)).expect(folder).map(|entry| entry.expect(folder).path()).collect();
    paths.retain(|path| path.extension().is_some_and(|extension| extension == "rt"));
    paths.sort();
    paths.iter().map(|path| std::fs::read_to_string(path).expect("a source that reads")).collect()
}

impl Texts {
    fn read() -> Self {
        Self {
            header: text("include/haskumye.h"),
            rust: text("bindings/rust/src/lib.rs") + &text("bindings/rust/src/raw.rs"),
            rattle: LENGTHS.iter().map(|path| text(path)).collect::<String>() + &rattle_texts("crates/haskumye/src"),
            numbers: rattle_texts("crates/numbers/src")
                + &text("crates/recording/src/places.rt")
                + &rattle_texts("crates/surveying/src")
                + &text("crates/opinion_log/src/places.rt"),
        }
    }

    /// Every difference, one a line.
    fn differences(&self) -> String {
        let header = header::read("the header", &self.header);
        let rust = with_enums(rust::read("Rust", rust::IN_RUST, &self.rust));
        let rattle = rust::read("the crate", rust::IN_RATTLE, &self.rattle);
        let mut lines = functions_differ(&header, &rust);
        lines.extend(functions_differ(&header, &rattle));
        lines.extend(functions_differ(&rust, &rattle));
        lines.extend(constants_differ(&header, &rust));
        lines.extend(structs_differ(
            &named_as_in_rust(&header),
            &rust,
            &["Parts", "Tally", "Entry", "PortSettings", "RateSettings", "PathRecord", "LinkRecord"],
        ));
        lines.extend(structs_differ(&rust, &rattle, &["Tally"]));
        lines.extend(self.limits_differ(&header));
        lines.join("\n")
    }

    /// One line for each limit and refusal of the numbers that is another in the header.
    fn limits_differ(&self, header: &Interface) -> Vec<String> {
        let plain = self.numbers.lines().filter_map(|line| line.strip_prefix("pub const ")?.strip_suffix(';'));
        let constants = plain.filter_map(|line| Some((line.split_once(':')?.0.to_string(), text::number(line.split_once("= ")?.1)?)));
        let named = |name: &str| {
            let name = FILES.iter().find(|known| known.0 == name).map_or(name, |known| known.1);
            let names = [format!("HASKUMYE_REFUSAL_{name}"), format!("HASKUMYE_{name}")];
            names.into_iter().find_map(|name| Some((name.clone(), *header.constants.get(&name)?)))
        };
        let both = constants.chain(self.refusals()).filter_map(|(name, here)| named(&name).map(|(name, there)| (name, here, there)));
        let other = both.filter(|(_, here, there)| here != there);
        let differ = other.map(|(name, here, there)| format!("{name} is {there} in the header, {here} in the numbers"));
        differ.chain(self.refusals_missing()).collect()
    }

    /// The refusals and their numbers as the exports tell them: the arms of `Refusal::number`.
    fn refusals(&self) -> impl Iterator<Item = (String, u64)> + '_ {
        let arms = self.numbers.lines().filter_map(|line| line.trim_start().strip_prefix("Refusal::")?.strip_suffix(','));
        arms.filter_map(|arm| arm.split_once(" => ")).filter_map(|(name, number)| Some((in_capitals(name), text::number(number)?)))
    }

    /// One line for each refusal of Rust's that no arm tells.
    fn refusals_missing(&self) -> Vec<String> {
        let told: Vec<String> = self.refusals().map(|(name, _)| name).collect();
        let names = Refusal::ALL.iter().filter(|case| case.number() != 0).map(|case| in_capitals(&format!("{case:?}")));
        names.filter(|name| !told.contains(name)).map(|name| format!("HASKUMYE_REFUSAL_{name} is missing in the numbers")).collect()
    }

    /// The same with one place changed, which must be there once.
    fn damaged(&self, source: fn(&mut Self) -> &mut String, from: &str, to: &str) -> Self {
        let mut texts = self.clone();
        let text = source(&mut texts);
        assert_eq!(text.matches(from).count(), 1, "{from:?}");
        *text = text.replace(from, to);
        texts
    }
}

/// Rust's numbered enums as the compiler has them, by the header's names.
fn with_enums(mut rust: Interface) -> Interface {
    let refusals = Refusal::ALL.iter().map(|case| (format!("Refusal{case:?}"), case.number()));
    let name = |reason: &Reason| format!("{reason:?}").split(' ').next().unwrap_or_default().to_string();
    let reasons = Reason::all().into_iter().map(|reason| (format!("Reason{}", name(&reason)), reason.number()));
    let clauses = BadForm::ALL.iter().map(|case| (format!("BadForm{case:?}"), case.number()));
    let cases = NoWayOn::ALL.iter().map(|case| (format!("NoWayOn{case:?}"), case.number()));
    let modes = Mode::ALL.iter().map(|case| (format!("Mode{case:?}"), case.number()));
    for (name, number) in refusals.chain(reasons).chain(clauses).chain(cases).chain(modes) {
        rust.constants.insert(format!("HASKUMYE_{}", in_capitals(&name)), number.into());
    }
    rust
}

/// The name of a case as constants have it: of TooShort TOO_SHORT.
fn in_capitals(name: &str) -> String {
    let words = name.chars().flat_map(|sign| sign.is_uppercase().then_some('_').into_iter().chain([sign.to_ascii_uppercase()]));
    words.collect::<String>().trim_start_matches('_').to_string()
}

/// haskumye_parts becomes Parts.
fn named_as_in_rust(header: &Interface) -> Interface {
    let mut renamed = header.clone();
    let names = [
        ("haskumye_parts", "Parts"),
        ("haskumye_tally", "Tally"),
        ("haskumye_entry", "Entry"),
        ("haskumye_port_settings", "PortSettings"),
        ("haskumye_rate_settings", "RateSettings"),
        ("haskumye_path_record", "PathRecord"),
        ("haskumye_link_record", "LinkRecord"),
    ];
    for (c, rust) in names {
        renamed.structs.extend(header.structs.get(c).map(|fields| (rust.into(), fields.clone())));
    }
    renamed
}

/// What the crate `recording` calls a number, and what the header does.
const FILES: [(&str, &str); 1] = [("LONGEST_FILE", "RECORDING_SIZE")];

const HEADER: fn(&mut Texts) -> &mut String = |texts| &mut texts.header;
const RUST: fn(&mut Texts) -> &mut String = |texts| &mut texts.rust;
const RATTLE: fn(&mut Texts) -> &mut String = |texts| &mut texts.rattle;
const NUMBERS: fn(&mut Texts) -> &mut String = |texts| &mut texts.numbers;

/// A text to damage, what becomes of it, and a line that must be among the differences.
type Damage = (fn(&mut Texts) -> &mut String, &'static str, &'static str, &'static str);

fn assert_seen(damages: &[Damage]) {
    let texts = Texts::read();
    for (source, from, to, line) in damages {
        let differences = texts.damaged(*source, from, to).differences();
        assert!(differences.lines().any(|seen| seen == *line), "{from:?} became {to:?}, expected\n{line}\nseen\n{differences}");
    }
}

#[test]
fn the_three_agree() {
    assert_eq!(Texts::read().differences(), "");
}

#[test]
fn something_is_compared() {
    let texts = Texts::read();
    let header = header::read("the header", &texts.header);
    assert_eq!((header.functions.len(), header.structs.len()), (53, 19));
    assert_eq!(header.functions["haskumye_packet"].arguments.len(), 10);
    assert_eq!(header.constants.len(), 112);
}

#[test]
fn a_missing_function_is_seen() {
    let check = "HASKUMYE_CHECKED uint8_t haskumye_check_tables(const uint8_t *tables, size_t length);";
    assert_seen(&[
        (HEADER, check, "", "haskumye_check_tables is missing in the header"),
        (RUST, "pub fn haskumye_check_tables(tables: *const u8, length: usize) -> u8;", "", "haskumye_check_tables is missing in Rust"),
        (
            RATTLE,
            "#[unsafe(no_mangle)]\npub extern \"C\" fn haskumye_check_tables",
            "pub fn haskumye_check_tables",
            "haskumye_check_tables is missing in the crate",
        ),
        (HEADER, check, "void haskumye_new(void);", "haskumye_new is missing in the crate"),
    ]);
}

#[test]
fn swapped_and_missing_arguments_are_seen() {
    assert_seen(&[
        (
            HEADER,
            "haskumye_packet(const uint8_t *packet, size_t length, uint64_t port, uint64_t clock",
            "haskumye_packet(const uint8_t *packet, size_t length, uint64_t clock, uint64_t port",
            "haskumye_packet: argument 3 is `clock: u64` in the header, `port: u64` in the crate",
        ),
        (
            RUST,
            "length: usize, target: u64, grace: u64, penalty: u64",
            "length: usize, grace: u64, target: u64, penalty: u64",
            "haskumye_set_announce_rate: argument 3 is `target: u64` in the header, `grace: u64` in Rust",
        ),
        (
            RUST,
            "length: usize, port: u64, on: u8, mode: u64",
            "length: usize, mode: u64, on: u8, port: u64",
            "haskumye_set_port: argument 3 is `port: u64` in the header, `mode: u64` in Rust",
        ),
        (
            RUST,
            "length: usize, destination: *const Address, clock: u64) -> u8;",
            "length: usize, clock: u64, destination: *const Address) -> u8;",
            "haskumye_mark_path_unresponsive: argument 3 is `destination: const 16 of u8` in the header, `clock: u64` in Rust",
        ),
        (
            RATTLE,
            "tables: &mut [u8],\n    output: &mut [u8],\n    tally: &mut Tally,",
            "output: &mut [u8],\n    tables: &mut [u8],\n    tally: &mut Tally,",
            "haskumye_packet: argument 6 is `tables: mut bytes` in the header, `output: mut bytes` in the crate",
        ),
        (
            RATTLE,
            "tables: &mut [u8],\n    port: u64,\n    on: u8,\n    mode: u64,\n    size: u64,\n",
            "tables: &mut [u8],\n    port: u64,\n    on: u8,\n    mode: u64,\n",
            "haskumye_set_port: the number of arguments is `6` in the header, `5` in the crate",
        ),
    ]);
}

#[test]
fn widths_are_seen() {
    assert_seen(&[
        (
            HEADER,
            "size_t length, uint64_t port, uint8_t on,",
            "size_t length, uint64_t port, uint16_t on,",
            "haskumye_set_port: argument 4 is `on: u16` in the header, `on: u8` in Rust",
        ),
        (
            HEADER,
            "uint8_t haskumye_check_tables",
            "uint32_t haskumye_check_tables",
            "haskumye_check_tables: what it returns is `u32` in the header, `u8` in the crate",
        ),
        (
            RUST,
            "haskumye_least_announce(header: u8) -> usize",
            "haskumye_least_announce(header: u8) -> u64",
            "haskumye_least_announce: what it returns is `size` in the header, `u64` in Rust",
        ),
        (
            RATTLE,
            "haskumye_least_announce(header: u8)",
            "haskumye_least_announce(header: u64)",
            "haskumye_least_announce: argument 1 is `header: u8` in Rust, `header: u64` in the crate",
        ),
    ]);
}

#[test]
fn const_and_mut_are_told_apart() {
    assert_seen(&[
        (
            HEADER,
            "size_t length, const haskumye_port_map *map",
            "size_t length, haskumye_port_map *map",
            "haskumye_renumber: argument 3 is `map: mut 16 of u8` in the header, `map: const 16 of u8` in the crate",
        ),
        (
            RUST,
            "haskumye_payload_start(packet: *const u8",
            "haskumye_payload_start(packet: *mut u8",
            "haskumye_payload_start: argument 1 is `packet: const bytes` in the header, `packet: mut bytes` in Rust",
        ),
        (
            RATTLE,
            "haskumye_check_tables(tables: &[u8])",
            "haskumye_check_tables(tables: &mut [u8])",
            "haskumye_check_tables: argument 1 is `tables: const bytes` in the header, `tables: mut bytes` in the crate",
        ),
        (
            RATTLE,
            "tally: &[u32; 6]",
            "tally: &mut [u32; 6]",
            "haskumye_save: argument 3 is `tally: const 6 of u32` in the header, `tally: mut 6 of u32` in the crate",
        ),
    ]);
}

#[test]
fn lengths_of_blocks_are_seen() {
    assert_seen(&[
        (
            HEADER,
            "uint8_t to[16];",
            "uint8_t to[15];",
            "haskumye_renumber: argument 3 is `map: const 15 of u8` in the header, `map: const 16 of u8` in the crate",
        ),
        (
            RUST,
            "pub type Blob = [u8; 10];",
            "pub type Blob = [u8; 11];",
            "haskumye_emission: argument 1 is `blob: const 10 of u8` in the header, `blob: const 11 of u8` in Rust",
        ),
        (
            RUST,
            "pub type Text = [u8; TEXT_SIZE];",
            "pub type Text = [u8; OUTPUT_SIZE];",
            "haskumye_line: argument 3 is `text: mut 160 of u8` in the header, `text: mut 500 of u8` in Rust",
        ),
        (
            HEADER,
            "HASKUMYE_LOG_SIZE 32721",
            "HASKUMYE_LOG_SIZE 32720",
            "haskumye_opinion_renumber: argument 1 is `log: mut 32720 of u8` in the header, `log: mut 32721 of u8` in the crate",
        ),
        (
            RATTLE,
            "parts: &mut [u8; 35]",
            "parts: &mut [u8; 36]",
            "haskumye_read: argument 4 is `parts: mut 35 of u8` in Rust, `parts: mut 36 of u8` in the crate",
        ),
        (
            HEADER,
            "    uint32_t kept;\n",
            "",
            "haskumye_packet: argument 10 is `tally: mut 5 of u32` in the header, `tally: mut 6 of u32` in the crate",
        ),
        (
            RATTLE,
            "entry: &mut [u64; 5]",
            "entry: &mut [u64; 4]",
            "haskumye_recording_entry: argument 4 is `entry: mut 5 of u64` in the header, `entry: mut 4 of u64` in the crate",
        ),
        (
            RATTLE,
            "tally: &mut [u32; 6],\n",
            "tally: &mut [u32; 5],\n",
            "haskumye_replay_entry: argument 6 is `tally: mut 6 of u32` in the header, `tally: mut 5 of u32` in the crate",
        ),
        (
            RATTLE,
            "settings: &mut [u8; 12]",
            "settings: &mut [u8; 3]",
            "haskumye_announce_rate: argument 3 is `settings: mut 12 of u8` in the header, `settings: mut 3 of u8` in the crate",
        ),
        (
            RATTLE,
            "link: &mut [u8; 29]",
            "link: &mut [u8; 30]",
            "haskumye_link: argument 4 is `link: mut 29 of u8` in the header, `link: mut 30 of u8` in the crate",
        ),
        (
            RATTLE,
            "clock: &mut u64",
            "clock: &mut u32",
            "haskumye_last_clock: argument 3 is `clock: mut 1 of u64` in the header, `clock: mut 1 of u32` in the crate",
        ),
        (
            HEADER,
            "    uint8_t blob_count;\n",
            "",
            "haskumye_live_path: argument 5 is `path: mut 60 of u8` in the header, `path: mut 61 of u8` in the crate",
        ),
    ]);
}

#[test]
fn fields_in_another_order_are_seen() {
    let texts = Texts::read();
    let swaps: [Damage; 10] = [
        (HEADER, "uint64_t clock;\n    uint64_t port;", "uint64_t port;\n    uint64_t clock;", "Entry is"),
        (HEADER, "uint32_t total;\n    uint32_t dropped;", "uint32_t dropped;\n    uint32_t total;", "Tally is"),
        (RATTLE, "pub spread: u32,\n    pub kept: u32,", "pub kept: u32,\n    pub spread: u32,", "Tally is"),
        (
            HEADER,
            "haskumye_address relay;\n    haskumye_address destination;",
            "haskumye_address destination;\n    haskumye_address relay;",
            "Parts is",
        ),
        (HEADER, "uint8_t port;\n    uint8_t hops; ", "uint8_t hops;\n    uint8_t port; ", "PathRecord is"),
        (RUST, "pub last_announce: Time,", "pub blocked_until: Time,", "PathRecord is"),
        (RUST, "pub unresponsive: u8,", "pub blob_count: u8,", "PathRecord is"),
        (RUST, "pub target: Setting,", "pub grace: Setting,", "RateSettings is"),
        (RUST, "pub size: Size,", "pub mode: Size,", "PortSettings is"),
        (RUST, "pub asking: u8,", "pub answering: u8,", "LinkRecord is"),
    ];
    for (source, from, to, start) in swaps {
        let differences = texts.damaged(source, from, to).differences();
        assert!(differences.lines().any(|line| line.starts_with(start)), "{from:?}: {differences}");
    }
}

#[test]
fn constants_are_compared() {
    assert_seen(&[
        (HEADER, "HASKUMYE_OUTPUT_SIZE 500", "HASKUMYE_OUTPUT_SIZE 501", "HASKUMYE_OUTPUT_SIZE is 501 in the header, 500 in Rust"),
        (HEADER, "HASKUMYE_REFUSAL_MAP = 8", "HASKUMYE_REFUSAL_MAP = 9", "HASKUMYE_REFUSAL_MAP is 9 in the header, 8 in Rust"),
        (HEADER, "HASKUMYE_REASON_PORT_OFF = 12,", "", "HASKUMYE_REASON_PORT_OFF is missing in the header"),
        (
            HEADER,
            "HASKUMYE_NO_WAY_ON_NO_LINK = 4,",
            "HASKUMYE_NO_WAY_ON_NO_LINK = 5,",
            "HASKUMYE_NO_WAY_ON_NO_LINK is 5 in the header, 4 in Rust",
        ),
        (HEADER, "#define HASKUMYE_PACKET_DATA 0x00", "", "HASKUMYE_PACKET_DATA is missing in the header"),
        (
            HEADER,
            "UINT64_C(1099511627776)",
            "UINT64_C(1099511627775)",
            "HASKUMYE_CLOCK_LIMIT is 1099511627775 in the header, 1099511627776 in Rust",
        ),
        (RUST, "pub const KEPT: u8 = 5;", "pub const KEPT: u8 = 6;", "HASKUMYE_KEPT is 5 in the header, 6 in Rust"),
        (RUST, "pub const LOCAL_COUNT: usize = 16;", "", "HASKUMYE_LOCAL_COUNT is missing in Rust"),
    ]);
}

#[test]
fn limits_are_those_of_the_crate_of_numbers() {
    let limits = [("PORT", 16), ("LOCAL", 16), ("PATH", 64), ("LINK", 64), ("RETURN", 512), ("HASH", 1024)];
    let texts = Texts::read();
    for (name, number) in limits {
        let from = format!("pub const {name}_COUNT: usize = {number};");
        let to = format!("pub const {name}_COUNT: usize = {};", number + 1);
        let line = format!("HASKUMYE_{name}_COUNT is {number} in the header, {} in the numbers", number + 1);
        assert_eq!(texts.damaged(NUMBERS, &from, &to).differences(), line);
    }
    assert_seen(&[
        (NUMBERS, "FILE_PLACE: u8 = 22", "FILE_PLACE: u8 = 24", "HASKUMYE_REFUSAL_FILE_PLACE is 22 in the header, 24 in the numbers"),
        (NUMBERS, "FILE_BODY: u8 = 24", "FILE_BODY: u8 = 23", "HASKUMYE_REFUSAL_FILE_BODY is 24 in the header, 23 in the numbers"),
        (NUMBERS, "60_000", "60_001", "HASKUMYE_RECORDING_SIZE is 60000 in the header, 60001 in the numbers"),
        (
            NUMBERS,
            "LONGEST_PACKET: usize = 500",
            "LONGEST_PACKET: usize = 501",
            "HASKUMYE_LONGEST_PACKET is 500 in the header, 501 in the numbers",
        ),
        (
            NUMBERS,
            "TARGET_LIMIT: u64 = 86_400",
            "TARGET_LIMIT: u64 = 86_401",
            "HASKUMYE_TARGET_LIMIT is 86400 in the header, 86401 in the numbers",
        ),
        (NUMBERS, "GRACE_LIMIT: u64 = 254", "GRACE_LIMIT: u64 = 255", "HASKUMYE_GRACE_LIMIT is 254 in the header, 255 in the numbers"),
        (
            NUMBERS,
            "PENALTY_LIMIT: u64 = 604_800",
            "PENALTY_LIMIT: u64 = 604_801",
            "HASKUMYE_PENALTY_LIMIT is 604800 in the header, 604801 in the numbers",
        ),
        (NUMBERS, "LIST_FULL: u8 = 28", "LIST_FULL: u8 = 27", "HASKUMYE_REFUSAL_LIST_FULL is 28 in the header, 27 in the numbers"),
        (NUMBERS, "LIST_LIMIT: usize = 64", "LIST_LIMIT: usize = 65", "HASKUMYE_LIST_LIMIT is 64 in the header, 65 in the numbers"),
        (NUMBERS, "MAP: u8 = 8", "MAP: u8 = 9", "HASKUMYE_REFUSAL_MAP is 8 in the header, 9 in the numbers"),
    ]);
}

#[test]
fn refusals_are_those_that_exports_tell() {
    assert_seen(&[
        (
            NUMBERS,
            "Refusal::FilePlace => 22",
            "Refusal::FilePlace => 24",
            "HASKUMYE_REFUSAL_FILE_PLACE is 22 in the header, 24 in the numbers",
        ),
        (
            NUMBERS,
            "Refusal::FileBody => 24",
            "Refusal::FileBody => 23",
            "HASKUMYE_REFUSAL_FILE_BODY is 24 in the header, 23 in the numbers",
        ),
        (
            NUMBERS,
            "Refusal::ListFull => 28",
            "Refusal::ListFull => 27",
            "HASKUMYE_REFUSAL_LIST_FULL is 28 in the header, 27 in the numbers",
        ),
        (NUMBERS, "Refusal::Map => 8", "Refusal::Map => 9", "HASKUMYE_REFUSAL_MAP is 8 in the header, 9 in the numbers"),
        (NUMBERS, "Refusal::Room => 25,", "", "HASKUMYE_REFUSAL_ROOM is missing in the numbers"),
    ]);
}
