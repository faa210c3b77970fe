//! The rules by name. Each stands in the file of its subject, under the words that it says; here they are listed, so that another can be
//! put in the place of one of them.

pub use crate::announcing::{self, Own};
pub use crate::answer::{self, no_way_on, Answer, Clause, NoWay, Reason, Refusal, Tally, Verdict, When};
pub use crate::engine::Outcome;
pub use crate::opinion;
pub use crate::packet::{self, announced, hash, Address, Blob, Header, PacketHash, Parts};
pub use crate::recording::replaying::Judged;
pub use crate::recording::{self, reading, replaying, writing, Entry};
pub use crate::relay::asking::{self, Question};
pub use crate::relay::links::Side;
pub use crate::relay::renumbering::Map;
pub use crate::relay::{
    accept, announces, by_path, form, judge, links, marks, outgoing, rate, renumbering, returns, settings, Arrival, Packet,
};
pub use crate::saved::{editions, loading, saving};
pub use crate::sha256::Sha256;
pub use crate::survey::{self, PortTotals, Totals};
pub use crate::tables::{self, check, tuned, AnnounceRate, Link, Mode, Path, Port, RateEntry, Return, Section, Table};

/// Hands the list to a macro: the file of each rule, its name, and its types. A rule that goes by others is given the rules.
macro_rules! every_rule {
    ($make:ident) => {
        $make! {
            packet::read_at(&rules, packet: &[u8], size: u64) -> Result<Parts, Refusal>;
            packet::size_refused(size: u64) -> bool;
            packet::read_refusal(packet: &[u8], longest: usize) -> Result<(), Refusal>;
            packet::parts(packet: &[u8]) -> Parts;
            packet::payload_place(packet: &[u8]) -> usize;
            packet::write_refusal(parts: &Parts, payload: usize, room: usize) -> Result<(), Refusal>;
            hash::hashed_head(parts: &Parts) -> [u8; hash::HEAD];
            hash::link_id_covers(length: usize) -> usize;
            announced::has_ratchet(parts: &Parts) -> bool;
            announced::destination(sha: &Sha256, keys: &[u8], name_hash: &[u8]) -> Address;
            announced::emission(blob: &[u8]) -> u64;

            announcing::announcing_refusal(&rules, own: &Own, signature: Option<&[u8]>, room: usize) -> Result<(), Refusal>;
            announcing::wrong_lengths(own: &Own) -> bool;
            announcing::announce_grown(own: &Own) -> bool;
            announcing::own_blob(own: &Own) -> Blob;
            announcing::signed(&rules, destination: &Address, own: &Own) -> Vec<u8>;
            announcing::own_parts(destination: Address, own: &Own) -> Parts;
            announcing::own_payload(&rules, own: &Own, signature: &[u8]) -> Vec<u8>;

            check::tables_allowed(&rules, tables: &[u8]) -> bool;
            check::size_allowed(size: usize) -> bool;
            check::last_clock_allowed(&rules, clock: u64) -> bool;
            check::time_allowed(time: u64) -> bool;
            check::used_mark(mark: u8) -> Option<bool>;
            check::proved_mark(mark: u8) -> Option<bool>;
            check::on_mark(mark: u8) -> Option<bool>;
            check::port_allowed(&rules, settings: &[u8]) -> bool;
            check::stored_size_allowed(size: usize) -> bool;
            check::unused_allowed(record: &[u8]) -> bool;
            check::path_allowed(&rules, path: &[u8]) -> bool;
            check::blob_count_allowed(count: u8) -> bool;
            check::last_announce_allowed(time: u64) -> bool;
            check::block_allowed(time: u64) -> bool;
            check::rate_allowed(rate: &AnnounceRate) -> bool;
            check::unresponsive_mark(mark: u8) -> Option<bool>;
            check::ring_place_allowed(place: usize, count: usize) -> bool;
            tables::find(table: &Table, tables: &[u8], key: &[u8], clock: u64) -> Option<usize>;

            settings::fresh_port() -> Port;
            settings::set_port(&rules, tables: &mut [u8], port: u64, on: bool, mode: u64, size: u64) -> Result<(), Refusal>;
            settings::local_place(&rules, address: &Address, tables: &[u8]) -> Result<usize, Refusal>;
            settings::is_there(address: &Address, tables: &[u8]) -> bool;
            settings::empty_local(tables: &[u8]) -> Option<usize>;
            settings::clear_local(place: usize, tables: &mut [u8]);
            rate::set_announce_rate(&rules, tables: &mut [u8], rate: &AnnounceRate) -> Result<(), Refusal>;
            rate::rate_refused(rate: &AnnounceRate) -> bool;
            marks::mark_unresponsive(&rules, tables: &mut [u8], destination: &Address, clock: u64) -> Result<(), Refusal>;
            marks::path_to_mark(&rules, destination: &Address, clock: u64, tables: &[u8]) -> Option<usize>;
            marks::set_mark(path: &mut [u8]);
            marks::settle_mark(clock: u64, tables: &mut [u8]);
            renumbering::renumber(&rules, tables: &mut [u8], map: &Map) -> Result<(), Refusal>;
            renumbering::move_settings(map: &Map, tables: &mut [u8]);
            renumbering::rename_ports(map: &Map, table: &Table, tables: &mut [u8]);

            accept::packet_call(
                &rules, sha: &Sha256, tables: &mut [u8], tally: &mut Tally, output: &mut [u8], arrival: &Arrival
            ) -> Result<Answer, Refusal>;
            accept::arrival_refusal(&rules, tables: &[u8], room: usize, arrival: &Arrival) -> Result<(), Refusal>;
            accept::output_too_small(room: usize) -> bool;
            accept::arrival_size(port: u8, tables: &[u8]) -> usize;
            accept::port_refused(port: u64, tables: &[u8]) -> bool;
            accept::clock_refused(clock: u64, last: u64) -> bool;
            accept::settle(&rules, verdict: Verdict, clock: u64, tables: &mut [u8], tally: &mut Tally);
            answer::count(tally: &mut Tally, verdict: Verdict);

            judge::judge(&rules, packet: &mut Packet, tables: &mut [u8], output: &mut [u8]) -> Result<Answer, Reason>;
            judge::first_tests(&rules, packet: &mut Packet, tables: &mut [u8]) -> Result<bool, Reason>;
            judge::not_ours(packet: &Packet, tables: &[u8]) -> bool;
            judge::test_2(&rules, packet: &mut Packet, tables: &mut [u8]) -> Result<(), Reason>;
            judge::is_exempt(packet: &Packet) -> bool;
            judge::is_duplicate(&rules, hash: &PacketHash, clock: u64, tables: &[u8]) -> bool;
            judge::remember(hash: &PacketHash, clock: u64, tables: &mut [u8]);
            form::failing_clause(&rules, packet: &Packet) -> Option<Clause>;
            form::least_length(&rules, clause: Clause, packet: &Packet) -> usize;
            form::type_2_proof(packet: &Packet) -> bool;
            form::type_2_link(packet: &Packet) -> bool;
            form::announce_not_single(packet: &Packet) -> bool;
            form::announce_too_short(&rules, packet: &Packet) -> bool;
            form::announce_of_another(&rules, packet: &Packet) -> bool;
            form::request_of_kind_link(packet: &Packet) -> bool;
            form::request_too_short(packet: &Packet) -> bool;
            form::link_proof_length(packet: &Packet) -> bool;
            judge::is_local(destination: &Address, tables: &[u8]) -> bool;
            judge::is_delivered(header: Header) -> bool;
            judge::too_many_hops(hops: u8) -> bool;

            announces::announce(&rules, packet: &Packet, tables: &mut [u8], output: &mut [u8]) -> Result<Answer, Reason>;
            announces::announce_tests(&rules, packet: &Packet, known: Option<&[u8]>) -> Result<(), Reason>;
            announces::is_replay(blob: &[u8], path: &[u8]) -> bool;
            announces::not_better(&rules, packet: &Packet, path: &[u8]) -> bool;
            announces::greatest_emission(&rules, path: &[u8]) -> u64;
            announces::path_slot(packet: &Packet, known: Option<usize>, tables: &[u8]) -> Option<usize>;
            announces::store_path(&rules, packet: &Packet, known: bool, place: usize, tables: &mut [u8]);
            announces::clear_slot(record: &mut [u8]);
            announces::path_of(&rules, packet: &Packet, mode: Mode) -> Path;
            announces::path_lifetime(mode: Mode) -> u64;
            announces::store_blob(blob: &[u8], path: &mut [u8]);

            rate::test_15(&rules, clock: u64, known: Option<usize>, tables: &mut [u8]) -> Result<RateEntry, Reason>;
            rate::is_blocked(clock: u64, entry: &RateEntry) -> bool;
            rate::is_violation(clock: u64, rate: &AnnounceRate, entry: &RateEntry) -> bool;
            rate::one_violation_more(violations: u8) -> u8;
            rate::above_grace(violations: u8, rate: &AnnounceRate) -> bool;
            rate::block_end(clock: u64, rate: &AnnounceRate, entry: &RateEntry) -> u64;
            rate::forgiven(violations: u8) -> u8;
            rate::store_rate(clock: u64, entry: &RateEntry, path: &mut [u8]);

            marks::skips_test_2(&rules, packet: &Packet, tables: &[u8]) -> bool;
            marks::revives(&rules, packet: &Packet, path: &[u8]) -> bool;
            marks::revived_entry(path: &[u8]) -> RateEntry;
            marks::holds_blob(blob: &[u8], path: &[u8]) -> bool;
            marks::clear_mark(path: &mut [u8]);

            by_path::path_to(&rules, packet: &Packet, tables: &[u8]) -> Result<Path, Reason>;
            by_path::not_to_be_relayed(packet: &Packet) -> bool;
            by_path::live_path(&rules, packet: &Packet, tables: &[u8]) -> Option<usize>;
            by_path::greatest_expiry(packet: &Packet, tables: &[u8]) -> Option<u64>;
            by_path::request_tests(&rules, packet: &Packet, id: &Address, path: &Path, tables: &[u8]) -> Result<usize, Reason>;
            links::is_known_link(&rules, id: &Address, clock: u64, tables: &[u8]) -> bool;
            links::link_slot(clock: u64, tables: &[u8]) -> Option<usize>;
            links::make_link(&rules, packet: &Packet, id: &Address, path: &Path, slot: usize, tables: &mut [u8]);
            links::link_of(packet: &Packet, id: &Address, path: &Path) -> Link;
            links::link_packet(&rules, packet: &Packet, tables: &mut [u8], output: &mut [u8]) -> Result<Answer, Reason>;
            links::link_tests(&rules, packet: &Packet, link: &Link) -> Result<Side, Reason>;
            links::carries(packet: &Packet, link: &Link) -> bool;
            links::is_proved_again(packet: &Packet, link: &Link) -> bool;
            links::test_8(&rules, packet: &Packet, link: &Link) -> Result<Side, Reason>;
            links::side(packet: &Packet, link: &Link) -> Option<Side>;
            links::link_proof_unsigned(packet: &Packet) -> bool;
            links::carry(packet: &Packet, link: &mut Link);

            returns::make_return(&rules, packet: &Packet, path: &Path, tables: &mut [u8]);
            returns::return_of(packet: &Packet, path: &Path) -> Return;
            returns::return_place(tables: &mut [u8]) -> usize;
            returns::is_emptied(key: &Address, clock: u64, record: &[u8]) -> bool;
            returns::ordinary_proof(&rules, packet: &Packet, tables: &mut [u8], output: &mut [u8]) -> Result<Answer, Reason>;
            returns::proof_tests(packet: &Packet, record: &Return) -> Result<(), Reason>;
            returns::way_back(record: &Return) -> u8;
            returns::end_return(record: &mut [u8]);

            outgoing::spread(&rules, packet: &Packet, tables: &[u8], output: &mut [u8]) -> Answer;
            outgoing::leaving_tests(&rules, packet: &Packet, port: u8, length: usize, tables: &[u8]) -> Result<(), Reason>;
            outgoing::fits(packet: &Packet, port: u8, length: usize, tables: &[u8]) -> bool;
            outgoing::length_by_path(&rules, packet: &Packet, path: &Path) -> usize;
            outgoing::spread_ports(&rules, packet: &Packet, tables: &[u8]) -> u16;
            outgoing::spread_header(header: Header) -> Header;
            outgoing::is_last_hop(stored: u8) -> bool;
            outgoing::last_hop_header(header: Header) -> Header;
            outgoing::put_unchanged(packet: &Packet, output: &mut [u8]);

            asking::question_refusal(&rules, tables: &[u8], question: &Question) -> Result<(), Refusal>;
            asking::leave_asked(question: &Question, tables: &mut [u8]);
            asking::settings_of(port: u64, tables: &[u8]) -> Option<Vec<u8>>;
            asking::used_at(section: &Section, place: u64, tables: &[u8]) -> Option<usize>;
            asking::path_at(&rules, place: u64, tables: &[u8]) -> Option<usize>;
            asking::path_told_live(&rules, destination: &Address, clock: u64, tables: &[u8]) -> Option<usize>;
            asking::rate_told(rate: &AnnounceRate) -> Vec<u8>;
            asking::entry_told(entry: &RateEntry) -> Vec<u8>;
            asking::live_count(table: &Table, clock: u64, tables: &[u8]) -> u64;
            asking::signature_matters(
                &rules, sha: &Sha256, tables: &[u8], room: usize, arrival: &Arrival
            ) -> Result<bool, Refusal>;

            reading::file_refusal(&rules, file: &[u8]) -> Result<(), Refusal>;
            reading::length_refused(file: &[u8]) -> bool;
            reading::kind_refused(file: &[u8]) -> bool;
            reading::places_refused(&rules, file: &[u8]) -> bool;
            reading::stands_at(entry: &Entry, place: usize) -> bool;
            reading::ends_at(place: usize, length: usize) -> bool;
            reading::words_refused(&rules, file: &[u8]) -> bool;
            reading::word_refused(word: u8) -> bool;
            reading::entry_of(bytes: &[u8]) -> Entry;
            reading::entry_at(&rules, file: &[u8], index: u64) -> Option<Entry>;
            writing::writing_refusal(&rules, entries: &[u8], bodies: usize, room: usize) -> Result<(), Refusal>;
            writing::clock_past(clock: u64) -> bool;
            writing::not_a_file(entries: &[u8], bodies: usize) -> bool;
            writing::room_refused(room: usize, length: usize) -> bool;
            writing::put_file(entries: &[u8], bodies: &[u8], room: &mut [u8]) -> usize;
            replaying::replay_line(&rules, number: u64, judged: &Judged) -> String;
            replaying::reason_words(reason: Reason) -> String;
            replaying::goes_on(judged: &Judged) -> bool;

            saving::save(&rules, tables: &[u8], tally: &Tally, room: &mut [u8]) -> Result<usize, Refusal>;
            saving::saving_room_refused(room: usize) -> bool;
            saving::put_saved(tables: &[u8], tally: &Tally, room: &mut [u8]);
            loading::load(&rules, file: &[u8], tables: &mut [u8], tally: &mut Tally) -> Result<(), Refusal>;
            loading::loading_refusal(&rules, file: &[u8], tables: &[u8]) -> Result<(), Refusal>;
            loading::saved_length_refused(file: &[u8]) -> bool;
            loading::saved_kind_refused(file: &[u8]) -> bool;
            loading::saved_places_refused(&rules, file: &[u8]) -> bool;
            loading::count_refused(count: usize) -> bool;
            loading::offsets_run(file: &[u8]) -> bool;
            loading::bodies_refused(&rules, file: &[u8]) -> bool;
            editions::blob_limit(edition: u8) -> usize;
            loading::body_lengths_allowed(file: &[u8]) -> bool;
            loading::loading_room_refused(tables: &[u8]) -> bool;
            loading::put_loaded(file: &[u8], tables: &mut [u8], tally: &mut Tally);

            opinion::opined(listed: usize, outcome: Outcome) -> Outcome;
            opinion::is_listed(outcome: &Outcome) -> bool;
            opinion::listed_when_fresh(listed: usize) -> usize;

            survey::started(&rules, loaded: &[u8]) -> Vec<u8>;
            survey::tables_before(start: &[u8], left: &[u8]) -> Vec<u8>;
            survey::recording_refusal(&rules, number: usize, file: &[u8]) -> Result<(), Refusal>;
            survey::ends_reading(refusal: Refusal) -> bool;
            survey::count_refused_recording(file: &[u8], totals: &mut Totals);
            survey::count_entry(&rules, entry: &Entry, judged: &Judged, totals: &mut Totals);
            survey::sent_by(entry: &Entry, answer: &Answer, port: u8) -> u64;
            survey::share(dropped: u64, packets: u64) -> (u64, u64);
            survey::recording_line(number: usize, refusal: Refusal) -> String;
            survey::port_line(&rules, port: usize, totals: &PortTotals) -> String;
            survey::tests() -> [u8; 15];
            survey::reason_line(test: u8, times: u64) -> String;
        }
    };
}

/// The rules, for a rule that is given them.
macro_rules! given {
    ($own:tt $rules:ident) => {
        $own
    };
}

macro_rules! rules {
    ($($file:ident::$rule:ident($(&$rules:ident,)? $($name:ident: $type:ty),*) $(-> $result:ty)?;)*) => {
        /// How documents 01 and 02 are read: each rule as it is written, but where it is read otherwise.
        pub trait Rules: Sized {
            $(
                #[inline(always)]
                fn $rule(&self, $($name: $type),*) $(-> $result)? {
                    $file::$rule($(given!(self $rules),)? $($name),*)
                }
            )*
        }
    };
}

every_rule!(rules);
pub(crate) use {every_rule, given};

/// The documents as they are written.
#[derive(Clone, Copy, Debug)]
pub struct AsWritten;

impl Rules for AsWritten {}

/// The same, and refusal 7 by the tuned check, blobs by the tuned searches.
#[derive(Clone, Copy, Debug)]
pub struct Tuned;

impl Rules for Tuned {
    #[inline(always)]
    fn tables_allowed(&self, tables: &[u8]) -> bool {
        tuned::tables_allowed(tables)
    }

    #[inline(always)]
    fn is_replay(&self, blob: &[u8], path: &[u8]) -> bool {
        tuned::holds(blob, path)
    }

    #[inline(always)]
    fn greatest_emission(&self, path: &[u8]) -> u64 {
        tuned::greatest_emission(path)
    }

    #[inline(always)]
    fn holds_blob(&self, blob: &[u8], path: &[u8]) -> bool {
        marks::is_marked(path) && tuned::holds(blob, path)
    }
}
