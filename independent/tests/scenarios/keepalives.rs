//! Wish 2: packets of kind link that may come again as the same bytes.

use crate::host::{announce, bad_form, link_id, lost, packet_hash, to_station, type_1, Host, NEIGHBOUR, OWN};
use haskumye_independent::answer::{Clause, NoWay, Reason, Verdict};
use haskumye_independent::limits::EXEMPT_CONTEXTS;
use haskumye_independent::packet::{encode, Address, Header, Parts};
use haskumye_independent::tables::{self, link, set_key, set_time, HASHES, HASH_PLACE, LINKS};

crate::on_both_programs!(
    a_keepalive_comes_twice_within_300_s(KeepaliveNotExempt),
    keepalives_keep_a_link_alive(ExemptRemembered),
    six_contexts_are_exempt(ResourceContextsExempt),
    proofs_of_kind_link_are_exempt_too(OnlyDataExempt),
    other_kinds_are_not_exempt(ExemptOfAnyKind),
    a_live_hash_in_the_ring_is_no_matter(ExemptTested),
    the_other_tests_stand(DroppedExemptRemembered),
);

/// A proved link with four hops taken by port 0, and two remaining by port 3.
fn proved_link(host: &mut Host) -> Address {
    host.verdict(&announce(1, 0x41, 2, 5, 200), 3, 10);
    let request = to_station(1, 0x42, 4, &[1; 67]);
    let id = link_id(&request);
    assert_eq!(host.verdict(&request, 0, 100), Verdict::Forward(3));
    assert_eq!(host.verdict(&type_1(0x0f, 2, id, 0xff, &[4; 99]), 3, 100), Verdict::Forward(0));
    id
}

fn link_expiry(host: &Host) -> u64 {
    tables::time(LINKS.records.get(&host.tables, 0), link::EXPIRY)
}

fn a_keepalive_comes_twice_within_300_s(host: &mut Host) {
    let keepalive = type_1(0x0c, 4, proved_link(host), 0xfa, &[0xff]);
    let ring = host.tables[HASH_PLACE..].to_vec();
    for clock in [100, 100, 101, 399] {
        assert_eq!(host.verdict(&keepalive, 0, clock), Verdict::Forward(3));
        assert_eq!(link_expiry(host), clock + 720);
    }
    assert!(host.tables[HASH_PLACE..] == ring);
}

/// A request and its answer every four minutes for a day; then nothing, and the link ends 720 s later.
fn keepalives_keep_a_link_alive(host: &mut Host) {
    let id = proved_link(host);
    let (request, answer) = (type_1(0x0c, 4, id, 0xfa, &[0xff]), type_1(0x0c, 2, id, 0xfa, &[0xfe]));
    let ring = host.tables[HASH_PLACE..].to_vec();
    for clock in (340..=86_500).step_by(240) {
        assert_eq!(host.verdict(&request, 0, clock), Verdict::Forward(3));
        assert_eq!(host.verdict(&answer, 3, clock), Verdict::Forward(0));
        assert_eq!(link_expiry(host), clock + 720);
    }
    assert!(host.tables[HASH_PLACE..] == ring);
    assert_eq!(host.verdict(&request, 0, 86_500 + 719), Verdict::Forward(3));
    assert_eq!(host.verdict(&request, 0, 86_500 + 719 + 720), lost(NoWay::NoLink));
}

/// Every context of data over a link, twice.
fn six_contexts_are_exempt(host: &mut Host) {
    let id = proved_link(host);
    for context in 0..=0xff {
        let packet = type_1(0x0c, 4, id, context, b"a");
        let second = if EXEMPT_CONTEXTS.contains(&context) { Verdict::Forward(3) } else { Verdict::Drop(Reason::Duplicate) };
        assert_eq!(host.verdict(&packet, 0, 101), Verdict::Forward(3), "{context:02x}");
        assert_eq!(host.verdict(&packet, 0, 101), second, "{context:02x}");
    }
    // the request and its proof, then all but six
    assert_eq!(tables::ring_place(&host.tables, HASH_PLACE), 3 + 250);
}

/// A resource's proof is a proof of kind link; a link proof has another context, and isn't exempt.
fn proofs_of_kind_link_are_exempt_too(host: &mut Host) {
    let id = proved_link(host);
    for context in EXEMPT_CONTEXTS {
        for _ in 0..2 {
            assert_eq!(host.verdict(&type_1(0x0f, 2, id, context, &[1; 64]), 3, 101), Verdict::Forward(0), "{context:02x}");
        }
    }
    assert_eq!(host.verdict(&type_1(0x0f, 2, id, 0xff, &[5; 99]), 3, 101), Verdict::Drop(Reason::AlreadyKnown));
    assert_eq!(host.verdict(&type_1(0x0f, 2, id, 0xff, &[5; 99]), 3, 101), Verdict::Drop(Reason::Duplicate));
}

fn other_kinds_are_not_exempt(host: &mut Host) {
    for (header, context) in [0x00, 0x04, 0x08].into_iter().flat_map(|header| EXEMPT_CONTEXTS.map(|context| (header, context))) {
        let packet = type_1(header, 0, [9; 16], context, b"a");
        assert_eq!(host.verdict(&packet, 0, 10), lost(NoWay::NotAsking));
        assert_eq!(host.verdict(&packet, 0, 10), Verdict::Drop(Reason::Duplicate));
    }
    assert_eq!(tables::ring_place(&host.tables, HASH_PLACE), 18);
}

/// As lent tables may have it.
fn a_live_hash_in_the_ring_is_no_matter(host: &mut Host) {
    let id = proved_link(host);
    for (place, context) in EXEMPT_CONTEXTS.into_iter().enumerate() {
        let packet = type_1(0x0c, 4, id, context, b"a");
        let record = HASHES.records.get_mut(&mut host.tables, 500 + place);
        set_key(record, &packet_hash(&packet));
        set_time(record, HASHES.expiry, 400);
        let ring = host.tables[HASH_PLACE..].to_vec();
        assert_eq!(host.verdict(&packet, 0, 399), Verdict::Forward(3), "{context:02x}");
        assert!(host.tables[HASH_PLACE..] == ring);
    }
}

/// Each twice with the same answer, and nothing of it is remembered.
fn the_other_tests_stand(host: &mut Host) {
    let id = proved_link(host);
    let ring = host.tables[HASH_PLACE..].to_vec();
    let type_2 =
        |relay: Address, header: u8| encode(&Parts { header: Header(header), hops: 4, relay, destination: id, context: 0xfa }, &[0xff]);
    for (packet, verdict) in [
        (type_2(NEIGHBOUR, 0x4c), Verdict::Drop(Reason::NotOurs)),
        (type_2(OWN, 0x4c), bad_form(Clause::TypeTwoLink, 0)),
        (type_2(OWN, 0x4f), bad_form(Clause::TypeTwoProof, 0)),
        (type_1(0x0d, 4, id, 0xfa, &[0xff]), bad_form(Clause::AnnounceNotSingle, 0)),
        (type_1(0x0e, 4, id, 0xfa, &[1; 64]), bad_form(Clause::RequestOfKindLink, 0)),
        (type_1(0x0c, 128, id, 0xfa, &[0xff]), Verdict::Drop(Reason::TooManyHops)),
        (type_1(0x0c, 4, [9; 16], 0xfa, &[0xff]), lost(NoWay::NoLink)),
        (type_1(0x0c, 5, id, 0xfa, &[0xff]), Verdict::Drop(Reason::WrongSide)),
    ] {
        for _ in 0..2 {
            assert_eq!(host.verdict(&packet, 0, 101), verdict);
        }
    }
    host.set_port(3, false, 0);
    for _ in 0..2 {
        assert_eq!(host.verdict(&type_1(0x0c, 4, id, 0xfa, &[0xff]), 0, 101), Verdict::Drop(Reason::PortOff));
    }
    assert!(host.tables[HASH_PLACE..] == ring);
    assert_eq!(link_expiry(host), 820);
}
