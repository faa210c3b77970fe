//! The calls that need no relay: document 01's edges, what sources 003, 007 and 008 work out, and reading against writing.
//! The worked packets of the sources are compared by `compare packet`.

use crate::host::Host;
use haskumye_independent::core::{PartsBytes, LINE};
use haskumye_independent::packet::{Header, Parts};
use haskumye_independent::random::Random;
use haskumye_independent::vectors::{bytes, KEYS};

crate::on_both_programs!(
    document_01s_edges_of_reading(LongestRefused),
    document_01s_edge_of_emission(EmissionLittleEndian),
    refusals_of_reading_come_in_row_order(AccessCodeBeforeLength),
    source_003s_header_bits(RatchetFromContext),
    source_007s_link_id(LinkIdNotCut),
    source_008s_destination(IdentityBeforeName),
    writing_refuses_in_row_order(WritingLengthBeforeRoom),
    reading_and_writing_undo_each_other(RelayAfterDestination),
    short_bytes_have_an_empty_payload(PayloadFrom34),
);

fn of_header(header: u8, length: usize) -> Vec<u8> {
    let mut packet = vec![0; length];
    packet[0] = header;
    packet
}

/// The refusal of a packet, 0 for none.
fn refusal(host: &Host, packet: &[u8]) -> u8 {
    host.program.read(packet, 500, &mut [0; 35])
}

fn document_01s_edges_of_reading(host: &mut Host) {
    let edges = [(0x00, 18, 1), (0x00, 19, 0), (0x40, 34, 1), (0x40, 35, 0), (0x00, 500, 0), (0x00, 501, 2), (0x80, 19, 3)];
    for (header, length, expected) in edges {
        assert_eq!(refusal(host, &of_header(header, length)), expected, "{length} bytes of header {header:02x}");
    }
}

fn document_01s_edge_of_emission(host: &mut Host) {
    assert_eq!(host.program.emission(&[0, 0, 0, 0, 0, 0x00, 0x65, 0x53, 0xf1, 0x00]), 1_700_000_000);
}

fn refusals_of_reading_come_in_row_order(host: &mut Host) {
    assert_eq!(refusal(host, &[]), 1);
    assert_eq!(refusal(host, &of_header(0x80, 18)), 1);
    assert_eq!(refusal(host, &of_header(0x80, 501)), 2);
    assert_eq!(refusal(host, &of_header(0xc0, 34)), 3);
}

/// Bits 7 to 0: by what is refused, by the words of the line, and by the least announce.
fn source_003s_header_bits(host: &mut Host) {
    let kinds = ["single", "group", "plain", "link"];
    let packets = ["data", "announce", "linkrequest", "proof"];
    for header in 0..=255u8 {
        let packet = of_header(header, 35);
        assert_eq!(refusal(host, &packet), if header >= 128 { 3 } else { 0 });
        let parts = Parts { header: Header(header), ..Parts::default() };
        assert_eq!(host.program.least_announce(&parts), if header / 32 % 2 == 1 { 180 } else { 148 });
        let mut text = [0; LINE];
        let length = host.program.line(&packet, &mut text);
        let line = String::from_utf8_lossy(&text[..length]);
        let words: Vec<&str> = line.split_whitespace().collect();
        if header < 128 {
            assert_eq!(words[0], if header / 64 % 2 == 1 { "type2" } else { "type1" });
            assert_eq!(words[1], if header / 16 % 2 == 1 { "transport" } else { "broadcast" });
            assert_eq!(words[2..4], [kinds[usize::from(header / 4 % 4)], packets[usize::from(header % 4)]]);
        }
    }
}

/// 007's request, with keys of 11 and 22: header and hops change neither hash nor id, signalling bytes change the hash alone.
fn source_007s_link_id(host: &mut Host) {
    let request = [bytes("0200a1b2c3d4e5f6789012345678abcdef0100"), KEYS.concat()].concat();
    let signalled = [&request[..], &[0x01, 0xf4, 0x00]].concat();
    let carried = [&[0x72, 9][..], &[5; 16], &signalled[2..]].concat();
    for (packet, hash) in [(request, "d4be7352"), (signalled, "5d9dd598"), (carried, "5d9dd598")] {
        let (mut id, mut packet_hash) = ([0; 16], [0; 32]);
        assert_eq!((host.program.link_id(&packet, &mut id), host.program.packet_hash(&packet, &mut packet_hash)), (0, 0));
        assert_eq!(id.to_vec(), bytes("d4be73522e285b02a9ff53ca1e501321"));
        assert_eq!(packet_hash[..4], bytes(hash)[..]);
    }
}

fn source_008s_destination(host: &mut Host) {
    let payload = [KEYS.concat(), bytes("45a1ec235fd38ec48f01")].concat();
    let mut destination = [0; 16];
    host.program.announced_destination(&payload, &mut destination);
    assert_eq!(destination.to_vec(), bytes("a6710fdcdbe41cc01f9234a318c7ea89"));
}

fn writing_refuses_in_row_order(host: &mut Host) {
    let parts = Parts { header: Header(0x80), ..Parts::default() };
    let mut output = vec![9; 500];
    assert_eq!(host.program.write(&parts, &[0; 482], &mut output[..499]), 6);
    assert_eq!(host.program.write(&parts, &[0; 482], &mut output), 2);
    assert_eq!(host.program.write(&parts, &[0; 481], &mut output), 3);
    assert_eq!(output, [9; 500]);
}

/// The parts that cross as these bytes.
fn parts_of(bytes: &PartsBytes) -> Parts {
    let address = |at: usize| std::array::from_fn(|i| bytes[at + i]);
    Parts { header: Header(bytes[0]), hops: bytes[1], relay: address(2), destination: address(18), context: bytes[34] }
}

/// What is read and then written is the packet; what is written and then read are the parts, but for type 1's relay address.
fn reading_and_writing_undo_each_other(host: &mut Host) {
    let mut random = Random::new(3);
    for length in 0..=501 {
        for _ in 0..20 {
            let (packet, mut read) = (random.bytes(length), [0; 35]);
            if host.program.read(&packet, 500, &mut read) > 0 {
                continue;
            }
            let parts = parts_of(&read);
            let payload = &packet[host.program.payload_start(&packet)..];
            let mut output = vec![0xa5; 520];
            assert_eq!(host.program.write(&parts, payload, &mut output), (length as u64) << 16);
            assert_eq!(output[..length], packet[..]);
            assert!(output[length..].iter().all(|byte| *byte == 0xa5));
            let other = Parts { relay: random.array(), ..parts };
            assert_eq!(host.program.write(&other, payload, &mut output), (length as u64) << 16);
            assert_eq!(host.program.read(&output[..length], 500, &mut read), 0);
            let relay = if other.header.type_2() { other.relay } else { [0; 16] };
            assert_eq!(parts_of(&read), Parts { relay, ..other });
        }
    }
}

fn short_bytes_have_an_empty_payload(host: &mut Host) {
    for (header, length, start) in [(0x40, 20, 20), (0x40, 36, 35), (0x00, 18, 18), (0x00, 20, 19)] {
        assert_eq!(host.program.payload_start(&of_header(header, length)), start);
    }
    assert_eq!(host.program.payload_start(&[]), 0);
}
