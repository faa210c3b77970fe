//! Packets and hashing through the library, sizes, and buffers of no length.

use haskumye::*;

#[test]
fn sizes_are_the_librarys() {
    assert_eq!(unsafe { raw::haskumye_table_size() }, TABLE_SIZE);
    assert_eq!(unsafe { raw::haskumye_version() }, raw::VERSION);
    assert_eq!(std::mem::size_of::<Parts>(), 35);
    assert_eq!(std::mem::size_of::<Tally>(), 24);
}

#[test]
fn parts_come_back() {
    let parts = Parts { header: 0x52, hops: 3, relay: [1; 16], destination: [2; 16], context: 4 };
    let mut output = [0xee; OUTPUT_SIZE];
    let length = write(&parts, b"payload", &mut output).unwrap();
    assert_eq!(length, 42);
    for size in length..=LONGEST_PACKET {
        assert_eq!(read(&output[..length], size), Ok(parts));
    }
    assert_eq!(read(&output[..length], length - 1), Err(Refusal::TooLong));
    assert_eq!(payload(&output[..length]), b"payload");
    assert!(output[length..].iter().all(|byte| *byte == 0xee));
}

#[test]
fn hashes_are_those_of_document_01() {
    let request = [&[0x52, 9][..], &[1; 16], &[2; 16], &[0], &[3; 67]].concat();
    let hashed = [&[0x02][..], &[2; 16], &[0], &[3; 67]].concat();
    assert_eq!(packet_hash(&request), sha256(&hashed));
    assert_eq!(link_id(&request).unwrap(), sha256(&hashed[..82]).unwrap()[..16]);
}

#[test]
fn announce_fields_are_read() {
    assert_eq!((least_announce(0x01), least_announce(0x21)), (148, 180));
    assert_eq!(emission(&[9, 9, 9, 9, 9, 0x00, 0x65, 0x53, 0xf1, 0x00]), 1_700_000_000);
    let payload = [0x5a; 148];
    let identity = sha256(&payload[..64]).unwrap();
    let named = sha256(&[&payload[64..74], &identity[..16]].concat()).unwrap();
    assert_eq!(announced_destination(&payload), named[..16]);
}

#[test]
fn a_packet_prints_as_its_line() {
    let packet = [&[0x0c, 0x00][..], &[0x11; 16], &[0xfa]].concat();
    assert_eq!(line(&packet), "type1 broadcast link data hops 0 to 11111111111111111111111111111111 context fa payload 0");
    assert_eq!(line(&packet[..18]), "refused 1");
}

#[test]
fn no_bytes_are_no_trouble() {
    assert_eq!(read(&[], LONGEST_PACKET), Err(Refusal::TooShort));
    assert_eq!([SHORTEST_PACKET - 1, LONGEST_PACKET + 1].map(|size| read(&[], size)), [Err(Refusal::Setting); 2]);
    assert_eq!(packet_hash(&[]), Err(Refusal::TooShort));
    assert_eq!(link_id(&[]), Err(Refusal::TooShort));
    assert_eq!(payload(&[]), b"");
    assert_eq!(line(&[]), "refused 1");
    assert_eq!(sha256(&[]).unwrap()[..4], [0xe3, 0xb0, 0xc4, 0x42]);
    assert_eq!(write(&Parts::default(), &[], &mut []), Err(Refusal::Output));
    assert_eq!(Relay::from_tables(&[], Tally::default()), Err(Refusal::Tables));
    assert_eq!(Relay::fresh(&[0; 16]).packet(&[], 0, 0, false, &mut []), Err(Refusal::Output));
    announced_destination(&[]);
}

#[test]
fn long_messages_are_refused() {
    assert_eq!(sha256(&vec![0; LONGEST_MESSAGE + 1]), Err(Refusal::TooLong));
    assert!(sha256(&vec![0; LONGEST_MESSAGE]).is_ok());
}
