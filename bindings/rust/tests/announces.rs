//! Announces of the box's own addresses: bytes to sign, packets, and each refusal, in its order.

use haskumye::*;

const SIGNATURE: [u8; 64] = [0x0e; 64];
const PARTS: Announce =
    Announce { keys: &[0x0a; 64], name_hash: &[0x0b; 10], random: &[0x0c; 5], clock: 0x102030405, ratchet: &[], app_data: b"desk" };
const RATCHET: [u8; 32] = [0x0d; 32];

fn signed(announce: &Announce) -> Result<Vec<u8>, Refusal> {
    let mut room = [0xee; OUTPUT_SIZE];
    let length = announce.signing_bytes(&mut room)?;
    assert!(room[length..].iter().all(|byte| *byte == 0xee));
    Ok(room[..length].into())
}

fn built(announce: &Announce) -> Result<Vec<u8>, Refusal> {
    let mut room = [0xee; OUTPUT_SIZE];
    let length = announce.build(&SIGNATURE, &mut room)?;
    assert!(room[length..].iter().all(|byte| *byte == 0xee));
    Ok(room[..length].into())
}

/// Both calls are refused so.
fn refused(announce: Announce, refusal: Refusal) {
    assert_eq!((signed(&announce), built(&announce)), (Err(refusal), Err(refusal)));
}

#[test]
fn parts_stand_where_they_should() {
    for (ratchet, header) in [(&[][..], 0x01), (&RATCHET[..], 0x21)] {
        let announce = Announce { ratchet, ..PARTS };
        let front = [PARTS.keys, PARTS.name_hash, PARTS.random, &[1, 2, 3, 4, 5], ratchet].concat();
        let destination = announced_destination(&front);
        assert_eq!(signed(&announce).unwrap(), [&destination[..], &front, b"desk"].concat());
        let packet = built(&announce).unwrap();
        assert_eq!(read(&packet, LONGEST_PACKET), Ok(Parts { header, destination, ..Parts::default() }));
        assert_eq!(payload(&packet), [&front[..], &SIGNATURE, b"desk"].concat());
    }
}

#[test]
fn another_relay_spreads_it() {
    let mut relay = Relay::fresh(&[9; 16]);
    for port in 0..2 {
        relay.set_port(port, true, Mode::Boundary, LONGEST_PACKET).unwrap();
    }
    let (packet, mut output) = (built(&PARTS).unwrap(), [0; OUTPUT_SIZE]);
    let wrong = built(&Announce { random: &[7; 5], ..PARTS }).unwrap();
    assert_eq!(relay.packet(&wrong, 1, 10, false, &mut output), Ok(Verdict::Drop(Reason::NotSigned)));
    assert!(matches!(relay.packet(&packet, 1, 10, true, &mut output), Ok(Verdict::Spread { .. })));
}

#[test]
fn parts_of_wrong_length_are_refused() {
    for other in [0, 1, 9, 11, 63, 65, 600] {
        let bytes = vec![0; other];
        refused(Announce { keys: &bytes, ..PARTS }, Refusal::AnnouncePart);
        refused(Announce { name_hash: &bytes, ..PARTS }, Refusal::AnnouncePart);
        refused(Announce { random: &bytes, ..PARTS }, Refusal::AnnouncePart);
        if other > 0 {
            refused(Announce { ratchet: &bytes, ..PARTS }, Refusal::AnnouncePart);
        }
        assert_eq!(PARTS.build(&bytes, &mut [0; OUTPUT_SIZE]), Err(Refusal::AnnouncePart));
    }
}

#[test]
fn refusals_come_in_their_order() {
    let long = [0; 334];
    refused(Announce { keys: &[], clock: CLOCK_LIMIT, app_data: &long, ..PARTS }, Refusal::AnnouncePart);
    refused(Announce { clock: CLOCK_LIMIT, app_data: &long, ..PARTS }, Refusal::Clock);
    refused(Announce { app_data: &long, ..PARTS }, Refusal::AnnounceTooLong);
    refused(Announce { ratchet: &RATCHET, app_data: &long[..302], ..PARTS }, Refusal::AnnounceTooLong);
    assert_eq!(built(&Announce { app_data: &long[..333], ..PARTS }).unwrap().len(), LONGEST_PACKET);
    assert_eq!(built(&Announce { ratchet: &RATCHET, app_data: &long[..301], ..PARTS }).unwrap().len(), LONGEST_PACKET);
    assert!(built(&Announce { clock: CLOCK_LIMIT - 1, ..PARTS }).is_ok());
    let mut room = [0xee; OUTPUT_SIZE - 1];
    assert_eq!(PARTS.signing_bytes(&mut room), Err(Refusal::Output));
    assert_eq!(PARTS.build(&SIGNATURE, &mut room), Err(Refusal::Output));
    assert_eq!(Announce { app_data: &long, ..PARTS }.build(&SIGNATURE, &mut room), Err(Refusal::AnnounceTooLong));
    assert_eq!(room, [0xee; OUTPUT_SIZE - 1]);
}
