//! The desk's relay: a count comes in twice, the ports are renumbered, and another comes in by its new port.
//! `cargo run --example desk`, after `make`.

use haskumye::{packet_hash, write, Address, Mode, Parts, Refusal, Relay, Verdict, LONGEST_PACKET, OUTPUT_SIZE};

const DESK: Address = [0x2a; 16];

/// The packet of a count for the desk.
fn count(text: &str) -> Result<Vec<u8>, Refusal> {
    let mut packet = vec![0; OUTPUT_SIZE];
    let length = write(&Parts { destination: DESK, ..Parts::default() }, text.as_bytes(), &mut packet)?;
    packet.truncate(length);
    Ok(packet)
}

/// Judges a packet, and does what the relay answers.
fn take_in(relay: &mut Relay, packet: &[u8], port: u8, clock: u64) -> Result<(), Refusal> {
    let mut output = [0; OUTPUT_SIZE];
    match relay.packet(packet, port, clock, false, &mut output)? {
        Verdict::Deliver { payload } => {
            println!("port {port}: deliver {:?}", String::from_utf8_lossy(&packet[payload..]));
            println!("  receipt by port {port}, to {:02x?}", &packet_hash(packet)?[..4]);
        }
        Verdict::Forward { port, length } => println!("send {} bytes by port {port}", output[..length].len()),
        Verdict::Spread { ports, length } => ports.into_iter().for_each(|port| println!("send {length} bytes by port {port}")),
        other => println!("port {port}: {other}"),
    }
    Ok(())
}

fn main() -> Result<(), Refusal> {
    let mut relay = Relay::fresh(&[0x0a; 16]);
    relay.add_local(&DESK)?;
    for port in 0..2 {
        relay.set_port(port, true, Mode::Boundary, LONGEST_PACKET)?;
    }
    let first = count("line 7: 42 plants")?;
    take_in(&mut relay, &first, 1, 1_000)?;
    take_in(&mut relay, &first, 1, 1_001)?;

    relay.renumber(&[1, 0, 2, 3, 4, 5, 6, 7, 8, 9, 10, 11, 12, 13, 14, 15])?;
    println!("ports 0 and 1 renumbered");
    take_in(&mut relay, &count("line 8: 17 plants")?, 0, 1_002)?;
    if let Err(refusal) = take_in(&mut relay, &first[..18], 0, 1_003) {
        println!("18 bytes: {refusal}");
    }

    // What is saved, and what goes on after a restart.
    let again = Relay::load(&relay.save())?;
    println!("after a restart the clock goes on from {}; {} packets so far", again.last_clock(), again.tally().total);
    Ok(())
}
