//! The showing program's line.

use crate::limits::LONGEST;
use crate::packet::{self, Address, DestinationKind, Header, PacketKind};
use crate::rules::Rules;
use std::fmt::Write;

fn hexadecimal(address: &Address) -> String {
    address.iter().fold(String::new(), |mut text, byte| {
        write!(text, "{byte:02x}").expect("a string takes any text");
        text
    })
}

fn destination_word(header: Header) -> &'static str {
    match header.destination_kind() {
        DestinationKind::Single => "single",
        DestinationKind::Group => "group",
        DestinationKind::Plain => "plain",
        DestinationKind::Link => "link",
    }
}

fn packet_word(header: Header) -> &'static str {
    match header.packet_kind() {
        PacketKind::Data => "data",
        PacketKind::Announce => "announce",
        PacketKind::LinkRequest => "linkrequest",
        PacketKind::Proof => "proof",
    }
}

/// The line of a packet, without its line end.
pub fn line<R: Rules>(rules: &R, packet: &[u8]) -> String {
    let parts = match packet::read(rules, packet, LONGEST) {
        Ok(parts) => parts,
        Err(refusal) => return format!("refused {}", refusal.number()),
    };
    let header = parts.header;
    let mut text = format!(
        "{} {} {} {} hops {} to {} context {:02x} payload {}",
        if header.type_2() { "type2" } else { "type1" },
        if header.transport() { "transport" } else { "broadcast" },
        destination_word(header),
        packet_word(header),
        parts.hops,
        hexadecimal(&parts.destination),
        parts.context,
        packet.len() - rules.payload_place(packet),
    );
    if header.type_2() {
        text += " by ";
        text += &hexadecimal(&parts.relay);
    }
    text
}

#[cfg(test)]
mod tests {
    use crate::rules::AsWritten;

    fn line(packet: &[u8]) -> String {
        super::line(&AsWritten, packet)
    }

    /// A packet of this header, hops 0, bytes 11 and, in type 2, 22 for the addresses, this context, and a payload.
    fn packet(header: u8, context: u8, payload: usize) -> Vec<u8> {
        let mut bytes = vec![header, 0];
        if header & 0x40 != 0 {
            bytes.extend([0x22; 16]);
        }
        bytes.extend([0x11; 16]);
        bytes.push(context);
        bytes.extend(vec![0x33; payload]);
        bytes
    }

    #[test]
    fn document_01s_example() {
        assert_eq!(
            line(&packet(0x0c, 0xfa, 0)),
            "type1 broadcast link data hops 0 to 11111111111111111111111111111111 context fa payload 0"
        );
    }

    #[test]
    fn type_2_names_the_relay_last() {
        let mut bytes = packet(0x51, 0, 148);
        bytes[1] = 255;
        assert_eq!(
            line(&bytes),
            "type2 transport single announce hops 255 to 11111111111111111111111111111111 context 00 payload 148 \
             by 22222222222222222222222222222222"
        );
    }

    #[test]
    fn all_words() {
        let kinds = ["single", "group", "plain", "link"];
        let packets = ["data", "announce", "linkrequest", "proof"];
        for header in 0..0x80u8 {
            let text = line(&packet(header, 9, 1));
            let words: Vec<&str> = text.split(' ').collect();
            assert_eq!(words[0], if header & 0x40 != 0 { "type2" } else { "type1" });
            assert_eq!(words[1], if header & 0x10 != 0 { "transport" } else { "broadcast" });
            assert_eq!(words[2], kinds[usize::from(header / 4 % 4)]);
            assert_eq!(words[3], packets[usize::from(header % 4)]);
            assert_eq!(words.len(), if header & 0x40 != 0 { 14 } else { 12 });
        }
    }

    #[test]
    fn refused_packets() {
        assert_eq!(line(&[]), "refused 1");
        assert_eq!(line(&[0; 18]), "refused 1");
        assert_eq!(line(&[0; 501]), "refused 2");
        assert_eq!(line(&[0x80; 19]), "refused 3");
        assert_eq!(line(&[0x40; 34]), "refused 1");
        assert_eq!(line(&[0xc0; 34]), "refused 3");
        assert_eq!(line(&[0x80; 501]), "refused 2");
    }
}
