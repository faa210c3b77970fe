//! What leaves.

use super::{faults, Changes, Fault};
use crate::limits::LONGEST;
use crate::rules::*;
use crate::tables::port_on;

faults! {
    SpreadToArrival: "an announce is spread to its arrival port too"
    breaks "to all ports on but the arrival port." {
        spread_ports = |rules, packet, tables| outgoing::port_set(|port| {
            port_on(tables, port) && rules.fits(packet, port, outgoing::spread_length(packet), tables)
        }),
    }
    SpreadToOffPorts: "an announce is spread to ports that are off"
    breaks "to all ports on but the arrival port." {
        spread_ports = |rules, packet, tables| outgoing::port_set(|port| {
            port != packet.port && rules.fits(packet, port, outgoing::spread_length(packet), tables)
        }),
    }
    SpreadLimitLower: "an announce of 500 bytes is kept"
    breaks "If that set is empty or the result exceeds 500, the answer is Kept" {
        spread_ports = |rules, packet, tables| match outgoing::spread_length(packet) {
            LONGEST => 0,
            _ => outgoing::spread_ports(rules, packet, tables),
        },
    }
    SpreadWithoutTransport: "a spread announce's transport bit stays as it was"
    breaks "bits 6 and 4 set" {
        spread_header = |_, header| Header(header.0 & 0x3f | 0x40),
    }
    SpreadClearsFlag: "a spread announce's context flag is cleared"
    breaks "low six otherwise as received" {
        spread_header = |_, header| Header(header.0 & 0x1f | 0x50),
    }
    KeptWritten: "a kept announce that would fit is written to the output"
    breaks "the answer is Kept and the output stays." {
        spread = |rules, packet, tables, output| {
            if outgoing::spread_length(packet) <= LONGEST {
                outgoing::put_spread(rules, packet, tables, output);
            }
            outgoing::spread(rules, packet, tables, output)
        },
    }
    LastHopAtOne: "stored hops 1 are the last hop too"
    breaks "Stored hops 0: as type 1, header modulo 16." {
        is_last_hop = |_, stored| stored <= 1,
    }
    HeaderKeptOnLastHop: "on the last hop only the type bit is cleared, as in source 001"
    breaks "Stored hops 0: as type 1, header modulo 16." {
        last_hop_header = |_, header| Header(header.0 & !0x40),
    }
    HopsKept: "link packets leave with the hops they came with"
    breaks "Link packets and proofs are forwarded with hops + 1 and otherwise unchanged." {
        put_unchanged = |_, packet, output| {
            outgoing::put_unchanged(packet, output);
            output[1] = packet.parts.hops;
        },
    }
    RestZeroed: "the output past the packet is zeroed"
    breaks "Bytes of the output past the packet, and all of it when nothing leaves, stay." {
        judge = |rules, packet, tables, output| {
            let answer = judge::judge(rules, packet, tables, output)?;
            if answer.length > 0 {
                output[answer.length..].fill(0);
            }
            Ok(answer)
        },
    }
}
