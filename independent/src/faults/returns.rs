//! Return records, and the ordinary proofs that go back by them: tests 6, 8 and 12.

use super::{faults, Changes, Fault, With};
use crate::rules::*;
use crate::tables::RETURNS;

/// Judges an ordinary proof, and empties its record if it was dropped for this reason.
fn judged_and_emptied(reason: Reason, rules: &With, packet: &Packet, tables: &mut [u8], output: &mut [u8]) -> Result<Answer, Reason> {
    let answer = returns::ordinary_proof(rules, packet, tables, output);
    let place = rules.find(&RETURNS, tables, &packet.parts.destination, packet.clock);
    if let (true, Some(place)) = (answer == Err(reason), place) {
        RETURNS.records.get_mut(tables, place).fill(0);
    }
    answer
}

faults! {
    NoReturnOnLastHop: "data on its last hop makes no return record"
    breaks "Data forwarded so makes a return record" {
        make_return = |rules, packet, path, tables| {
            if path.hops > 0 {
                returns::make_return(rules, packet, path, tables);
            }
        },
    }
    NoReturnToArrival: "data that leaves by its arrival port makes no return record"
    breaks "Data and link requests leave by the path's port, which may be the arrival port" {
        make_return = |rules, packet, path, tables| {
            if path.port != packet.port {
                returns::make_return(rules, packet, path, tables);
            }
        },
    }
    OtherReturnsStay: "other live return records of the key stay"
    breaks "any other live one of the same key is emptied." {
        is_emptied = |_, _, _, _| false,
    }
    ExpiredReturnsEmptied: "expired return records of the key are emptied too"
    breaks "an expired one keeps its bytes." {
        is_emptied = |_, key, _, record| tables::has_key(record, key),
    }
    ReturnHoleRefilled: "a return record fills an emptied place before the ring's"
    breaks "in the next ring place, and any other live one of the same key is emptied." {
        return_place = |_, tables| {
            let hole = RETURNS.records.empty(tables);
            let place = returns::return_place(tables);
            hole.unwrap_or(place)
        },
    }
    ReturnLifetimeOfSource: "a return record lives 480 s, as in source 001"
    breaks "Return record 1,800 s (house number)." {
        return_of = |_, packet, path| Return { expiry: packet.clock + 480, ..returns::return_of(packet, path) },
    }
    ReceiptByAnyPort: "an ordinary proof may come in by any port"
    breaks "An ordinary proof must come in by the record's leaving port" {
        proof_tests = |_, _, _| Ok(()),
    }
    ReceiptNeedsSignature: "the signature word is read for ordinary proofs"
    breaks "The signature word is plain input, read only where a rule below names it." {
        proof_tests = |_, packet, record| {
            returns::proof_tests(packet, record)?;
            Reason::BadSignature.when(!packet.signature)
        },
    }
    ReceiptByLeavingPort: "an ordinary proof leaves by the record's leaving port"
    breaks "it goes out by its arrival port" {
        way_back = |_, record| record.leaving,
    }
    ReceiptKeepsRecord: "an ordinary proof leaves the record"
    breaks "it goes out by its arrival port and the record is emptied." {
        end_return = |_, _| {},
    }
    PortOffReceiptEmpties: "an ordinary proof that test 12 drops empties the record"
    breaks "A dropped one leaves the record." {
        ordinary_proof = |rules, packet, tables, output| judged_and_emptied(Reason::PortOff, rules, packet, tables, output),
    }
    WrongReceiptEmpties: "an ordinary proof from the wrong side empties the record"
    breaks "A dropped one leaves the record." {
        ordinary_proof = |rules, packet, tables, output| judged_and_emptied(Reason::WrongSide, rules, packet, tables, output),
    }
}
