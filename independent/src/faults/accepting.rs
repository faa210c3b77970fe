//! Which packet calls are accepted, and what every accepted packet changes.

use super::{faults, Changes, Fault};
use crate::limits::{CLOCK_LIMIT, LONGEST, PORT_COUNT};
use crate::rules::*;
use crate::tables::set_last_clock;

faults! {
    PortBeforeOutput: "refusal 4 is tested before refusal 6"
    breaks "Tests run in this row order" {
        arrival_refusal = |rules, tables, room, arrival| {
            Refusal::ArrivalPort.when(rules.port_refused(arrival.port, tables))?;
            accept::arrival_refusal(rules, tables, room, arrival)
        },
    }
    OutputLimitRefused: "an output buffer of 500 bytes is too small"
    breaks "output buffer under 500 bytes" {
        output_too_small = |_, room| room <= LONGEST,
    }
    OffPortAccepts: "a port that is off still takes packets in"
    breaks "arrival port over 15, or off" {
        port_refused = |_, port, _| port >= PORT_COUNT as u64,
    }
    EqualClockRefused: "a clock equal to the last one goes back"
    breaks "clock 2^40 or more, or below the last accepted clock" {
        clock_refused = |_, clock, last| accept::clock_refused(clock, last + 1),
    }
    ClockLimitAllowed: "a clock of 2^40 is allowed"
    breaks "clock 2^40 or more, or below the last accepted clock" {
        clock_refused = |_, clock, last| clock > CLOCK_LIMIT || clock < last,
    }
    DropKeepsClock: "a dropped packet doesn't set the last clock"
    breaks "every accepted packet, dropped or not, counts and sets the last clock." {
        settle = |rules, verdict, clock, tables, tally| match verdict {
            Verdict::Drop(_) => rules.count(tally, verdict),
            _ => accept::settle(rules, verdict, clock, tables, tally),
        },
    }
    DropUncounted: "drops 1 and 2 don't count"
    breaks "every accepted packet, dropped or not, counts and sets the last clock." {
        settle = |rules, verdict, clock, tables, tally| match verdict {
            Verdict::Drop(Reason::NotOurs | Reason::Duplicate) => set_last_clock(tables, clock),
            _ => accept::settle(rules, verdict, clock, tables, tally),
        },
    }
    RefusalCounts: "a refused packet counts in the total"
    breaks "refusals don't count." {
        packet_call = |rules, sha, tables, tally, output, arrival| {
            let answer = accept::packet_call(rules, sha, tables, tally, output, arrival);
            tally[0] = tally[0].wrapping_add(u32::from(answer.is_err()));
            answer
        },
    }
    TallyStops: "a counter stops at 2^32 - 1"
    breaks "each the number of such packet calls since fresh, modulo 2^32" {
        count = |_, tally, verdict| {
            for place in [0, 1 + verdict.index()] {
                tally[place] = tally[place].saturating_add(1);
            }
        },
    }
}
