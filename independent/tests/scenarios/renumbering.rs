//! Renumbering.

use crate::host::Host;
use haskumye_independent::engine::Outcome;
use haskumye_independent::tables::{link, path, returned, Section, LINKS, PATHS, PORTS, RETURNS};

crate::on_both_programs!(renumbering(RenumberingBackwards), a_map_that_is_not_one_to_one(MapImagesUnbounded),);

/// Expired records among empty ones, and the ports of the host.
fn renumbering(host: &mut Host) {
    let at = |section: &Section| section.range(2).start;
    let (path, link, record) = (at(&PATHS.records), at(&LINKS.records), at(&RETURNS.records));
    let mut write = |writes: &[(usize, &[u8])]| {
        for (at, bytes) in writes {
            host.tables[*at..*at + bytes.len()].copy_from_slice(bytes);
        }
        host.tables.clone()
    };
    let before = write(&[
        (path, &[1]),
        (path + path::PORT, &[15]),
        (path + path::BLOB_COUNT, &[1]),
        (link, &[1]),
        (link + link::ASKING, &[1, 2]),
        (record, &[1]),
        (record + returned::ARRIVAL, &[13, 12]),
    ]);
    let expected = write(&[
        (PORTS.start, &[0, 0, 1, 0xf4].repeat(16)),
        (PORTS.range(3).start, &[1, 0, 1, 0xf4, 1, 2, 1, 0xf4, 1, 1, 1, 0xf4, 1, 0, 1, 0xf4]),
        (path + path::PORT, &[2]),
        (link + link::ASKING, &[4, 5]),
        (record + returned::ARRIVAL, &[0, 15]),
    ]);
    host.tables = before;
    assert_eq!(host.renumber(&std::array::from_fn(|port| (port as u8 + 3) % 16)), Outcome::Done);
    assert!(host.tables == expected);
}

fn a_map_that_is_not_one_to_one(host: &mut Host) {
    let before = host.tables.clone();
    let identity: [u8; 16] = std::array::from_fn(|port| port as u8);
    for image in [6, 16, 255] {
        let mut map = identity;
        map[5] = image;
        assert_eq!(host.renumber(&map), Outcome::Refused(8));
    }
    assert!(host.tables == before);
    assert_eq!(host.renumber(&identity), Outcome::Done);
    assert!(host.tables == before);
}
