//! More of group T, the subfields of 59, and group U, the traffic rule.

use super::elements::TRAFFIC;
use super::*;

const IDS: [u8; 14] = [
    0x82, 0x83, 0x84, 0x85, 0x88, 0x89, 0x90, 0x91, 0xa0, 0xa1, 0xb0, 0xb1, 0xbe, 0xbf,
];

/// A subfield with its octets.
fn subfield(id: u8) -> Vec<u8> {
    match id {
        0xbe => vec![id],
        0xbf => vec![id, 0x00],
        _ => vec![id, 0x01, 0x00, 0x00],
    }
}

fn subfields(ids: &[u8]) -> Vec<u8> {
    ids.iter().flat_map(|&id| subfield(id)).collect()
}

pub fn add(table: &mut Table) {
    add_single(table);
    add_unknown(table);
    add_shape(table);
    add_rule(table);
}

fn add_single(table: &mut Table) {
    for id in IDS {
        TRAFFIC.contents(table, &format!("{id:02X} alone"), &subfield(id));
    }
    for id in IDS {
        let purpose = format!("{id:02X} twice");
        TRAFFIC.contents(table, &purpose, &subfields(&[id, id]));
    }
    for id in IDS {
        let whole = subfield(id);
        if whole.len() > 1 {
            let purpose = format!("{id:02X} cut by one");
            TRAFFIC.contents(table, &purpose, &whole[..whole.len() - 1]);
        }
    }
    TRAFFIC.contents(table, "84, then 85 cut to 1", &[0x84, 0, 1, 0, 0x85]);
    TRAFFIC.contents(table, "84, then 85 cut to 2", &[0x84, 0, 1, 0, 0x85, 0]);
}

fn add_rule(table: &mut Table) {
    let with = |table: &mut Table, purpose: &str, ids: &[u8]| {
        let octets = message(1, SETUP, &[&element(0x59, &subfields(ids))]);
        table.add('U', &format!("59 {purpose}"), octets);
    };
    with(table, "84 missing, others there", &[0x82, 0x83, 0x85]);
    with(table, "85 missing, others there", &[0x82, 0x83, 0x84]);
    with(table, "84 missing, BE there", &[0x85, 0xbe]);
    with(table, "85 missing, BE there", &[0x84, 0xbe]);
    with(table, "84 85 BF, no BE", &[0x84, 0x85, 0xbf]);
    with(table, "84 85 BE BF", &[0x84, 0x85, 0xbe, 0xbf]);
    with(table, "falling order", &[0xbf, 0xbe, 0x85, 0x84]);
    with(table, "all but BE", &[&IDS[..12], &[0xbf]].concat());
    with(table, "all", &IDS);
    let third = IDS.iter().filter(|id| !matches!(id, 0x84 | 0x85));
    for &id in third.clone() {
        let purpose = format!("84 85 and {id:02X}");
        with(table, &purpose, &[0x84, 0x85, id]);
    }
    for &id in IDS.iter().filter(|&&id| id != 0xbe) {
        with(table, &format!("BE and {id:02X} alone"), &[0xbe, id]);
    }
    for &id in third.filter(|&&id| id != 0xbe) {
        let purpose = format!("84 85 {id:02X} and BE");
        with(table, &purpose, &[0x84, 0x85, id, 0xbe]);
    }
}

fn add_unknown(table: &mut Table) {
    for id in [0x00, 0x81, 0x86, 0x92, 0xa2, 0xbd, 0xc0, 0xff] {
        let purpose = format!("unknown subfield {id:02X} behind 84 85");
        let contents = [subfields(&[0x84, 0x85]), vec![id, 0, 1, 0]].concat();
        TRAFFIC.contents(table, &purpose, &contents);
    }
    let contents = [vec![0x80, 0, 1, 0], subfields(&[0x84, 0x85])].concat();
    TRAFFIC.contents(table, "unknown subfield 80 in front", &contents);
    TRAFFIC.contents(table, "unknown subfield alone, one octet", &[0x01]);
}

fn add_shape(table: &mut Table) {
    let look = [0x84, 0x85, 0xbe, 0x84, 0x85, 0x84, 0x85, 0x59];
    TRAFFIC.contents(table, "octets that look like subfields", &look);
    let late = [subfields(&[0x84, 0x85, 0xbe]), vec![0x84]].concat();
    TRAFFIC.contents(table, "84 again, cut", &late);
    let apart = subfields(&[0x84, 0x85, 0x84]);
    TRAFFIC.contents(table, "84 twice, 85 between", &apart);
    let filled = [0x84, 0xff, 0xff, 0xff, 0x85, 0, 0, 0, 0xbf, 0xff];
    TRAFFIC.contents(table, "rates all ones and 0, BF FF", &filled);
    let empty = element(0x59, &[]);
    let good = element(0x59, TRAFFIC.good);
    TRAFFIC.add(table, "empty, then readable", &[&empty, &good]);
    let parts = raw(0x59, 0xe0, 0, &[]);
    TRAFFIC.add(table, "empty, octet 2 E0", &[&parts]);
}
