//! Starts that are accepted.

use super::{Rows, Seen};
use crate::controller::{Pool, SLOTS};
use crate::exchange::Event;
use crate::rows::Row;

pub fn list(rows: &mut Rows) {
    for ranges in 1..=4 {
        rows.add(
            format!("ST-ranges-{ranges}"),
            format!("start with {ranges} ranges"),
        );
    }
    rows.add("ST-pairs-0", "start with 0 pairs");
    rows.add("ST-pairs-8", "start with 8 pairs");
    rows.add("ST-none", "none permitted is a legal start");
    rows.add("ST-few", "fewer permitted pairs than slots");
    rows.add("ST-touching", "ranges that touch");
    rows.add("ST-outside", "a permanent pair outside all ranges");
    rows.add("ST-vpci-255", "VPCI 255");
    rows.add("ST-vci-32", "VCI 32");
    rows.add("ST-vci-65535", "VCI 65535");
}

pub fn hit(rows: &mut Rows, seen: &Seen<'_>) {
    if !matches!(seen.event, Event::Start { .. }) || seen.row() != Row::StartAccepted {
        return;
    }
    let Some(Pool { ranges, permanent }) = seen.after.map(|table| &table.pool) else {
        return;
    };
    let permitted = seen
        .after
        .map_or(0, |table| table.pool.permitted().take(SLOTS).count());
    let touching = ranges
        .windows(2)
        .any(|two| two[0].vpci == two[1].vpci && two[0].last + 1 == two[1].first);
    let outside = permanent
        .iter()
        .any(|&pair| !ranges.iter().any(|range| range.has(pair)));
    rows.hit(&format!("ST-ranges-{}", ranges.len()));
    rows.hit_if(permanent.is_empty(), "ST-pairs-0");
    rows.hit_if(permanent.len() == 8, "ST-pairs-8");
    rows.hit_if(permitted == 0, "ST-none");
    rows.hit_if((1..SLOTS).contains(&permitted), "ST-few");
    rows.hit_if(touching, "ST-touching");
    rows.hit_if(outside, "ST-outside");
    rows.hit_if(ranges.iter().any(|range| range.vpci == 255), "ST-vpci-255");
    rows.hit_if(ranges.iter().any(|range| range.first == 32), "ST-vci-32");
    rows.hit_if(
        ranges.iter().any(|range| range.last == 65_535),
        "ST-vci-65535",
    );
}
