//! Saved forms written by hand, and why others are refused.

use harness::compose::field;
use harness::controller::{Call, Clearing, Named, Reference, State, Table, UnderWay};
use harness::decode::Pair;
use harness::line::octets;
use harness::rows::Row;

/// Octets in hex with blanks.
fn form(hex: &str) -> Vec<u8> {
    let joined: String = hex.split_whitespace().collect();
    octets(joined.as_bytes()).expect("hex")
}

/// Fields 06 and 07 where no pair is out of service and no RESTART under way.
const NONE: &str = "06 0001 00 07 0000";

/// A form with one range, VPCI 0 and VCI 32 to 33, no permanent pair, the
/// reading 1000, no pair in doubt and none out of service, with these calls.
fn with(calls: &[&str]) -> Vec<u8> {
    let lists = "01 0006 0000 0020 0021 02 0000";
    let mut octets = form(&format!("{lists} 03 0008 00000000000003E8 05 0000 {NONE}"));
    for call in calls {
        octets.extend(field(4, &form(call)));
    }
    octets
}

#[test]
fn a_form_by_hand() {
    let octets = form(
        "01 000C 0000 0020 0021 0007 0028 002A 02 0004 0000 0021 03 0008 00000000000003E8 \
         05 0004 0007 0029 06 0005 00 0007 002A 07 000D 02 000000000001D8A8 0007 0029 \
         04 0009 00 000001 0000 0020 0A 04 0013 1F 800021 0007 0028 0C 0000000000007918 02 66",
    );
    let table = Table::reload(&octets).expect("a saved form");
    assert_eq!(table.form(), octets);
    assert_eq!((table.reading, table.live().count()), (1_000, 2));
    assert!(table.pool.ranges[1].has(Pair { vpci: 7, vci: 40 }));
    assert_eq!(table.pool.permanent, [Pair { vpci: 0, vci: 33 }]);
    assert!(table.doubts.iter().eq([&Pair { vpci: 7, vci: 41 }]));
    assert!(!table.marks.all);
    assert!(table.marks.single.iter().eq([&Pair { vpci: 7, vci: 42 }]));
    let under_way = UnderWay {
        named: Named::One(Pair { vpci: 7, vci: 41 }),
        second: true,
        deadline: 121_000,
    };
    assert_eq!(table.under_way, Some(under_way));
    let clearing = Clearing {
        deadline: 31_000,
        second: true,
        cause: 102,
        diagnostic: b"310",
    };
    let call = Call {
        reference: Reference {
            flag: true,
            value: 33,
        },
        pair: Pair { vpci: 7, vci: 40 },
        state: State::N12(clearing),
    };
    assert_eq!(table.calls[31], Some(call));
    assert_eq!(table.calls[0].map(|call| call.state), Some(State::N10));
}

#[test]
fn rooms() {
    let table = Table::start(&[0, 32, 33], &[]).expect("a start");
    let form = table.form();
    assert_eq!(form.len(), 33);
    assert_eq!(table.save(33).reply, form);
    assert_eq!(table.save(32).row, Row::SaveRoom);
    assert_eq!(table.save(32).reply, []);
}

/// Forms with one call are refused.
fn refused(row: Row, calls: &[&str]) {
    for call in calls {
        assert_eq!(Table::reload(&with(&[call])), Err(row), "{call}");
    }
}

#[test]
fn lengths_and_places() {
    let short = "00 000001 0000 0020";
    let long = ["00 000001 0000 0020 03 00", "00 800001 0000 0020 0A 00"];
    let bare = ["00 800001 0000 0020 06", "00 800001 0000 0020 0C 01"];
    refused(Row::ReloadLength, &[short]);
    refused(Row::ReloadLength, &long);
    refused(Row::ReloadLength, &bare);
    refused(Row::ReloadSlot, &["20 000001 0000 0020 03"]);
    let zeros = ["00 000000 0000 0020 03", "00 800000 0000 0020 0A"];
    refused(Row::ReloadReferenceZero, &zeros);
    refused(Row::ReloadPair, &["00 000001 0000 0022 03"]);
}

#[test]
fn states_and_timers() {
    let user6 = "00 000001 0000 0020 06 0000000000000000";
    let user9 = "00 000001 0000 0020 09 0000000000000000";
    refused(Row::ReloadState, &["00 000001 0000 0020 04"]);
    refused(Row::ReloadSide, &["00 800001 0000 0020 03", user6, user9]);
    let far6 = "00 800001 0000 0020 06 0000000000001389";
    let far9 = "00 800001 0000 0020 09 0000000000002AF9";
    let far12 = "00 000001 0000 0020 0C 0000000000007919 01 10";
    refused(Row::ReloadDeadline, &[far6, far9, far12]);
    let none = "00 000001 0000 0020 0C 0000000000007918 00 10";
    let third = "00 000001 0000 0020 0C 0000000000007918 03 10";
    refused(Row::ReloadTimer, &[none, third]);
    let unlisted = "00 000001 0000 0020 0C 0000000000007918 01 02";
    let user102 = "00 000001 0000 0020 0C 0000000000007918 01 66";
    refused(Row::ReloadCause, &[unlisted, user102]);
}

/// Calls that are refused behind another, and why.
#[test]
fn second_calls() {
    let right = "00 000001 0000 0020 03";
    for (second, row) in [
        ("00 000002 0000 0021 03", Row::ReloadRepeated),
        ("01 000001 0000 0021 0A", Row::ReloadReferenceTwice),
        ("01 800001 0000 0020 0A", Row::ReloadPairTwice),
    ] {
        let refused = Table::reload(&with(&[right, second]));
        assert_eq!(refused, Err(row), "{second}");
    }
    let turned = with(&["01 000002 0000 0021 03", right]);
    assert_eq!(Table::reload(&turned), Err(Row::ReloadMisplaced));
}

/// Fields that are refused, and why.
#[test]
fn fields() {
    let (ranges, pairs) = ("01 0006 0000 0020 0021", "02 0000");
    let (reading, doubts) = ("03 0008 0000000000000000", "05 0000");
    let (marks, restart) = ("06 0001 00", "07 0000");
    let whole = [ranges, pairs, reading, doubts, marks, restart];
    let refused = |parts: &[&str], row| {
        assert_eq!(Table::reload(&form(&parts.concat())), Err(row), "{parts:?}");
    };
    assert!(Table::reload(&form(&whole.concat())).is_ok());
    for (place, row) in [
        (0, Row::ReloadMissing),
        (1, Row::ReloadMissing),
        (2, Row::ReloadMissing),
        (3, Row::ReloadDoubtsMissing),
        (4, Row::ReloadMarksMissing),
        (5, Row::ReloadRestartMissing),
    ] {
        refused(&[&whole[..place], &whole[place + 1..]].concat(), row);
        refused(&[&whole[..], &[whole[place]]].concat(), Row::ReloadRepeated);
    }
    for place in 0..5 {
        let mut turned = whole;
        turned.swap(place, place + 1);
        refused(&turned, Row::ReloadMisplaced);
    }
    refused(&[], Row::ReloadMissing);
    refused(&[&whole[..], &["08 0000"]].concat(), Row::ReloadTag);
    refused(&[&whole[..], &["04 00"]].concat(), Row::ReloadCut);
    for (place, other, row) in [
        (0, "01 0000", Row::StartNoRange),
        (0, "01 0002 0000", Row::StartRangeLength),
        (1, "02 0001 00", Row::ReloadLength),
        (1, "02 0002 0000", Row::StartPairLength),
        (1, "02 0004 0000 001F", Row::StartPairVci),
        (2, "03 0001 00", Row::ReloadLength),
        (2, "03 0008 000003A352944001", Row::ReloadReading),
        (4, "06 0000", Row::ReloadMarksLength),
        (5, "07 0001 01", Row::ReloadRestartLength),
        (5, "07 0009 01", Row::ReloadCut),
    ] {
        let mut parts = whole;
        parts[place] = other;
        refused(&parts, row);
    }
    let mut most = whole;
    most[2] = "03 0008 000003A352944000";
    assert!(Table::reload(&form(&most.concat())).is_ok());
}

/// Pairs in doubt that are refused, and why.
#[test]
fn doubts() {
    let call = field(4, &form("00 000001 0000 0020 03"));
    let reload = |pairs: &[u8]| {
        let lists = "01 000C 0000 0020 0090 0002 0020 0021 02 0008 0000 0022 0001 0020";
        let front = form(&format!("{lists} 03 0008 0000000000000000"));
        Table::reload(&[&front, &field(5, pairs), &form(NONE), &call[..]].concat())
    };
    for (pairs, row) in [
        ("0000 00", Row::ReloadDoubtsLength),
        ("0000 0021 0000", Row::ReloadDoubtsLength),
        ("0000 0091", Row::ReloadDoubtsRange),
        ("0003 0020", Row::ReloadDoubtsRange),
        ("0001 0020", Row::ReloadDoubtsRange),
        ("0000 0022", Row::ReloadDoubtsPermanent),
        ("0000 0021 0000 0021", Row::ReloadDoubtsTwice),
        ("0002 0020 0000 0021", Row::ReloadDoubtsOrder),
        ("0000 0024 0000 0023", Row::ReloadDoubtsOrder),
        ("0000 0020", Row::ReloadDoubtsHeld),
    ] {
        assert_eq!(reload(&form(pairs)), Err(row), "{pairs}");
    }
    let many = |last: u16| -> Vec<u8> {
        let pairs = (0x30..=last).flat_map(|vci| [[0, 0], vci.to_be_bytes()]);
        pairs.flatten().collect()
    };
    let most = reload(&many(0x6f)).expect("64 pairs in doubt");
    assert_eq!(most.doubts.len(), 64);
    assert_eq!(reload(&many(0x70)), Err(Row::ReloadDoubtsMany));
}

/// Pairs out of service that are refused, and why.
#[test]
fn marks() {
    let call = field(4, &form("00 000001 0000 0020 03"));
    let reload = |doubts: &str, marks: &[u8], calls: &[u8]| {
        let lists = "01 000C 0000 0020 0090 0002 0020 0021 02 0008 0000 0022 0001 0020";
        let front = form(&format!("{lists} 03 0008 0000000000000000"));
        let (doubts, restart) = (field(5, &form(doubts)), field(7, &[]));
        Table::reload(&[&front, &doubts, &field(6, marks), &restart, calls].concat())
    };
    for (marks, row) in [
        ("", Row::ReloadMarksLength),
        ("00 0000 00", Row::ReloadMarksLength),
        ("00 0000 0023 00", Row::ReloadMarksLength),
        ("02", Row::ReloadMarksAll),
        ("FF 0000 0023", Row::ReloadMarksAll),
        ("00 0000 0091", Row::ReloadMarksRange),
        ("01 0003 0020", Row::ReloadMarksRange),
        ("00 0000 0022", Row::ReloadMarksPermanent),
        ("00 0000 0023 0000 0023", Row::ReloadMarksTwice),
        ("01 0002 0020 0000 0023", Row::ReloadMarksOrder),
        ("00 0000 0021", Row::ReloadMarksDoubt),
        ("01", Row::ReloadAllDoubt),
        ("00 0000 0020", Row::ReloadMarksHeld),
    ] {
        assert_eq!(
            reload("0000 0021", &form(marks), &call),
            Err(row),
            "{marks}"
        );
    }
    assert_eq!(reload("", &[1], &call), Err(Row::ReloadAllHeld));
    let beside = reload("", &form("01 0000 0020"), &[]).expect("all beside a single pair");
    assert!(beside.marks.all && beside.marks.single.len() == 1);
    let many = |last: u16| -> Vec<u8> {
        let pairs = (0x30..=last).flat_map(|vci| [[0, 0], vci.to_be_bytes()]);
        [vec![0], pairs.flatten().collect()].concat()
    };
    let most = reload("", &many(0x6f), &call).expect("64 pairs out of service");
    assert_eq!(most.marks.single.len(), 64);
    assert_eq!(reload("", &many(0x70), &[]), Err(Row::ReloadMarksMany));
}

/// RESTARTs under way that are refused, and why.
#[test]
fn restarts() {
    let reload = |restart: &str| {
        let lists = "01 0006 0000 0020 0021 02 0008 0000 0021 0001 0020";
        let front = form(&format!(
            "{lists} 03 0008 00000000000003E8 05 0000 06 0001 00"
        ));
        Table::reload(&[front, field(7, &form(restart))].concat())
    };
    for (restart, row) in [
        ("01", Row::ReloadRestartLength),
        ("01 00000000000000", Row::ReloadRestartLength),
        ("01 0000000000000000 00", Row::ReloadRestartLength),
        ("01 0000000000000000 0000", Row::ReloadRestartLength),
        ("01 0000000000000000 0000 0020 00", Row::ReloadRestartLength),
        ("00 0000000000000000", Row::ReloadRestartTimes),
        ("03 0000000000000000 0000 0020", Row::ReloadRestartTimes),
        ("01 000000000001D8A9", Row::ReloadRestartDeadline),
        ("02 FFFFFFFFFFFFFFFF", Row::ReloadRestartDeadline),
        ("01 0000000000000000 0000 0022", Row::ReloadRestartRange),
        ("01 0000000000000000 0001 0020", Row::ReloadRestartRange),
        ("01 0000000000000000 0000 0021", Row::ReloadRestartPermanent),
    ] {
        assert_eq!(reload(restart), Err(row), "{restart}");
    }
    let all = reload("01 000000000001D8A8").expect("a RESTART of all");
    assert_eq!(all.under_way.map(|own| own.named), Some(Named::All));
    assert_eq!(reload("").map(|table| table.under_way), Ok(None));
}
