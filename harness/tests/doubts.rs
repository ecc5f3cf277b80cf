//! Pairs in doubt over generated scripts.

use harness::controller::{Notice, Table};
use harness::decode::Pair;
use harness::exchange::{Exchange, Outcome};
use harness::generate::Generator;
use harness::rows::Row;

/// The pairs in doubt, ascending.
fn doubts(table: &Table) -> Vec<Pair> {
    table.doubts.iter().copied().collect()
}

/// No pair is held and in doubt, and each pair in doubt is permitted.
fn right(table: &Table) -> bool {
    let permitted = |pair: &Pair| table.pool.within(*pair) && !table.pool.is_permanent(*pair);
    let mut pairs = table.doubts.iter();
    table.doubts.len() <= 64 && pairs.all(|pair| permitted(pair) && !table.holds(*pair))
}

/// What an answered event may do to the pairs in doubt.
fn follows(row: Row, before: &Table, after: &Table) -> bool {
    let (was, is) = (doubts(before), doubts(after));
    match row {
        Row::T308Second => {
            let held = before.live().map(|(_, call)| call.pair);
            let mut more = held.filter(|pair| !after.holds(*pair));
            let begun = more.next();
            let is: Vec<Pair> = is.into_iter().filter(|pair| Some(*pair) != begun).collect();
            is == was && more.next().is_none() && after.doubts.len() == was.len() + 1
        }
        Row::RestartAll | Row::RestartNone => is.is_empty(),
        Row::RestartHeld | Row::RestartFree => was.len() - is.len() <= 1,
        Row::AcknowledgeHeld
        | Row::AcknowledgeFree
        | Row::AcknowledgeAll
        | Row::AcknowledgeNone
        | Row::T316Second
        | Row::T316Gone => {
            let others = was.into_iter().filter(|pair| !before.names(*pair));
            is == others.collect::<Vec<Pair>>()
        }
        _ => was == is,
    }
}

#[test]
fn begun_and_ended() {
    let mut generator = Generator::new(3);
    let mut exchange = Exchange::default();
    for _ in 0..60_000 {
        let (line, _) = generator.line();
        let before = exchange.table.clone();
        let Outcome::Answer(answer) = exchange.take(&line) else {
            continue;
        };
        let Some(after) = &exchange.table else {
            continue;
        };
        assert!(right(after));
        let renewed = [Row::StartAccepted, Row::ReloadAccepted].contains(&answer.row);
        if let (Some(before), false) = (before, renewed) {
            assert!(follows(answer.row, &before, after), "{:?}", answer.row);
        }
        if answer.row == Row::T308Waits {
            assert_eq!(answer.notice, Notice::None);
            assert!(answer.reply.is_empty());
        }
    }
}
