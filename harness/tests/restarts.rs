//! Our RESTART and the pairs out of service, over generated scripts.

use harness::controller::{Marks, Named, Notice, Table, T316};
use harness::decode::Pair;
use harness::exchange::{Exchange, Outcome};
use harness::generate::Generator;
use harness::rows::Row;

fn permitted(table: &Table, pair: Pair) -> bool {
    table.pool.within(pair) && !table.pool.is_permanent(pair)
}

/// No pair stands in two ways, and what is named is permitted.
fn right(table: &Table) -> bool {
    let Marks { all, single } = &table.marks;
    let apart = |pair: &Pair| !table.holds(*pair) && !table.doubts.contains(pair);
    let mut marked = single.iter();
    let alone = table.live().next().is_none() && table.doubts.is_empty();
    let named = table.under_way.is_none_or(|own| match own.named {
        Named::One(pair) => permitted(table, pair),
        Named::All => true,
    });
    let near = table
        .under_way
        .is_none_or(|own| own.deadline <= table.reading + T316);
    single.len() <= 64
        && marked.all(|pair| permitted(table, *pair) && apart(pair))
        && (!all || alone)
        && named
        && near
}

/// What an answered event may do to the marks.
fn marks_follow(row: Row, before: &Table, after: &Table) -> bool {
    let mut marks = before.marks.clone();
    match (row, before.under_way.map(|own| own.named)) {
        (Row::T316Second | Row::T316Gone, Some(Named::One(pair))) => {
            marks.single.insert(pair);
        }
        (Row::T316Second | Row::T316Gone, Some(Named::All)) => marks.all = true,
        (Row::HostPutBack, _) => marks = Marks::default(),
        _ => {}
    }
    after.marks == marks
}

/// What an answered event may do to the RESTART under way.
fn restart_follows(row: Row, before: &Table, after: &Table) -> bool {
    let (was, is) = (before.under_way, after.under_way);
    let begun = is.is_some_and(|own| own.deadline == after.reading + T316);
    match row {
        Row::HostRestartOne | Row::HostRestartAll => {
            was.is_none() && begun && is.is_some_and(|own| !own.second)
        }
        Row::T316First | Row::T316Waits => {
            let again = is.is_some_and(|own| own.second);
            begun && again && was.map(|own| own.named) == is.map(|own| own.named)
        }
        Row::AcknowledgeHeld
        | Row::AcknowledgeFree
        | Row::AcknowledgeAll
        | Row::AcknowledgeNone
        | Row::T316Second
        | Row::T316Gone => was.is_some() && is.is_none(),
        _ => was == is,
    }
}

/// A new call has a pair that was free.
fn given_free(row: Row, before: &Table, after: &Table) -> bool {
    if ![Row::SetupAccepted, Row::HostOffer].contains(&row) {
        return true;
    }
    let new = after
        .live()
        .filter(|(slot, _)| before.calls[*slot].is_none());
    let mut pairs = new.map(|(_, call)| call.pair);
    let free = |pair: Pair| !before.marks.has(pair) && !before.names(pair);
    pairs.all(free)
}

#[test]
fn begun_and_ended() {
    let mut generator = Generator::new(5);
    let mut exchange = Exchange::default();
    let mut waited = 0;
    for _ in 0..120_000 {
        let (line, _) = generator.line();
        let before = exchange.table.clone();
        let Outcome::Answer(answer) = exchange.take(&line) else {
            continue;
        };
        let Some(after) = &exchange.table else {
            continue;
        };
        assert!(right(after));
        let renewed = [Row::StartAccepted, Row::ReloadAccepted].contains(&answer.row);
        let Some(before) = before.filter(|_| !renewed) else {
            continue;
        };
        let row = answer.row;
        assert!(row.refusal() == 0 || before == *after, "{row:?}");
        assert!(marks_follow(row, &before, after), "{row:?}");
        assert!(restart_follows(row, &before, after), "{row:?}");
        assert!(given_free(row, &before, after), "{row:?}");
        if row == Row::T316Waits {
            assert_eq!(answer.notice, Notice::None);
            assert_eq!(
                (&before.calls, &before.doubts),
                (&after.calls, &after.doubts)
            );
            waited += 1;
        }
    }
    assert!(waited > 0);
}
