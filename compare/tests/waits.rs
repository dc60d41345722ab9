//! Document 02, R-1 and R-9, through the proved engine's library: the words of waits,
//! total and count, what waits and what does not, question 18 in its place, question
//! 17's limits, the mean and its line; and lists made by hand through both engines.

use compare::alike::refused_by_all;
use compare::differ::differ;
use compare::timo::{
    printout, Mean, Record, Row, Settings, State, Table, MESSAGES, UNMARKED, WAIT,
};
use timo_reference::calls::{self, Engine};
use timo_reference::lists;
use timo_reference::program;
use timo_reference::rules::Variant;

const CALL: u32 = 1;
const MOVE: u32 = 2;
const MEET: u32 = 3;

fn read_with(text: &str, settings: Settings) -> Table {
    let read = Table::read(text.as_bytes(), settings);
    read.unwrap_or_else(|number| panic!("refused {number}: {text}"))
}

fn read(text: &str) -> Table {
    read_with(text, Settings::EDITION_1)
}

/// All rights but those that the change takes away.
fn but(change: impl FnOnce(&mut [Row; 64])) -> Settings {
    let mut settings = Settings::EDITION_1;
    change(&mut settings.rights);
    settings
}

fn waits(table: &Table) -> Vec<u32> {
    let used = &table.state.c.at[..table.state.n];
    used.iter().map(|c| c.wait).collect()
}

fn with_waits(mut table: Table, waits: &[u32]) -> Table {
    for (component, wait) in table.state.c.at.iter_mut().zip(waits) {
        component.wait = *wait;
    }
    table
}

fn with_messages(mut table: Table, messages: u32, total: u64) -> Table {
    table.state.c.put_messages(messages, total);
    table
}

/// How many messages there were, and the total.
fn messages(table: &Table) -> (u32, u64) {
    (table.state.c.messages, table.state.c.total())
}

fn mean(quotient: u32, remainder: u32, count: u32) -> Result<Mean, u32> {
    Ok(Mean {
        count,
        quotient,
        remainder,
    })
}

fn records(list: &[[u32; 3]]) -> Vec<Record> {
    let record = |[kind, p, q]: &[u32; 3]| Record {
        kind: *kind,
        p: *p,
        q: *q,
    };
    list.iter().map(record).collect()
}

fn step(table: &mut Table, location: u32) -> Result<usize, u32> {
    table.step(location, &mut [[0; 3]; 256])
}

/// The number of a refusal, which leaves every word as it was.
fn refused<T>(table: &Table, call: impl FnOnce(&mut Table) -> Result<T, u32>) -> u32 {
    let mut after = table.clone();
    let number = call(&mut after).err().unwrap_or(0);
    if number != 0 {
        assert!(after.state == table.state, "changed by {number}");
        assert!(after.words == table.words, "changed by {number}");
    }
    number
}

// --- what waits ----------------------------------------------------------------

#[test]
fn reading_sets_waits_total_and_count_to_0() {
    let table = read("D=stop. A[D|go(1,B,stop)|stop] | B[in(c,1,x,stop,stop)] .");
    assert_eq!(waits(&table), [0; 4]);
    assert_eq!(messages(&table), (0, 0));
    assert_eq!(table.mean(), mean(0, 0, 0), "no messages");
    assert_eq!(State::ZERO.c.total(), 0);
}

/// Two ticks at A: what has a timer there waits, `inf` too, `stop` does not, and what
/// stands elsewhere does not.
#[test]
fn a_tick_is_one_more_for_what_has_a_timer_there() {
    let text = "A[go(5,B,stop)|out(c,inf,B,stop,stop)|in(d,2,x,stop,stop)|stop|go(inf,B,stop)] | \
        B[go(5,A,stop)] .";
    let mut table = read(text);
    assert_eq!((table.tick(0), table.tick(0)), (Ok(()), Ok(())));
    assert_eq!(waits(&table), [2, 2, 2, 0, 2, 0]);
    assert_eq!(table.tick(1), Ok(()));
    assert_eq!(waits(&table), [2, 2, 2, 0, 2, 1]);
}

#[test]
fn stop_keeps_the_wait_that_a_table_made_by_hand_has() {
    let mut table = with_waits(read("A[stop|go(9,B,stop)] ."), &[7, 7]);
    assert_eq!(table.tick(0), Ok(()));
    assert_eq!(waits(&table), [7, 8]);
}

#[test]
fn a_move_at_0_without_its_right_waits() {
    let settings = but(|rights| rights[0].leave[1] = false);
    let mut table = read_with("A[go(0,B,stop)|go(1,B,stop)] | B[stop] .", settings);
    assert_eq!((table.tick(0), table.tick(0)), (Ok(()), Ok(())));
    assert_eq!(waits(&table), [2, 2, 0]);
    assert_eq!(table.state.c.at[0].timer, 0);
}

#[test]
fn a_wait_halts() {
    let table = read("A[go(inf,B,stop)|out(c,9,A,stop,stop)|stop] .");
    let mut table = with_waits(table, &[WAIT - 1, WAIT, WAIT]);
    for _ in 0..2 {
        assert_eq!(table.tick(0), Ok(()));
        assert_eq!(waits(&table), [WAIT; 3]);
    }
}

#[test]
fn what_takes_its_q_waits_anew_in_each_part() {
    let text = "A[in(c,0,x,stop,stop|go(3,B,stop)|out(d,inf,A,stop,stop))|go(9,B,stop)] .";
    let mut table = with_waits(read(text), &[5, 5]);
    assert_eq!(table.tick(0), Ok(()));
    assert_eq!(waits(&table), [0, 0, 0, 6]);
}

/// Under edition 2 an output at 1 takes its Q.
#[test]
fn editions_decide_what_waits_on() {
    for (settings, after) in Settings::BOTH.into_iter().zip([6, 0]) {
        let table = read_with("A[out(c,1,A,stop,go(9,A,stop))] .", settings);
        let mut table = with_waits(table, &[5]);
        assert_eq!(table.tick(0), Ok(()));
        assert_eq!(waits(&table), [after]);
    }
}

#[test]
fn an_action_and_the_end_of_a_mark_begin_a_wait_anew() {
    let text =
        "D = go(2,A,stop)|stop. A[D|go(3,B,stop)|out(c,3,B,stop,stop)|in(c,3,x,stop,stop)] .";
    let mut table = with_waits(read(text), &[5, 6, 7, 8]);
    table.action(CALL, 0, 0).expect("the call");
    assert_eq!(waits(&table), [0, 6, 7, 8]);
    table.action(MOVE, 1, 0).expect("the move");
    assert_eq!(waits(&table), [0, 0, 7, 8]);
    assert_eq!(messages(&table), (0, 0));
    table.action(MEET, 2, 3).expect("the pair meets");
    assert_eq!((waits(&table), messages(&table)), (vec![0; 4], (1, 7)));
    assert_eq!(table.tick(1), Ok(()));
    assert_eq!(waits(&table), [0; 4]);
    assert_eq!(table.tick(0), Ok(()));
    assert_eq!(waits(&table), [0; 5]);
}

/// A mark made by hand may have a wait: other clocks keep it, its own ends it.
#[test]
fn the_wait_of_a_mark_made_by_hand() {
    let mut table = read("A[go(0,B,go(2,A,stop)|stop)] | B[go(9,A,stop)] .");
    table.action(MOVE, 0, 0).expect("the move");
    let mut table = with_waits(table, &[5, 5]);
    assert_eq!(table.tick(1), Ok(()));
    assert_eq!(waits(&table), [5, 6]);
    assert_eq!(table.tick(0), Ok(()));
    assert_eq!(waits(&table), [0, 0, 6]);
}

// --- messages ------------------------------------------------------------------

const PAIR: &str = "A[out(c,9,B,stop,stop)|in(c,9,x,stop,stop)] .";

#[test]
fn the_wait_of_the_sender_is_added_and_not_that_of_the_receiver() {
    let mut table = with_waits(read(PAIR), &[4, 70]);
    table.action(MEET, 0, 1).expect("the pair meets");
    assert_eq!((waits(&table), messages(&table)), (vec![0, 0], (1, 4)));
    assert_eq!(table.mean(), mean(4, 0, 1));
}

#[test]
fn two_equal_outputs_with_different_waits() {
    let text = "A[out(c,9,B,stop,stop)|out(c,9,B,stop,stop)|in(c,9,x,stop,stop)] .";
    let table = with_waits(read(text), &[2, 5, 0]);
    for (p, total, left) in [(0, 2, [0, 5, 0]), (1, 5, [2, 0, 0])] {
        let mut table = table.clone();
        table.action(MEET, p, 2).expect("a pair meets");
        assert_eq!(
            (waits(&table), messages(&table)),
            (left.to_vec(), (1, total))
        );
    }
    let mut table = table;
    assert_eq!(step(&mut table, 0), Ok(1), "the lower output is served");
    assert_eq!((waits(&table), messages(&table)), (vec![0, 6, 0], (1, 2)));
}

/// The low word runs over into the high one; the largest total is 10^12.
#[test]
fn totals_past_32_bits() {
    let pair = with_waits(read(PAIR), &[WAIT, 0]);
    for (count, total, words) in [
        (4_295, (1 << 32) - 1, [999_999, 1]),
        (4_295, (1 << 32) - 1_000_000, [0, 1]),
        (4_294, (1 << 32) - 1_000_001, [u32::MAX, 0]),
        (900_000, (7 << 32) - 5, [999_995, 7]),
        (MESSAGES - 1, 999_999_000_000, [3_567_587_328, 232]),
    ] {
        let mut table = with_messages(pair.clone(), count, total);
        table.action(MEET, 0, 1).expect("the pair meets");
        let c = &table.state.c;
        assert_eq!([c.total_low, c.total_high], words);
        assert_eq!(messages(&table), (count + 1, total + u64::from(WAIT)));
        assert!(table.is_valid());
    }
}

/// A step, a proposal and the calls one by one count alike.
#[test]
fn a_step_and_a_proposal_count_as_their_actions() {
    let text = "A[out(c,9,A,stop,stop)|in(c,9,x,stop,stop)|out(c,9,A,stop,stop)|\
        in(c,9,x,stop,stop)|go(3,A,stop)] .";
    let table = with_waits(read(text), &[3, 1, 8, 1, 2]);
    let table = with_messages(table, 4_295, (1 << 32) - 5);
    let [mut stepped, mut proposed, mut acted] = [(); 3].map(|()| table.clone());
    assert_eq!(step(&mut stepped, 0), Ok(2));
    let both = records(&[[MEET, 0, 1], [MEET, 2, 3]]);
    assert_eq!(proposed.propose(0, &both), Ok(()));
    for record in both {
        let met = acted.action(record.kind, record.p as usize, record.q as usize);
        assert!(met.is_ok());
    }
    assert_eq!(acted.tick(0), Ok(()));
    assert!(stepped.state == proposed.state && stepped.state == acted.state);
    assert_eq!(messages(&stepped), (4_297, (1 << 32) + 6));
    assert_eq!(waits(&stepped), [0, 0, 0, 0, 3]);
}

// --- question 18 ---------------------------------------------------------------

const TWO_PAIRS: &str = "A[out(c,9,A,stop,stop)|in(c,9,x,stop,stop)|out(c,9,A,stop,stop)|\
    in(c,9,x,stop,stop)|go(9,B,stop)] | B[go(2,A,stop)] .";

#[test]
fn at_a_full_count_the_pair_stops_the_tick_and_cannot_meet() {
    let full = with_messages(read(TWO_PAIRS), MESSAGES, 1_000_000_000_000);
    assert_eq!(refused(&full, |t| t.action(MEET, 0, 1)), 18);
    assert_eq!(refused(&full, |t| step(t, 0)), 18);
    assert_eq!(refused(&full, |t| t.tick(0)), 12);
    assert_eq!(
        refused(&full, |t| t.propose(0, &records(&[[MEET, 0, 1]]))),
        18
    );
    assert_eq!(refused(&full, |t| t.propose(0, &[])), 12);
    assert_eq!(full.forced().map(|report| report.set), Ok(1));
    assert_eq!(full.mean(), mean(1_000_000, 0, MESSAGES));
}

#[test]
fn a_full_count_does_not_matter_to_anything_else() {
    let full = with_messages(read(TWO_PAIRS), MESSAGES, 0);
    assert_eq!(refused(&full, |t| t.action(MOVE, 4, 0)), 0);
    assert_eq!(refused(&full, |t| t.tick(1)), 0);
    assert_eq!(refused(&full, |t| t.step(1, &mut [])), 0);
    assert_eq!(
        refused(&full, |t| t.propose(1, &records(&[[MOVE, 5, 0]]))),
        0
    );
    assert_eq!(full.same(&read(TWO_PAIRS)), Ok(true));
    let mut lent = [0; 99];
    assert_eq!(full.action_label(MEET, 0, 1, &mut lent), Ok(6));
    assert_eq!(full.step_line(0, &mut lent), Err(18));
    assert_eq!(full.step_line(1, &mut lent), Ok(2));
    assert!(full.write(&mut [0; 512]).is_ok());
}

/// A step counts all its communications, a proposal each before the next is asked.
#[test]
fn there_has_to_be_room_for_every_message() {
    let with = |messages| with_messages(read(TWO_PAIRS), messages, 0);
    let both = records(&[[MEET, 0, 1], [MEET, 2, 3]]);
    assert_eq!(refused(&with(MESSAGES - 1), |t| step(t, 0)), 18);
    assert_eq!(refused(&with(MESSAGES - 1), |t| t.propose(0, &both)), 18);
    assert_eq!(refused(&with(MESSAGES - 1), |t| t.action(MEET, 0, 1)), 0);
    let [mut stepped, mut proposed] = [(); 2].map(|()| with(MESSAGES - 2));
    assert_eq!(step(&mut stepped, 0), Ok(2));
    assert_eq!(proposed.propose(0, &both), Ok(()));
    assert_eq!([&stepped, &proposed].map(messages), [(MESSAGES, 0); 2]);
}

#[test]
fn after_8_9_10_11_and_20() {
    let text = "A[out(c,9,A,stop,stop)|in(c,9,x,stop,stop)|in(d,9,x,stop,stop)|\
        out(c,9,A,stop,stop)|out(d,9,A,stop,stop)] | B[in(c,9,x,stop,stop)] .";
    let table = read_with(text, but(|rights| rights[0].send[1] = false));
    let full = with_messages(table.clone(), MESSAGES, 0);
    let mut marked = table;
    marked.action(MEET, 3, 1).expect("a pair meets");
    let marked = with_messages(marked, MESSAGES, 0);
    assert_eq!(refused(&full, |t| t.action(MEET, 0, 99)), 8);
    assert_eq!(refused(&marked, |t| t.action(MEET, 0, 1)), 9);
    assert_eq!(refused(&full, |t| t.action(MEET, 0, 3)), 10);
    assert_eq!(refused(&full, |t| t.action(MEET, 0, 2)), 11);
    assert_eq!(refused(&full, |t| t.action(MEET, 0, 5)), 11);
    assert_eq!(refused(&full, |t| t.action(MEET, 4, 2)), 20);
    assert_eq!(refused(&full, |t| t.action(MEET, 0, 1)), 18);
    assert_eq!(
        refused(&full, |t| t.propose(1, &records(&[[MEET, 4, 2]]))),
        20
    );
}

#[test]
fn before_16_in_a_proposal() {
    let with = |messages| with_messages(read(TWO_PAIRS), messages, 0);
    let elsewhere = records(&[[MEET, 0, 1]]);
    assert_eq!(refused(&with(MESSAGES), |t| t.propose(1, &elsewhere)), 18);
    assert_eq!(
        refused(&with(MESSAGES - 1), |t| t.propose(1, &elsewhere)),
        16
    );
    let later = records(&[[MOVE, 4, 0], [MEET, 0, 1]]);
    assert_eq!(refused(&with(MESSAGES), |t| t.propose(1, &later)), 16);
}

/// 254 `stop`, and a pair of which one becomes two parts: 257 components.
#[test]
fn after_15_and_before_13_in_a_step() {
    let stops = "A[stop] | ".repeat(254);
    let table = read(&format!(
        "{stops}A[out(c,9,A,stop|stop,stop)|in(c,9,x,stop,stop)] ."
    ));
    let full = with_messages(table.clone(), MESSAGES, 0);
    assert_eq!(refused(&full, |t| t.step(0, &mut [])), 15);
    assert_eq!(refused(&full, |t| step(t, 0)), 18);
    assert_eq!(refused(&table, |t| step(t, 0)), 13);
    let pair = records(&[[MEET, 254, 255]]);
    assert_eq!(refused(&full, |t| t.propose(0, &pair)), 18);
    assert_eq!(refused(&table, |t| t.propose(0, &pair)), 13);
    assert_eq!(full.step_line(0, &mut []), Err(18));
    assert_eq!(table.step_line(0, &mut []), Err(13));
}

// --- question 17 and spare words -----------------------------------------------

/// At each limit the table stands for a network, one past it does not.
#[test]
fn the_limits_of_question_17() {
    let largest = |count: u32| u64::from(WAIT) * u64::from(count);
    for count in [0, 1, 4_294, 4_295, MESSAGES - 1, MESSAGES] {
        let table = with_messages(with_waits(read(PAIR), &[WAIT, 0]), count, largest(count));
        assert!(table.is_valid(), "{count}");
        assert!(table.mean().is_ok());
        let past = with_messages(table, count, largest(count) + 1);
        assert!(!past.is_valid(), "{count}");
        refused_by_all(&past).expect("17 at every call");
    }
    let wait = with_waits(read(PAIR), &[0, WAIT + 1]);
    assert!(!wait.is_valid());
    refused_by_all(&wait).expect("17 at every call");
    let count = with_messages(read(PAIR), MESSAGES + 1, 0);
    assert!(!count.is_valid());
    refused_by_all(&count).expect("17 at every call");
}

/// Waits past the components in use are not looked at, and what a tick splits off
/// there begins at 0; spare words stay.
#[test]
fn words_past_the_components_and_spare_words() {
    let mut table = read("A[in(c,0,x,stop,go(9,A,stop)|stop)|go(9,A,stop)] .");
    for c in &mut table.state.c.at {
        c.spare = [7, 8, 9];
    }
    table.state.c.at[2].wait = u32::MAX;
    table.state.c.at[3].wait = 2_000_000;
    table.state.c.spare = [11; 13];
    assert!(table.is_valid());
    assert_eq!(table.tick(0), Ok(()));
    assert_eq!(waits(&table), [0, 0, 1]);
    assert_eq!(table.state.c.at[3].wait, 2_000_000);
    assert!(table.state.c.at.iter().all(|c| c.spare == [7, 8, 9]));
    assert_eq!(table.state.c.spare, [11; 13]);
    assert!(table.state.c.at[..3].iter().all(|c| c.mark == UNMARKED));
}

// --- the mean and its line -----------------------------------------------------

#[test]
fn the_mean_is_exact() {
    let table = read("A[stop] .");
    let of = |count, total| with_messages(table.clone(), count, total).mean();
    assert_eq!(of(0, 0), mean(0, 0, 0));
    assert_eq!(of(1, 0), mean(0, 0, 1));
    assert_eq!(of(2, 3), mean(1, 1, 2));
    assert_eq!(of(3, 2), mean(0, 2, 3));
    assert_eq!(of(4_295, (1 << 32) + 3), mean(999_992, 1_659, 4_295));
    assert_eq!(
        of(999_999, 999_998_999_999),
        mean(999_999, 999_998, 999_999)
    );
    assert_eq!(
        of(MESSAGES, 999_999_999_999),
        mean(999_999, 999_999, MESSAGES)
    );
    assert_eq!(
        of(MESSAGES, 1_000_000_000_000),
        mean(1_000_000, 0, MESSAGES)
    );
}

/// Document 02, R-9: what a host rounds, by hand and then by the reference engine.
#[test]
fn whole_ticks_of_a_mean() {
    let table = read("A[stop] .");
    let ours = |count, total| {
        let mean = with_messages(table.clone(), count, total).mean();
        mean.expect("a good table").whole_ticks()
    };
    assert_eq!(ours(0, 0), None);
    for (total, ticks) in [
        (0, 0),
        (1, 0),
        (2, 1),
        (3, 2),
        (4, 2),
        (5, 2),
        (6, 3),
        (7, 4),
    ] {
        assert_eq!(ours(2, total), Some(ticks), "{total} over 2");
    }
    let small = (1..=12).flat_map(|count| (0..=5 * u64::from(count)).map(move |t| (count, t)));
    let halves = [0, 1, 2, 999_998, 999_999].map(|q| q * 1_000_000 + 500_000);
    let near = halves.into_iter().flat_map(|half| half - 1..=half + 1);
    let large = near.map(|total| (MESSAGES, total));
    for (count, total) in small.chain(large) {
        let (quotient, remainder) = (total / u64::from(count), total % u64::from(count));
        let mean = calls::Mean {
            quotient: quotient as u32,
            remainder: remainder as u32,
            count,
        };
        assert_eq!(
            ours(count, total),
            Some(mean.rounded()),
            "{total} over {count}"
        );
    }
}

fn printed(text: &str) -> String {
    let mut lent = vec![0; 4_096];
    let length = printout(text.as_bytes(), &mut lent);
    String::from_utf8(lent[..length].to_vec()).expect("ASCII")
}

/// Readers come after so many ticks, one for each of as many articles.
fn late(ticks: &[usize]) -> String {
    let article = "out(c,9,A,stop,stop)".to_string();
    let reader = |ticks: &usize| format!("go({ticks},A,in(c,9,x,stop,stop))");
    let readers = ticks.iter().map(reader);
    let parts: Vec<String> = vec![article; ticks.len()]
        .into_iter()
        .chain(readers)
        .collect();
    format!("A[{}] .", parts.join(" | "))
}

#[test]
fn the_last_line_of_a_printout() {
    let pair = "out(d,0,A,stop,stop) | in(d,0,x,stop,stop)";
    let with_pairs = |ticks: &[usize], pairs: usize| {
        let some = format!(" | {pair}").repeat(pairs);
        late(ticks).replace("] .", &format!("{some}] ."))
    };
    for (text, last) in [
        ("A[stop] .".to_string(), "-"),
        (late(&[0]), "1"),
        (late(&[2]), "3"),
        (late(&[0, 1]), "2"),
        (late(&[1, 2]), "2"),
        (with_pairs(&[0], 1), "0"),
        (with_pairs(&[2], 1), "2"),
        (with_pairs(&[0], 2), "0"),
        (with_pairs(&[1], 2), "1"),
        (with_pairs(&[0, 0], 2), "0"),
        (with_pairs(&[2, 2], 2), "2"),
        (with_pairs(&[2], 3), "1"),
        (with_pairs(&[1, 2], 3), "1"),
        (with_pairs(&[], 1).replace("A[ | ", "A["), "0"),
    ] {
        let text_printed = printed(&text);
        assert!(
            text_printed.ends_with(&format!(" .\n{last}\n")),
            "{text}: {text_printed}"
        );
    }
}

#[test]
fn no_mean_after_a_refusal() {
    assert_eq!(printed(""), "refused 2\n");
    let grows = "D = D | D | D | D | D . A[D | out(c,0,A,stop,stop) | in(c,0,x,stop,stop)] .";
    assert!(printed(grows).ends_with("\nrefused 13\n"));
}

/// Each wrong mean prints otherwise than the library on some text.
#[test]
fn every_wrong_mean_is_told_apart() {
    let pair = "out(d,0,A,stop,stop) | in(d,0,x,stop,stop)";
    let third = late(&[0]).replace("] .", &format!(" | {pair} | {pair}] ."));
    let texts = [late(&[0, 1]), late(&[1, 2]), third, String::new()];
    let printed_by = |variant, text: &str| {
        let mut bytes = Vec::new();
        let run = program::run(Engine::new(variant), text.as_bytes(), &mut bytes);
        run.expect("a buffer takes all bytes");
        String::from_utf8(bytes).expect("ASCII")
    };
    for variant in Variant::WRONG_PRINTOUTS {
        let differs = |text: &String| printed(text) != printed_by(variant, text);
        assert!(texts.iter().any(differs), "{variant:?}");
    }
    for text in texts {
        assert_eq!(printed(&text), printed_by(Variant::Right, &text));
    }
}

// --- lists through both engines ------------------------------------------------

const HOST: &str = "wait 0 1000000\nwait 2 999999\nmessages 999998 999998000000\n";

/// A list after what a host has written, through both engines under both editions.
fn both_alike(text: &str, list: &str) {
    let calls = lists::parse(&format!("{HOST}{list}")).expect("a list");
    for settings in Settings::BOTH {
        let result = differ(Engine::default(), settings, text.as_bytes(), &calls);
        assert!(result.is_ok(), "{text}: {result:?}");
    }
}

/// The count fills up on the way, waits halt, and the location is stuck.
#[test]
fn lists_into_a_full_count() {
    let text = "Page = out(c,9,A,Page,Page) . Head = in(c,9,x,Head,Head) . \
        A[out(c,9,A,Page,Page)|in(c,9,x,Head,Head)|out(c,9,A,Page,Page)|go(2,A,Head)] | \
        B[go(inf,A,stop)] .";
    let rounds = "step 0 256\nmean\nstep 1 0\nforced\nsame\n".repeat(8);
    both_alike(text, &rounds);
    both_alike(
        text,
        &format!("action 3 0 1\naction 3 2 1\ntick 0\nproposal 0\n{rounds}"),
    );
    let pair = "proposal 0 3 0 1\nmessages 1000000 0\nproposal 1 3 0 1\nproposal 0 3 0 1\ntick 0\n";
    both_alike(text, &format!("{pair}{rounds}"));
}
