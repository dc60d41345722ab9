//! `same` on pairs that document 01 decides: definitions as a set, components
//! in any order and each as often, letter by letter with values put in; under
//! both editions and, as document 02 says, never between them.

use compare::table;
use compare::timo::{Settings, Table};
use timo_reference::calls::Engine;

fn read(text: &str) -> Table {
    let read = Table::read(text.as_bytes(), Settings::EDITION_1);
    read.unwrap_or_else(|number| panic!("refused {number}: {text}"))
}

/// Both engines, both ways round, under both editions and between them.
fn answered(one: &Table, other: &Table, wanted: bool, what: &str) {
    let [one_2, other_2] = [one, other].map(Table::under_other_edition);
    answered_once(one, other, wanted, what);
    answered_once(&one_2, &other_2, wanted, &format!("edition 2: {what}"));
    answered_once(one, &other_2, false, &format!("two editions: {what}"));
    answered_once(&one_2, other, false, &format!("two editions: {what}"));
}

fn answered_once(one: &Table, other: &Table, wanted: bool, what: &str) {
    let network = |table| table::network(table).expect("a network");
    let reference = Engine::default().same(&network(one), &network(other));
    assert_eq!(reference, wanted, "reference: {what}");
    assert_eq!(one.same(other), Ok(wanted), "{what}");
    assert_eq!(other.same(one), Ok(wanted), "exchanged: {what}");
    assert_eq!(one.same(one), Ok(true), "itself: {what}");
}

fn texts(one: &str, other: &str, wanted: bool) {
    answered(
        &read(one),
        &read(other),
        wanted,
        &format!("{one} and {other}"),
    );
}

#[test]
fn definitions_are_a_set() {
    texts("D=stop.E=D.A[D].", "E=D.D=stop.A[D].", true);
    texts("D=stop.E=D.A[D].", "D=stop.A[D].", false);
    texts("D=stop.E=D.A[stop].", "D=stop.E=E.A[stop].", false);
    texts(
        "D(x)=go(0,x,stop).A[stop].",
        "D(y)=go(0,y,stop).A[stop].",
        false,
    );
    texts("D(x,y)=stop.A[stop].", "D(y,x)=stop.A[stop].", false);
    texts("D(x)=stop.A[stop].", "D=stop.A[stop].", false);
    texts("D=stop|E.E=stop.A[D].", "E=stop.D=E|stop.A[D].", false);
}

#[test]
fn components_in_any_order_and_each_as_often() {
    texts("A[stop]|B[stop].", "B[stop]|A[stop].", true);
    texts("A[stop|go(1,B,stop)].", "A[go(1,B,stop)]|A[stop].", true);
    texts("A[stop]|A[stop].", "A[stop].", false);
    texts("A[stop|stop]|B[stop].", "A[stop]|B[stop|stop].", false);
    texts(
        "D=stop.A[go(1,B,stop|D)].",
        "D=stop.A[go(1,B,D|stop)].",
        false,
    );
}

#[test]
fn letter_by_letter() {
    texts("A[go(inf,B,stop)].", "A[go(1000000,B,stop)].", false);
    texts("A[go(1,B,stop)].", "A[go(2,B,stop)].", false);
    texts("A[go(1,B,stop)].", "A[go(1,C,stop)].", false);
    texts("A[in(c,1,x,stop,stop)].", "A[in(c,1,y,stop,stop)].", false);
    texts("A[in(c,1,x,stop,stop)].", "A[in(d,1,x,stop,stop)].", false);
    texts(
        "A[in(c,1,x,go(0,x,stop),stop)].",
        "A[in(c,1,x,stop,go(0,A,stop))].",
        false,
    );
    texts("A[out(c,1,A,stop,stop)].", "A[in(c,1,a,stop,stop)].", false);
    texts("Abcdefghijklmnop[stop].", "Abcdefghijklmnoq[stop].", false);
    texts("Abcd[stop].", "Abcde[stop].", false);
}

#[test]
fn names_alike_in_several_sorts() {
    texts("A=A.A[A].", "A=A.A[A].", true);
    texts("A=A.B=B.A[B].", "A=A.B=B.B[A].", false);
    texts("A=A.B=B.A[B].", "B=B.A=A.A[B].", true);
    let alike = "x(x)=in(x,0,x,go(0,x,stop),out(x,1,x,stop,stop)).A[x(A)].";
    texts(alike, alike, true);
    texts(alike, &alike.replace("in(x", "in(y"), false);
    texts(alike, &alike.replace("out(x,1,x", "out(x,1,A"), false);
    texts(
        "c(x)=stop.d(x)=stop.A[c(A)].",
        "d(x)=stop.c(x)=stop.A[d(A)].",
        false,
    );
}

#[test]
fn numbers_of_locations_and_channels_do_not_count() {
    let one = "A[out(c,0,B,stop,stop)]|B[out(d,0,A,stop,stop)].";
    let other = "B[out(d,0,A,stop,stop)]|A[out(c,0,B,stop,stop)].";
    texts(one, other, true);
    let moved = "A[go(1,B,stop)]|B[go(1,A,stop)].";
    texts(moved, "B[go(1,A,stop)]|A[go(1,B,stop)].", true);
}

#[test]
fn names_and_values_that_no_longer_occur_do_not_count() {
    let mut moved = read("A[go(0,B,stop)].");
    moved.step(0, &mut [[0; 3]; 1]).expect("a step");
    answered(&moved, &read("B[stop]."), true, "after the move");
    let sent = |value: &str| {
        let text =
            format!("A[out(c,0,{value},stop,stop)|in(c,0,x,in(d,1,x,go(0,x,stop),stop),stop)].");
        let mut table = read(&text);
        table.step(0, &mut [[0; 3]; 1]).expect("a step");
        table
    };
    answered(
        &sent("B"),
        &sent("C"),
        true,
        "a value under an inner binder of its name",
    );
    let later = read("A[stop|in(d,1,x,go(0,x,stop),stop)].");
    answered(&sent("B"), &later, true, "the text of what is left");
}

#[test]
fn values_are_put_in() {
    let sent = |value: &str| {
        let text = format!("A[out(c,0,{value},stop,stop)|in(c,0,x,go(1,x,stop),stop)].");
        let mut table = read(&text);
        table.step(0, &mut [[0; 3]; 1]).expect("a step");
        table
    };
    answered(&sent("B"), &read("A[go(1,B,stop)|stop]."), true, "received");
    answered(&sent("B"), &sent("C"), false, "other values");
    let call = |text: &str| {
        let mut table = read(text);
        table.step(0, &mut [[0; 3]; 1]).expect("a step");
        table
    };
    let one = call("D(x,y)=go(1,x,D(y,x)).A[D(B,C)].");
    let other = read("D(x,y)=go(1,x,D(y,x)).A[go(1,B,D(C,B))].");
    answered(&one, &other, true, "arguments put in");
}

#[test]
fn an_owner_is_compared_by_name() {
    let moved = |text: &str, p: usize| {
        let mut table = read(text);
        table.action(2, p, 0).expect("a move");
        table
    };
    let by_a = moved("A[go(0,C,stop)]|C[stop].", 0);
    let by_b = moved("B[go(0,C,stop)]|C[stop].", 0);
    answered(&by_a, &by_b, false, "other owners");
    answered(
        &by_a,
        &moved("C[stop]|A[go(0,C,stop)].", 1),
        true,
        "one owner, other numbers",
    );
    answered(&by_a, &read("C[stop|stop]."), false, "a mark and none");
    let ticked = |mut table: Table| {
        table.tick(0).expect("a tick");
        table
    };
    answered(&ticked(by_a), &ticked(by_b), true, "no marks left");
    let several = moved("A[go(0,C,stop|stop)].", 0);
    answered(
        &several,
        &moved("A[go(0,C,stop)].", 0),
        false,
        "marked, of several parts",
    );
    answered(&ticked(several), &read("C[stop|stop]."), true, "split");
}

/// 128 components with one value and 128 with another, each of 3,501 parts of
/// which only the last has the value: every pair is compared to its end.
#[test]
fn many_large_components_that_differ_in_their_last_part() {
    let parts = vec!["stop"; 3_500].join("|");
    let marked = |first: &str, second: &str| {
        let calls = [first, second].map(|value| vec![format!("D({value})"); 128].join("|"));
        let text = format!("D(x)={parts}|go(1,x,stop).A[{}].", calls.join("|"));
        let mut table = read(&text);
        for p in 0..256 {
            table.action(1, p, 0).expect("a call");
        }
        table
    };
    let (one, other) = (marked("A", "B"), marked("B", "A"));
    assert_eq!(one.same(&other), Ok(true));
    assert_eq!(one.same(&marked("A", "A")), Ok(false));
}
