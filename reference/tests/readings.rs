//! How document 01 is read in its corners, one test for each reading.

mod common;
use common::*;
use timo_reference::calls::Record;
use timo_reference::generate::edges;
use timo_reference::reading::{self, Limits};
use timo_reference::term::Settings;

fn nested(depth: usize, inmost: &str) -> String {
    format!(
        "{}{inmost}{}",
        "go(0,A,".repeat(depth - 1),
        ")".repeat(depth - 1)
    )
}

fn many(count: usize, piece: &str, join: &str) -> String {
    vec![piece; count].join(join)
}

// --- reading -----------------------------------------------------------------

#[test]
fn questions_are_asked_of_the_whole_text_one_after_the_other() {
    let deep = nested(33, "stop");
    assert_eq!(question(format!("A[{deep}]")), 2);
    assert_eq!(question(format!("A[{}] x", many(4097, "stop", "|"))), 2);
    assert_eq!(question("A[go(0,x,stop)] . ."), 2);
    assert_eq!(question(format!("D(a,b,c,d,e) = stop . A[{deep}] .")), 3);
    assert_eq!(
        question(format!("D=stop. D=stop. A[{deep}|E|go(0,x,stop)] .")),
        3
    );
    assert_eq!(
        question("D(a,b,c,d,e)=stop. D=stop. A[E|go(0,x,stop)] ."),
        4
    );
    assert_eq!(question("D=stop. D=stop. A[E|go(0,x,stop)] ."), 5);
    assert_eq!(question("D=stop. A[E|go(0,x,stop)] ."), 6);
    assert_eq!(question("D=stop. A[D|go(0,x,stop)] ."), 7);
    let long = format!("D=stop. D=stop. A[{deep}|E{}]", " ".repeat(66_000));
    assert_eq!(question(long), 1);
}

#[test]
fn the_form_has_no_upper_numbers_of_its_own() {
    assert_eq!(question("D(x)=stop. A[D(A,A,A,A,A)] ."), 6);
    assert_eq!(question("D(a,b,c,d,e)=stop. A[stop] ."), 4);
    assert_eq!(question("D(a,a,c,d,e)=stop. A[stop] ."), 4);
    assert_eq!(question("D(a,a,c,d)=stop. A[stop] ."), 5);
}

#[test]
fn a_timer_above_a_million_or_with_a_leading_zero_is_2() {
    for timer in [
        "1000001",
        "18446744073709551616",
        "4294967296",
        "00",
        "01",
        "0000001",
        "1e3",
    ] {
        assert_eq!(question(format!("A[go({timer},A,stop)].")), 2, "{timer}");
    }
    for timer in ["0", "1", "1000000", "999999", "inf"] {
        assert_eq!(question(format!("A[go({timer},A,stop)].")), 0, "{timer}");
    }
    assert_eq!(
        question(format!("A[go({},A,stop)].", "0".repeat(60_000))),
        2
    );
}

#[test]
fn a_name_has_at_most_16_letters_and_digits_with_a_letter_first() {
    assert_eq!(question("Abcdefghijklmnop[stop]."), 0);
    assert_eq!(question("Abcdefghijklmnopq[stop]."), 2);
    assert_eq!(question("1A[stop]."), 2);
    assert_eq!(question("A_1[stop]."), 2);
    assert_eq!(question("a[stop]."), 2);
}

#[test]
fn blanks_are_space_and_line_feed_only() {
    assert_eq!(question(" \n A \n [ \n stop ] \n . \n "), 0);
    for byte in (0..=255u8).filter(|byte| !matches!(byte, b' ' | b'\n')) {
        let text = [b"A[stop", [byte].as_slice(), b"]."].concat();
        assert_eq!(
            question(&text),
            if byte.is_ascii_alphanumeric() { 6 } else { 2 },
            "{byte}"
        );
        let text = [b"A[stop].", [byte].as_slice()].concat();
        assert_eq!(question(&text), 2, "{byte} at the end");
    }
}

#[test]
fn a_name_may_not_be_cut_by_blanks() {
    assert_eq!(question("A[st op]."), 2);
    assert_eq!(question("A[go(1 0,A,stop)]."), 2);
}

#[test]
fn brackets_without_arguments_are_2() {
    assert_eq!(question("D=stop. A[D()]."), 2);
    assert_eq!(question("D()=stop. A[D]."), 2);
}

#[test]
fn reserved_words_are_2_wherever_a_name_is_wanted() {
    for word in ["stop", "go", "in", "out", "inf", "S"] {
        for text in [
            format!("{word}=stop. A[stop]."),
            format!("{word}[stop]."),
            format!("D({word})=stop. A[stop]."),
            format!("A[go(0,{word},stop)]."),
            format!("A[out({word},0,A,stop,stop)]."),
            format!("A[out(c,0,{word},stop,stop)]."),
            format!("A[in(c,0,{word},stop,stop)]."),
            format!("D(x)=stop. A[D({word})]."),
            format!("A[{word}(A)]."),
        ] {
            assert_eq!(question(&text), 2, "{text}");
        }
    }
    assert_eq!(
        question("Stop=stop. inn=stop. SS[Stop|inn|in(s,0,ins,stop,stop)]."),
        0
    );
    assert_eq!(question("A[S]."), 2);
    assert_eq!(question("A[inf]."), 2);
}

#[test]
fn what_a_name_is_goes_by_its_place() {
    assert_eq!(question("A=A.A[A]."), 0);
    assert_eq!(
        question("x(x)=in(x,0,x,go(0,x,stop),go(0,x,stop)).A[x(A)]."),
        0
    );
    assert_eq!(question("D=stop. A[go(0,D,stop)]."), 0);
    let network = read("D=stop. A[go(0,D,stop)|D].");
    assert_eq!(network.script.locations, ["A", "D"]);
    assert_eq!(question("A[out(c,0,c,stop,stop)]."), 7);
}

#[test]
fn locations_are_numbered_wherever_they_stand() {
    let network = read("Idle(x)=go(0,Z,Idle(Y)). B[out(c,0,X,stop,stop)] | A[stop] .");
    assert_eq!(network.script.locations, ["Z", "Y", "B", "X", "A"]);
    let network = read("D=stop. E=D. A[E].");
    assert_eq!(network.script.locations, ["A"]);
    let surplus = |count: usize| {
        let names: Vec<String> = (1..count).map(|k| format!("L{k}")).collect();
        format!("D=stop. A[D({})].", names.join(","))
    };
    assert_eq!(question(surplus(64)), 6);
    assert_eq!(question(surplus(65)), 4);
}

#[test]
fn channels_are_numbered_in_a_count_of_their_own() {
    let network = read("D=in(z,0,c,stop,out(y,0,A,stop,stop)). B[in(c,0,x,stop,stop)|D] .");
    assert_eq!(network.script.channels, ["z", "y", "c"]);
}

#[test]
fn parts_count_at_any_depth_and_components_at_the_outside() {
    assert_eq!(
        question(format!("D={}. A[stop].", many(4095, "stop", "|"))),
        0
    );
    assert_eq!(
        question(format!("D={}. A[stop].", many(4096, "stop", "|"))),
        4
    );
    let inner = many(4094, "stop", "|");
    assert_eq!(question(format!("A[go(0,A,{inner})|stop].")), 0);
    assert_eq!(question(format!("A[go(0,A,{inner})|stop|stop].")), 4);
    assert_eq!(question(format!("A[{}].", many(256, "stop", "|"))), 0);
    assert_eq!(
        question(format!("A[{}]|B[stop].", many(256, "stop", "|"))),
        4
    );
}

#[test]
fn eight_different_names_may_be_in_scope_at_a_part() {
    let inputs = |names: &[&str]| {
        let open: String = names.iter().map(|name| format!("in(c,0,{name},")).collect();
        format!("{open}stop{}", ",stop)".repeat(names.len()))
    };
    let eight = ["a", "b", "c", "d", "e", "f", "g", "h"];
    assert_eq!(question(format!("A[{}].", inputs(&eight))), 0);
    let mut nine = eight.to_vec();
    nine.push("i");
    assert_eq!(question(format!("A[{}].", inputs(&nine))), 4);
    nine[8] = "a";
    assert_eq!(question(format!("A[{}].", inputs(&nine))), 0, "bound again");
    assert_eq!(
        question(format!("D(w,x,y,z)={}. A[stop].", inputs(&eight[..4]))),
        0
    );
    assert_eq!(
        question(format!("D(w,x,y,z)={}. A[stop].", inputs(&eight[..5]))),
        4
    );
    let (open, close) = ("in(c,0,", ",stop)".repeat(8));
    let in_q = format!("{open}a,{open}b,{open}c,{open}d,{open}e,{open}f,{open}g,{open}h,stop");
    let beside = format!("A[{in_q}{}|{open}i,stop,stop)].", close);
    assert_eq!(question(beside), 0, "siblings do not add up");
    let q = format!("A[{open}z,stop,{in_q}{close})].");
    assert_eq!(question(q), 0, "Q does not see y");
}

#[test]
fn each_limit_is_met_exactly() {
    for choice in 0..edges::LIMITS {
        let (at, past) = (
            question(edges::limit(choice, 0)),
            question(edges::limit(choice, 1)),
        );
        let expected = match choice {
            0 => (0, 1),
            1..=3 => (0, 3),
            10 => (6, 4),
            15..=17 => (0, 2),
            _ => (0, 4),
        };
        assert_eq!((at, past), expected, "limit {choice}");
    }
}

#[test]
fn questions_5_to_7_cover_definitions_that_are_never_called() {
    assert_eq!(question("D(x,x)=stop. A[stop]."), 5);
    assert_eq!(question("D=E. A[stop]."), 6);
    assert_eq!(question("D=go(0,x,stop). A[stop]."), 7);
}

#[test]
fn a_variable_is_not_bound_in_the_q_of_its_input() {
    assert_eq!(question("A[in(c,0,x,go(0,x,stop),stop)]."), 0);
    assert_eq!(question("A[in(c,0,x,stop,go(0,x,stop))]."), 7);
    assert_eq!(question("A[in(c,0,x,stop,stop)|go(0,x,stop)]."), 7);
    assert_eq!(question("D(x)=stop. E=go(0,x,stop). A[stop]."), 7);
}

#[test]
fn a_network_needs_a_located_process_and_an_end() {
    for text in [
        ".",
        "A=stop.",
        "A[stop]",
        "A[].",
        "A[stop]|.",
        "A[stop|].",
        "A[stop]. A[stop].",
    ] {
        assert_eq!(question(text), 2, "{text}");
    }
    assert_eq!(question("A[stop]. D=stop."), 2);
    assert_eq!(question("A[stop]|D=stop."), 2);
}

#[test]
fn limits_can_be_switched_off_but_not_the_other_questions() {
    let text = format!("D(a,b,c,d,e)=stop. A[{}].", nested(40, "stop"));
    let read = |text: &str| reading::read(text.as_bytes(), &Settings::all(1), Limits::Off);
    assert!(read(&text).is_ok());
    let unread = |text: &str| number(read(text));
    assert_eq!(unread("A[stop]"), 2);
    assert_eq!(unread("D=stop. D=stop. A[stop]."), 5);
    assert_eq!(unread(&format!("A[E]{}.", " ".repeat(70_000))), 6);
    assert_eq!(unread("A[go(0,x,stop)]."), 7);
}

// --- actions and ticks ---------------------------------------------------------

const PAIR: &str =
    "D=stop. A[out(c,1,A,stop,stop)|in(c,1,x,stop,stop)|in(d,1,x,stop,stop)|D|go(1,B,stop)]
    | B[in(c,1,x,stop,stop)] .";

#[test]
fn q_is_not_looked_at_for_kinds_1_and_2() {
    let network = read(PAIR);
    assert_eq!(act_number(&network, 1, 3, u32::MAX), 0);
    assert_eq!(act_number(&network, 2, 4, 6), 0);
}

#[test]
fn kind_and_positions_out_of_range_are_8() {
    let network = read(PAIR);
    for (kind, p, q) in [
        (0, 0, 0),
        (4, 0, 0),
        (u32::MAX, 0, 0),
        (1, 6, 0),
        (3, 0, 6),
        (3, 6, 1),
    ] {
        assert_eq!(act_number(&network, kind, p, q), 8, "{kind} {p} {q}");
    }
}

#[test]
fn wrong_forms_are_10_and_other_places_11() {
    let network = read(PAIR);
    assert_eq!(act_number(&network, 3, 0, 0), 10);
    assert_eq!(act_number(&network, 3, 1, 0), 10);
    assert_eq!(act_number(&network, 1, 0, 0), 10);
    assert_eq!(act_number(&network, 2, 3, 0), 10);
    assert_eq!(act_number(&network, 3, 0, 2), 11);
    assert_eq!(act_number(&network, 3, 0, 5), 11);
}

#[test]
fn marks_of_both_components_come_before_the_form_of_either() {
    let network = act(&read(PAIR), 1, 3, 0);
    assert_eq!(act_number(&network, 3, 1, 3), 9);
    assert_eq!(act_number(&network, 3, 3, 1), 9);
}

#[test]
fn a_location_number_is_in_range_below_the_networks_own_count() {
    let network = read("A[stop] | B[stop] .");
    assert_eq!(tick_number(&network, 1), 0);
    assert_eq!(tick_number(&network, 2), 8);
    assert_eq!(tick_number(&network, 63), 8);
    assert_eq!(number(engine().step(&network, 2, &mut [])), 8);
    assert_eq!(number(engine().proposal(&network, 2, &[])), 8);
}

#[test]
fn a_tick_where_nothing_stands_erases_that_locations_marks_elsewhere() {
    let network = act(&read("A[go(5,B,stop|stop)] ."), 2, 0, 0);
    assert_eq!(shown(&network), "B[A] stop | stop");
    assert_eq!(shown(&tick(&network, 1)), "B[A] stop | stop");
    assert_eq!(shown(&tick(&network, 0)), "B[] stop; B[] stop");
}

#[test]
fn the_owner_of_a_moves_mark_is_the_place_left() {
    assert_eq!(
        shown(&act(&read("A[go(0,B,stop)] ."), 2, 0, 0)),
        "B[A] stop"
    );
}

#[test]
fn the_tick_touches_only_what_was_ready_before_it() {
    let text = "A[in(c,0,x,stop,out(d,0,A,stop,stop)|go(0,B,stop)|go(3,B,stop))] .";
    let expected = "A[] out(d,0,A,stop,stop); A[] go(0,B,stop); A[] go(3,B,stop)";
    assert_eq!(shown(&tick(&read(text), 0)), expected);
    let moved = act(&read("A[go(0,A,in(c,5,x,stop,stop))] ."), 2, 0, 0);
    assert_eq!(shown(&tick(&moved, 0)), "A[] in(c,5,x,stop,stop)");
}

#[test]
fn what_another_location_has_marked_is_not_touched() {
    let network = act(
        &read("A[go(0,B,go(3,A,stop))] | B[go(3,A,stop)] ."),
        2,
        0,
        0,
    );
    assert_eq!(
        shown(&tick(&network, 1)),
        "B[A] go(3,A,stop); B[] go(2,A,stop)"
    );
}

#[test]
fn a_marked_component_of_several_parts_counts_as_one() {
    let network = act(
        &read("D=out(c,1,A,stop,stop)|in(c,1,x,stop,stop)|D. A[D] ."),
        1,
        0,
        0,
    );
    assert_eq!(network.components.len(), 1);
    assert_eq!(tick(&network, 0).components.len(), 3);
}

#[test]
fn a_split_goes_left_to_right_at_its_position() {
    let text = "D=go(1,A,stop)|go(2,A,stop). A[stop|D|stop] .";
    let network = tick(&act(&read(text), 1, 1, 0), 0);
    assert_eq!(
        shown(&network),
        "A[] stop; A[] go(1,A,stop); A[] go(2,A,stop); A[] stop"
    );
}

#[test]
fn a_pair_that_could_meet_stops_the_tick_whatever_its_timers() {
    for (sent, heard) in [
        ("0", "0"),
        ("0", "inf"),
        ("inf", "0"),
        ("inf", "inf"),
        ("3", "1"),
    ] {
        let text = format!("A[out(c,{sent},A,stop,stop)|in(c,{heard},x,stop,stop)].");
        assert_eq!(tick_number(&read(&text), 0), 12, "{text}");
    }
}

#[test]
fn a_ready_call_stops_the_tick() {
    assert_eq!(tick_number(&read("D=stop. A[D]."), 0), 12);
}

#[test]
fn a_move_above_zero_does_not_stop_the_tick() {
    assert_eq!(tick_number(&read("A[go(1,B,stop)|go(inf,B,stop)]."), 0), 0);
}

#[test]
fn a_tick_that_13_turns_down_is_not_forced() {
    let stops = many(255, "stop", "|");
    let network = act(&read(&format!("D=stop|stop. A[D|{stops}].")), 1, 0, 0);
    assert_eq!(tick_number(&network, 0), 13);
    assert_eq!(engine().forced(&network).set, 0);
    let stops = many(254, "stop", "|");
    let network = act(&read(&format!("D=stop|stop. A[D|{stops}].")), 1, 0, 0);
    assert_eq!(tick_number(&network, 0), 0, "256 are not too many");
}

#[test]
fn arguments_are_put_in_all_at_once() {
    let network = read("D(x,y)=D(y,x). A[D(B,C)].");
    assert_eq!(shown(&act(&network, 1, 0, 0)), "A[A] D(C,B)");
    let network = read("D(x,y)=in(c,0,x,D(x,y),D(y,x)). A[D(B,C)].");
    assert_eq!(
        shown(&act(&network, 1, 0, 0)),
        "A[A] in(c,0,x,D(x,C),D(C,B))"
    );
}

#[test]
fn an_outer_value_does_not_show_under_an_inner_binder() {
    let text = "A[out(c,1,B,stop,stop)|in(c,1,x,in(d,1,x,go(0,x,stop),go(0,x,stop)),stop)].";
    let network = tick(&act(&read(text), 3, 0, 1), 0);
    assert_eq!(
        written(&network),
        "A[stop] | A[in(d,1,x,go(0,x,stop),go(0,B,stop))] .\n"
    );
}

#[test]
fn a_channel_spelt_like_a_variable_is_not_replaced() {
    let text = "A[out(c,1,B,stop,stop)|in(c,1,c,out(c,1,c,stop,stop),stop)].";
    assert_eq!(
        shown(&act(&read(text), 3, 0, 1)),
        "A[A] stop; A[A] out(c,1,B,stop,stop)"
    );
}

// --- the other calls -------------------------------------------------------------

#[test]
fn a_steps_15_compares_its_actions_with_the_buffer() {
    let network = read("D=stop. A[D|D] | B[stop] .");
    let blank = Record::new(7, 7, 7);
    let mut one = [blank];
    assert_eq!(number(engine().step(&network, 0, &mut one)), 15);
    assert_eq!(one, [blank]);
    assert_eq!(number(engine().step(&network, 1, &mut [])), 0);
    let mut three = [blank; 3];
    assert_eq!(number(engine().step(&network, 0, &mut three)), 0);
    assert_eq!(three, [Record::new(1, 0, 0), Record::new(1, 1, 0), blank]);
}

#[test]
fn a_steps_15_comes_before_13_and_13_writes_no_record() {
    let stops = many(255, "stop", "|");
    let network = read(&format!("D=stop|stop. A[D|{stops}]."));
    let blank = Record::new(7, 7, 7);
    let mut lent = [blank; 2];
    assert_eq!(number(engine().step(&network, 0, &mut [])), 15);
    assert_eq!(number(engine().step(&network, 0, &mut lent)), 13);
    assert_eq!(lent, [blank; 2]);
}

#[test]
fn each_action_of_a_proposal_is_judged_on_what_those_before_it_left() {
    let network = read("D=D. A[D|go(5,B,stop)] | B[D] .");
    let proposal = |records: &[Record]| number(engine().proposal(&network, 0, records));
    let [first, second] = [Record::new(1, 0, 0), Record::new(2, 1, 0)];
    assert_eq!(proposal(&[first, second]), 0);
    assert_eq!(proposal(&[first]), 0);
    assert_eq!(proposal(&[]), 12);
    assert_eq!(proposal(&[first, first]), 9);
    assert_eq!(proposal(&[Record::new(1, 2, 0), Record::new(9, 9, 9)]), 16);
    assert_eq!(proposal(&[Record::new(9, 9, 9), Record::new(1, 2, 0)]), 8);
    assert_eq!(proposal(&[first, Record::new(2, 0, 0)]), 9);
    assert_eq!(proposal(&[second, Record::new(2, 2, 0)]), 10);
}

#[test]
fn a_steps_tick_erases_what_earlier_single_actions_marked() {
    let network = act(&read("A[go(5,B,stop|stop)] | B[stop] ."), 2, 0, 0);
    assert_eq!(shown(&stepped(&network, 0)), "B[] stop; B[] stop; B[] stop");
    let (closed, _) = engine()
        .proposal(&network, 0, &[])
        .expect("an allowed proposal");
    assert_eq!(shown(&closed), "B[] stop; B[] stop; B[] stop");
}

#[test]
fn same_compares_text_with_values_put_in() {
    let yes = |one: &str, other: &str| engine().same(&read(one), &read(other));
    assert!(yes("A[stop]|B[go(1,A,stop)].", "B[go(1,A,stop)]|A[stop]."));
    assert!(yes("D=stop.E=D.A[D].", "E=D.D=stop.A[D]."));
    assert!(!yes("A[in(c,1,x,stop,stop)].", "A[in(c,1,y,stop,stop)]."));
    assert!(!yes("D(x)=stop.A[stop].", "D(y)=stop.A[stop]."));
    assert!(!yes(
        "D=stop.A[go(1,A,stop|D)].",
        "D=stop.A[go(1,A,D|stop)]."
    ));
    assert!(!yes("A[stop].", "A[stop]|A[stop]."));
    assert!(!yes(
        "A[stop|stop|go(1,A,stop)].",
        "A[stop|go(1,A,stop)|go(1,A,stop)]."
    ));
    assert!(!yes("D=stop.A[stop].", "A[stop]."));
    let sent = |text: &str| tick(&act(&read(text), 3, 0, 1), 0);
    let one = sent("A[out(c,1,B,stop,stop)|in(c,1,x,stop,stop)].");
    let other = sent("A[out(d,1,C,stop,stop)|in(d,1,y,stop,stop)].");
    assert!(
        engine().same(&one, &other),
        "names that no longer occur do not count"
    );
    let marked = act(&read("A[go(1,A,stop)]."), 2, 0, 0);
    assert!(!engine().same(&marked, &read("A[stop].")), "owners count");
}

#[test]
fn write_prints_one_bracket_for_each_component() {
    let text = "D(x,y) = stop | go(0,x,stop) .\nA[stop] | A[D(A,B)] | B[out(c,inf,A,stop | stop,D(A,A))] .\n";
    assert_eq!(
        written(&read(
            &text.replace("A[stop] | A[D(A,B)]", "A[stop|D(A,B)]")
        )),
        text
    );
}

#[test]
fn write_refuses_a_mark_then_a_short_buffer_and_leaves_the_rest() {
    let network = read("A[go(1,A,stop)].");
    let mut lent = [b'#'; 20];
    assert_eq!(number(engine().write(&act(&network, 2, 0, 0), &mut [])), 14);
    assert_eq!(number(engine().write(&network, &mut lent[..17])), 15);
    assert_eq!(lent, [b'#'; 20]);
    assert_eq!(engine().write(&network, &mut lent), Ok(18));
    assert_eq!(&lent, b"A[go(1,A,stop)] .\n##");
}

#[test]
fn reading_what_was_written_gives_the_same_network() {
    let text = "D(x)=in(x,1,x,go(0,x,stop),go(inf,x,D(x))).A[D(B)|D(A)]|B[stop].";
    let network = stepped(&stepped(&read(text), 0), 1);
    assert!(engine().same(&read(&written(&network)), &network));
}

#[test]
fn the_forced_report_counts_and_names_the_lowest() {
    let network = read("D=stop. A[stop] | B[D] | C[go(0,A,stop)] .");
    let forced = engine().forced(&network);
    assert_eq!((forced.set, forced.count, forced.lowest), (0b110, 2, 1));
    let none = engine().forced(&read("A[stop]."));
    assert_eq!((none.set, none.count, none.lowest), (0, 0, 64));
}

#[test]
fn a_label_does_not_tell_a_call_from_a_move() {
    let network = read("B=stop. A[B|go(0,B,stop)].");
    assert_eq!(label(&network, 1, 0, 0), "B@A");
    assert_eq!(label(&network, 2, 1, 0), "B@A");
}

#[test]
fn a_communications_label_comes_at_its_outputs_turn() {
    let network = read("D=stop. A[in(c,1,x,stop,stop)|D|out(c,1,B,stop,stop)].");
    let (_, records, labels) = step(&network, 0);
    assert_eq!(labels, ["D@A", "c<B>@A"]);
    assert_eq!(records, [Record::new(1, 1, 0), Record::new(3, 2, 0)]);
}

#[test]
fn a_step_fires_each_component_of_its_pass_once() {
    let network = read("D=D. A[D|go(0,A,D)|go(1,A,D)].");
    let (after, records, _) = step(&network, 0);
    assert_eq!(records.len(), 2);
    assert_eq!(shown(&after), "A[] D; A[] D; A[] go(0,A,D)");
}

#[test]
fn write_has_no_limit_but_its_buffer() {
    let body = many(3_800, "stop", "|");
    let calls = many(200, "D", "|");
    let network = stepped(&read(&format!("D=in(c,inf,x,{body},stop).A[{calls}].")), 0);
    let text = written(&network);
    assert!(text.len() > 200 * 3_800 * 7);
    assert_eq!(
        number(engine().write(&network, &mut vec![0; text.len() - 1])),
        15
    );
    assert_eq!(question(&text), 1);
}

#[test]
fn a_refusal_leaves_the_network_as_it_was() {
    let network = read(PAIR);
    let before = network.clone();
    assert_eq!(act_number(&network, 3, 0, 2), 11);
    assert_eq!(tick_number(&network, 0), 12);
    let records = [Record::new(1, 3, 0), Record::new(9, 9, 9)];
    assert_eq!(number(engine().proposal(&network, 0, &records)), 8);
    assert_eq!(network, before);
}
