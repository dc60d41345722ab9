//! Texts that strain a reader: the right number, and no crash on the small
//! stack of a test thread.

mod common;
use common::*;
use timo_reference::deep::on_big_stack;
use timo_reference::generate::{edges, faults, hostile};
use timo_reference::reading::{self, Limits};
use timo_reference::term::Settings;
use timo_reference::writing;

#[test]
fn each_hostile_text_gets_its_number() {
    for hostile in hostile::all() {
        assert_eq!(question(&hostile.text), hostile.number, "{}", hostile.name);
    }
    let expected = [2, 3, 4, 4, 4, 6, 4, 2, 2, 2];
    for (choice, number) in expected.into_iter().enumerate() {
        assert_eq!(question(edges::hostile(choice)), number, "text {choice}");
    }
}

#[test]
fn every_limit_can_be_met_at_once() {
    let all = hostile::all();
    let full = all.last().expect("a text");
    let network = engine()
        .read(&full.text, &Settings::all(1))
        .expect("a text within the limits");
    assert_eq!(full.text.len(), 65_535);
    assert_eq!(network.components.len(), 256);
    assert_eq!(network.script.definitions.len(), 32);
    assert_eq!(network.script.locations.len(), 64);
    assert_eq!(network.script.channels.len(), 64);
    let one_part_more =
        String::from_utf8_lossy(&full.text).replacen("|stop|stop)]", "|stop|stop|stop)]", 1);
    assert_eq!(question(&one_part_more[..65_535]), 4);
}

#[test]
fn each_fault_gives_its_number() {
    for fault in faults::all() {
        assert_eq!(
            question(faults::text(&[&fault])),
            fault.number,
            "{}",
            fault.name
        );
    }
    assert_eq!(question(faults::text(&[])), 0);
}

#[test]
fn of_two_faults_the_lower_number_is_given() {
    let all = faults::all();
    let pairs = all
        .iter()
        .flat_map(|one| all.iter().map(move |other| (one, other)));
    for (one, other) in pairs.filter(|(one, other)| one.number != other.number) {
        let lower = one.number.min(other.number);
        let answer = question(faults::text(&[one, other]));
        assert_eq!(answer, lower, "{} and {}", one.name, other.name);
    }
}

/// Under edition 2 the numbers are the same, and under none 21 comes first.
#[test]
fn the_edition_is_asked_before_any_fault() {
    let hostile = hostile::all();
    let hostile = hostile.iter().map(|text| (text.text.clone(), text.number));
    let all = faults::all();
    let faulty = all.iter().map(|one| (faults::text(&[one]), one.number));
    for (text, number) in hostile.chain(faulty) {
        assert_eq!(question_under(2, &text), number);
        for edition in [0, 3, 21, 256 + 1, 65_536 + 2, u32::MAX] {
            assert_eq!(question_under(edition, &text), 21, "edition {edition}");
        }
    }
}

#[test]
fn every_byte_alone_and_doubled_is_2() {
    for byte in 0..=255u8 {
        assert_eq!(question([byte]), 2);
        assert_eq!(question([byte; 2]), 2);
        assert_eq!(question([byte; 65_535]), 2);
        assert_eq!(question([byte; 65_536]), 1);
    }
}

#[test]
fn every_beginning_of_a_text_is_2() {
    let text = "Page(x) = go(0,x,out(c,1,x,stop,stop)) .\nA[Page(B)] | B[in(c,2,y,stop,stop)] .";
    for end in 0..text.len() {
        assert_eq!(question(&text[..end]), 2, "{end}");
    }
    assert_eq!(question(text), 0);
}

#[test]
fn deep_terms_read_without_limits_are_dropped_on_a_small_stack() {
    let text = format!("A[{}stop{}].", "go(0,A,".repeat(50_000), ")".repeat(50_000));
    let read = || {
        let read = reading::read(text.as_bytes(), &Settings::all(1), Limits::Off);
        read.expect("a text of the form")
    };
    drop(read());
    let length = on_big_stack(|| {
        let network = read();
        writing::network(&network.clone()).len()
    });
    assert_eq!(length, text.len() + 2);
}
