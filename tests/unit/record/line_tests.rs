//! Lines of steps.

use crate::fixtures::is_same;
use iiif_records::{Step, class_word, push_line, push_step};
use iiif_tables::Class;
use std::alloc::Global;

/// A step of a key of four bytes.
fn step(words: &str, ticket: Option<u64>) -> Step<'_> {
    Step {
        words,
        class: Class::Wide,
        ticket,
        key: &[0, 1, 0xab, 0xff],
    }
}

/// The line of a step, behind the number of a pass.
fn line(alloc: Global, pass: u64, step: &Step<'_>) -> Option<String> {
    let mut text = String::new(alloc);
    push_line(&mut text, pass, step).ok()?;
    Some(text)
}

#[test]
fn line_has_the_pass_and_the_step(rt: HostRuntime) {
    let alloc = rt.alloc();
    let hit = line(alloc, 17, &step("hit", Some(12)));
    assert!(rt; hit.is_some_and(|text| text.as_str() == "17 hit wide 12 0001abff\n"));
    let serves = line(alloc, 3, &step("serves", None));
    assert!(rt; serves.is_some_and(|text| text.as_str() == "3 serves wide 0001abff\n"));
    let mut text = String::new(alloc);
    assert!(rt; push_step(&mut text, &step("joins", Some(7))).is_ok());
    assert!(rt; text.as_str() == "joins wide 7 0001abff");
    assert!(rt; is_same(&class_word(Class::Local), &"local"));
}
