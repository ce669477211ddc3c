//! The role of an event as bytes, and the role that the session looks in (CR 6).

mod common;

use common::*;
use reference::event::{
    self, leaf_columns, with_role, without_role, Event, ACTION_COLUMNS, EVENT, EVENT_BEFORE, PATH_COLUMNS, ROLE_COLUMNS,
};
use reference::generate::touches::NO_ROLES;
use reference::limits::LEAVES;
use reference::role_edges;
use reference::rules::Rules;
use reference::session;
use reference::slips::Slip;

/// An editor of role 1 with two touches beside one of role 2 with one, and a shown value: lists of one entry, one and none.
fn three() -> Sheet {
    let mut sheet = numbers();
    let (one, two) = (sheet.empty(), sheet.empty());
    let (first, second) = (sheet.gate(1, one, 2), sheet.gate(2, two, 1));
    let both = sheet.row(46, first, second, 0);
    let shown = sheet.shown(5);
    sheet.row(46, both, shown, 0);
    sheet
}

/// The role whose list a screen of [`three`] at its start shows: role 1's is path 11, role 2's is path 12.
fn shown_to(screen: &Screen) -> u32 {
    match &screen.entries[..] {
        [one] if one == "11 1 3 0 0 0 0 0 0 0" => 1,
        [one] if one == "12 1 3 0 0 0 0 0 0 0" => 2,
        [] => 3,
        other => panic!("{other:?}"),
    }
}

#[test]
fn the_figures() {
    assert_eq!((EVENT, EVENT_BEFORE), (117, 115));
    assert_eq!((ROLE_COLUMNS, PATH_COLUMNS, ACTION_COLUMNS), (0..2, 2..18, 18..20));
    assert_eq!((leaf_columns(0), leaf_columns(LEAVES - 1)), (20..32, 104..116));
    let text = String::from_utf8(by(7, value("21", -3))).expect("text");
    assert_eq!(text, format!(" 7              21 1          -3{}\n", "           0".repeat(7)));
    // What an event was before, with a role in front of it.
    let before = without_role(text.as_bytes());
    assert_eq!((before.len(), [b" 7", &before[..]].concat()), (115, text.into_bytes()));
}

/// 1 to 8 by the field rule; whatever else is no role.
#[test]
fn roles_as_they_are_read() {
    let read = |text: &str| Event::read(&with_role(text, value("", 5)), Slip::None).map(|event| event.role);
    for role in 1..=8 {
        assert_eq!(read(&role.to_string()), Some(role));
    }
    for text in NO_ROLES.into_iter().chain(["00", "08", "8 ", "18", "99", " x", "+8", "-0", "-8", "\t", "\0", "\n"]) {
        assert_eq!(read(text), None, "{text:?}");
    }
    // Every byte in front of a digit, and every byte alone.
    for byte in 0..=u8::MAX {
        let mut event = value("", 5);
        event[0] = byte;
        assert_eq!(Event::read(&event, Slip::None).is_some(), byte == b' ', "{byte} in front");
        event[..2].copy_from_slice(&[b' ', byte]);
        assert_eq!(Event::read(&event, Slip::None).is_some(), (b'1'..=b'8').contains(&byte), "{byte} alone");
    }
}

/// A bad role gets 8, and is followed by a look in role 1, whatever role was looked in before.
#[test]
fn a_bad_role_is_followed_by_role_1() {
    for text in NO_ROLES {
        let bad = with_role(text, value("11", 5));
        let screens = screens(&three(), &[by(2, go_on("11")), bad, by(3, go_on(""))]);
        let answers: Vec<i32> = screens.iter().map(|screen| screen.answer).collect();
        assert_eq!(answers, [0, 9, 8, 9], "{text:?}");
        assert_eq!(screens.iter().map(shown_to).collect::<Vec<_>>(), [1, 2, 1, 3], "{text:?}");
    }
}

/// A good role is looked in, whatever the answer: 0, 8 for anything else that is wrong, 9, 30 and 31.
#[test]
fn a_good_role_is_looked_in() {
    let mut bad_leaf = value("", 5);
    bad_leaf[leaf_columns(3)].fill(b'x');
    let mut unended = value("", 5);
    unended[EVENT - 1] = b' ';
    let wrong = [event::write("", 7, [0; LEAVES]), value("3", 5), event::write("", 2, padded(&[1])), bad_leaf, unended];
    for event in wrong {
        for role in [1, 2, 3] {
            let screen = last_screen(&three(), &[by(role, event.clone())]);
            assert_eq!((screen.answer, shown_to(&screen)), (8, role));
        }
    }
    for (role, path, answer) in [(1, "1", 9), (2, "", 9), (3, "2", 9), (2, "11", 30), (1, "12", 30), (3, "11", 30)] {
        let screen = last_screen(&three(), &[by(role, value(path, 1))]);
        assert_eq!((screen.answer, shown_to(&screen)), (answer, role));
    }
    let touches = [by(2, value("12", 1)), by(2, value("12", 1)), by(1, value("12", 1)), by(8, value("11", 1))];
    let screens = screens(&three(), &touches);
    let seen: Vec<(i32, usize)> = screens.iter().map(|screen| (screen.answer, screen.entries.len())).collect();
    assert_eq!(seen, [(0, 1), (0, 0), (31, 0), (30, 1), (30, 0)]);
}

/// 1 to 116 bytes left over at the end are looked at in role 1, also where two of them are a role.
#[test]
fn bytes_left_over() {
    for length in 1..EVENT {
        let short = by(2, value("12", 5))[..length].to_vec();
        let screens = screens(&three(), &[by(2, go_on("")), short]);
        assert_eq!(screens.iter().map(|screen| screen.answer).collect::<Vec<_>>(), [0, 9, 8], "{length} bytes");
        assert_eq!(screens.iter().map(shown_to).collect::<Vec<_>>(), [1, 2, 1], "{length} bytes");
    }
}

/// An event of 115 bytes, as events were: 8 at the end, and out of step in front of others.
#[test]
fn events_without_a_role() {
    let old = without_role(&value("11", 5));
    let answers = |events: &[Vec<u8>]| answers_after_start(&three().text(), events);
    assert_eq!(answers(std::slice::from_ref(&old)), [8]);
    assert_eq!(answers(&[value("11", 5), old.clone()]), [0, 8]);
    assert_eq!(answers(&[old.clone(), value("11", 5)]), [8, 8]);
    assert_eq!(answers(&vec![old; 4]), [8; 4]);
}

/// The value, the flags and the answer are the same whoever looks; the head line says how many entries the role has.
#[test]
fn the_screen_but_for_its_list() {
    let sheet = three();
    let given = [value("11", 5), by(2, value("12", 6))];
    let heads: Vec<Screen> = (1..=8)
        .map(|role| {
            let screen = last_screen(&sheet, &[&given[..], &[by(role, go_on(""))]].concat());
            Screen { entries: vec![], ..screen }
        })
        .collect();
    assert!(heads.iter().all(|head| *head == heads[0]));
    assert_eq!((heads[0].answer, heads[0].value, heads[0].failing), (9, Some(padded(&[5, 6, 5])), false));
}

/// The edges are told apart by their names, are among those that programs are compared on, and catch every slip about roles
/// and touches alone.
#[test]
fn edges_of_roles() {
    let inputs = role_edges::inputs();
    assert_among_edges(&inputs);
    let about_roles = [
        Slip::RoleZero,
        Slip::RoleNine,
        Slip::Touches100,
        Slip::GateIsMark,
        Slip::SpentFails,
        Slip::SpentHasNoValue,
        Slip::TouchesAnew,
        Slip::NoTouchUsed,
        Slip::OutermostTouchUsed,
        Slip::InnermostTouchUsed,
        Slip::RefusedTouchUsed,
        Slip::RefusedStepTaken,
        Slip::OutermostGateAsked,
        Slip::InnermostGateAsked,
        Slip::TouchesAskedFirst,
        Slip::RoleAskedFirst,
        Slip::ContinueAsksA,
        Slip::PickUsesTouch,
        Slip::ListForAnyone,
        Slip::SpentListed,
        Slip::InnermostGateLists,
        Slip::EventsWithoutRole,
        Slip::EventWithoutRoleRead,
        Slip::RoleZeroRead,
        Slip::RoleNineRead,
        Slip::BlankRoleIsOne,
        Slip::LooksInRoleOne,
        Slip::LooksInRoleOneAfterEight,
        Slip::LooksInRoleOneAfterRefusal,
        Slip::LooksInRoleOfShort,
        Slip::KeepsRoleAfterEight,
    ];
    let screens =
        |rules: Rules| -> Vec<Vec<u8>> { inputs.iter().map(|(_, input)| session::screens(input, rules)).collect() };
    let own = screens(Rules::default());
    for slip in about_roles {
        let caught = screens(Rules::slipping(slip)).iter().zip(&own).filter(|(one, other)| one != other).count();
        println!("{slip:?}: {caught}");
        assert!(caught > 0, "{slip:?}");
    }
}
