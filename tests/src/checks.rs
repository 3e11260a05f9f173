//! Unit tests of the model, of demand 3's check and of the streams.

use crate::books;
use crate::demand3::{check, sweep, Plain};
use crate::frames::{framed, nearest_hundredth, split, Answer, Field::*, Kind, Request};
use crate::frames::{ANGLES, NEW_ANGLES};
use crate::layout::*;
use crate::lent;
use crate::model::{survey, Desk};
use crate::streams::{self, Prng};
use crate::tally::Tally;
use crate::wrong::{self, Fault, FAULTS, NOT_OF_STREAMS};

/// The Add of the whole case, by any team.
fn first_add(team: i64) -> Request {
    let seen = [(Team, team), (P, 0), (R, 1 + team), (H, 0), (C, 0), (From, 1), (To, 2)];
    let mut add = Request::new(Kind::Add, &seen);
    set(&mut add, &[(Distance, 5_000), (Compass, 9_000), (Clino, -150)]);
    add
}

fn set(request: &mut Request, values: &[(crate::frames::Field, i64)]) {
    values.iter().for_each(|(field, value)| request.set(*field, *value));
}

fn asked(desk: &mut Desk, request: Request) -> Answer {
    desk.answer(&request.bytes())
}

/// What a fresh desk answers to the first Add with some fields changed.
fn fresh_answer(values: &[(crate::frames::Field, i64)]) -> Answer {
    let mut add = first_add(0);
    set(&mut add, values);
    asked(&mut Desk::fresh(), add)
}

/// All answers to a program's frames, wrong or not.
fn answers(fault: Fault, input: &[u8]) -> Vec<u8> {
    let mut desk = Desk::fresh();
    let answer = |frame| wrong::answer(fault, &mut desk, frame).bytes();
    split(input).into_iter().flat_map(answer).collect()
}

#[test]
fn the_whole_case() {
    let (input, output) = streams::whole_case();
    assert_eq!(survey(&input), output);
    let plain = check(&input, &output).unwrap().plain;
    assert_eq!((plain.newest(0), plain.count(0), plain.word(65)), (1, 1, 8_388_673));
}

#[test]
fn the_twelve_bench_examples() {
    let leg = Measure { distance: 5_000, compass: 9_000, clino: -150 };
    assert_eq!(leg.written(), 76_022_100_792_200, "1");
    assert_eq!(place(0, 1, 2), 8_388_673, "2");
    assert_eq!(newer_word(1_008), 4_095, "3, which \"becomes leg 1,008\"");
    let lowest = Measure { clino: -9_000, ..leg };
    assert_eq!(lowest.written(), 5_000 + 131_072 * 9_000, "4");
    assert_eq!(fresh_answer(&[(Clino, 9_001)]), Answer::Refused(10), "5");
    assert_eq!(fresh_answer(&[(Distance, 0)]), Answer::Refused(10), "6");
    assert_eq!(fresh_answer(&[(Distance, 100_000)]), Answer::Standing(5), "7");
    assert_eq!((position(&RANKS, 50), position(&RANKS, 0)), (0, 6), "8 and 9");
    example_ten();
    let strike = [(P, 0), (F, 1), (R, 1), (S, 0), (C, 1), (From, 1), (To, 2), (Distance, 1)];
    let strike = Request::new(Kind::Strike, &strike);
    assert_eq!(asked(&mut Desk::fresh(), strike), Answer::Refused(11), "11");
    example_twelve();
}

fn example_ten() {
    let mut desk = Desk::fresh();
    let mut add = first_add(0);
    add.set(C, 1);
    assert_eq!(asked(&mut desk, add), Answer::Standing(5));
    let got = [(); 4].map(|()| asked(&mut desk, Request::step(0)));
    let due = [Answer::Claimed(1), Answer::Found(1), Answer::Stale(1, 3), Answer::Refused(9)];
    assert_eq!(got, due, "10");
    assert_eq!(desk, Desk::fresh());
}

fn example_twelve() {
    let mut desk = Desk::fresh();
    asked(&mut desk, first_add(0));
    asked(&mut desk, first_add(1));
    assert_eq!(asked(&mut desk, Request::step(0)), Answer::Claimed(1));
    assert_eq!(asked(&mut desk, Request::step(1)), Answer::Waiting(0, 0));
    let rest = [(); 9].map(|()| asked(&mut desk, Request::step(0)));
    assert_eq!(rest[8], Answer::Granted(10));
    assert_eq!(asked(&mut desk, Request::step(1)), Answer::Stale(0, 2), "12");
}

#[test]
fn ranks_are_a_permutation_and_positions_differ() {
    let mut ranks = RANKS.to_vec();
    ranks.sort();
    assert_eq!(ranks, (0..32).collect::<Vec<i64>>());
    let mut positions: Vec<i64> = (0..WORDS).map(|word| position(&RANKS, word)).collect();
    positions.sort();
    assert_eq!(positions, (0..WORDS).collect::<Vec<i64>>());
}

#[test]
fn ten_goes_before_eleven_and_the_team_before_both() {
    assert_eq!(fresh_answer(&[(To, 1), (Clino, 9_001)]), Answer::Refused(10));
    assert_eq!(fresh_answer(&[(To, 1)]), Answer::Refused(11));
    assert_eq!(fresh_answer(&[(To, 1), (Clino, 9_001), (Team, 16)]), Answer::Refused(6));
    let mut desk = Desk::fresh();
    asked(&mut desk, first_add(0));
    let mut again = first_add(0);
    set(&mut again, &[(To, 1), (Clino, 9_001)]);
    assert_eq!(asked(&mut desk, again), Answer::Refused(8));
    assert_eq!(asked(&mut desk, Request::look(4_096)), Answer::Refused(10));
}

/// Says a request, then steps of its team till its ticket is gone; the last answer.
fn settled(desk: &mut Desk, opener: Request) -> Answer {
    let mut answer = asked(desk, opener);
    while desk.tickets.contains_key(&opener.team()) {
        answer = asked(desk, Request::step(opener.team()));
    }
    answer
}

#[test]
fn views_that_are_refused() {
    let refused = |view: Request| asked(&mut Desk::fresh(), view);
    let view = Request::view(0, &[7, 8]);
    assert_eq!(refused(view), Answer::Standing(2));
    let with = |values: &[(crate::frames::Field, i64)]| {
        let mut changed = view;
        set(&mut changed, values);
        refused(changed)
    };
    for n in [0, 1, 3, 7, 258, 65_535] {
        assert_eq!(with(&[(N, n)]), Answer::Refused(10), "n {n}");
    }
    assert_eq!(with(&[(Word2, 4_095)]), Answer::Standing(2));
    assert_eq!(with(&[(Word2, 4_096)]), Answer::Refused(10));
    assert_eq!(with(&[(Word2, 7)]), Answer::Refused(11));
    assert_eq!(with(&[(Word2, 7), (N, 3)]), Answer::Refused(10), "10 goes first");
    assert_eq!(with(&[(Word1, 65_535), (Word2, 65_535)]), Answer::Refused(10));
    assert_eq!(with(&[(Team, 16), (N, 0)]), Answer::Refused(6));
    let mut desk = Desk::fresh();
    asked(&mut desk, first_add(0));
    assert_eq!(asked(&mut desk, Request::view(0, &[9, 9])), Answer::Refused(8));
    asked(&mut desk, Request::view(1, &[9]));
    assert_eq!(asked(&mut desk, first_add(1)), Answer::Refused(8), "a view is a ticket too");
}

/// "Its length is even, 8 to 18".
#[test]
fn views_of_other_lengths() {
    for length in 2..=62 {
        let mut body = Request::view(3, &[1, 2, 3, 4, 5, 6]).bytes().split_off(4);
        body.resize(length - 2, 0);
        if length >= 6 {
            body[2] = (length as u8 - 6) / 2;
        }
        let answer = Desk::fresh().answer(&framed(7, &body));
        let right = [8, 10, 12, 14, 16, 18].contains(&length);
        let standing = Answer::Standing((length as i64 - 6) / 2);
        assert_eq!(answer, if right { standing } else { Answer::Refused(5) }, "{length}");
        assert_eq!(Desk::fresh().answer(&framed(8, &body)), Answer::Refused(4));
    }
}

#[test]
fn values_come_in_the_order_named() {
    let mut desk = Desk::fresh();
    settled(&mut desk, first_add(0));
    let (place, measure) = (8_388_673, 76_022_100_792_200);
    // Claimed are 50, 0, 65, 66: passage 25 has rank 0.
    let mut view = Request::view(3, &[66, 0, 65, 50]);
    assert_eq!(asked(&mut desk, view), Answer::Standing(4));
    let got = [(); 8].map(|()| asked(&mut desk, Request::step(3)));
    for k in 1..=4 {
        assert_eq!(got[k as usize - 1], Answer::Claimed(k));
    }
    assert_eq!(got[4..7], [1, 2, 3].map(Answer::Returned));
    assert_eq!(got[7], Answer::Seen(vec![measure, 1, place, 0]));
    assert_eq!(asked(&mut desk, Request::step(3)), Answer::Refused(9));
    view = Request::view(3, &[0, 50, 65, 66]);
    assert_eq!(settled(&mut desk, view), Answer::Seen(vec![1, 0, place, measure]));
}

#[test]
fn a_correction_lands_between_looks_but_not_in_a_view() {
    let mut desk = Desk::fresh();
    settled(&mut desk, first_add(0));
    let quoted = [(Team, 1), (R, 1), (From, 1), (To, 2), (Distance, 5_000), (Compass, 9_000)];
    let mut correct = Request::new(Kind::Correct, &quoted);
    set(&mut correct, &[(Clino, -150), (NewDistance, 1)]);
    let (old, new) = (correct.measure().written() as u64, correct.new_measure().written() as u64);
    // It has both its words; a look at the link goes through, and then it lands.
    asked(&mut desk, correct);
    (0..2).for_each(|_| drop(asked(&mut desk, Request::step(1))));
    assert_eq!(asked(&mut desk, Request::look(64)), Answer::Value(0));
    (0..2).for_each(|_| drop(asked(&mut desk, Request::step(1))));
    assert_eq!(asked(&mut desk, Request::look(66)), Answer::Value(new));
    // It is undone; now a view has the leg's place, and the correction waits for it.
    let mut undo = correct;
    set(&mut undo, &[(Distance, 1), (Compass, 0), (Clino, 0), (NewDistance, 5_000)]);
    set(&mut undo, &[(NewCompass, 9_000), (NewClino, -150)]);
    assert_eq!(settled(&mut desk, undo), Answer::Granted(4));
    asked(&mut desk, Request::view(2, &[66, 65, 64]));
    (0..2).for_each(|_| drop(asked(&mut desk, Request::step(2))));
    asked(&mut desk, correct);
    assert_eq!(asked(&mut desk, Request::step(1)), Answer::Waiting(65, 2));
    let rest = [(); 4].map(|()| asked(&mut desk, Request::step(2)));
    assert_eq!(rest[3], Answer::Seen(vec![old, 8_388_673, 0]));
    let last = [(); 4].map(|()| asked(&mut desk, Request::step(1)));
    assert_eq!(last[3], Answer::Granted(5), "2 x 2 and a wait");
}

#[test]
fn two_views_of_one_word() {
    let mut desk = Desk::fresh();
    for team in [4, 5] {
        assert_eq!(asked(&mut desk, Request::view(team, &[4_095])), Answer::Standing(1));
    }
    assert_eq!(asked(&mut desk, Request::step(4)), Answer::Claimed(1));
    assert_eq!(asked(&mut desk, Request::step(5)), Answer::Waiting(4_095, 4));
    assert_eq!(asked(&mut desk, Request::look(4_095)), Answer::Held);
    assert_eq!(asked(&mut desk, Request::step(4)), Answer::Seen(vec![0]));
    assert_eq!(asked(&mut desk, Request::step(5)), Answer::Claimed(1));
    assert_eq!(asked(&mut desk, Request::step(5)), Answer::Seen(vec![0]));
    assert_eq!(desk, Desk::fresh());
}

#[test]
fn an_output_of_52_bytes_is_enough() {
    let mut desk = Desk::fresh();
    let six = Request::view(0, &[1, 2, 3, 4, 5, 6]);
    asked(&mut desk, six);
    (0..11).for_each(|_| drop(asked(&mut desk, Request::step(0))));
    let (before, step) = (desk.clone(), Request::step(0).bytes());
    assert_eq!((desk.call(&step, &mut [0; 51]), &desk), (2, &before));
    assert_eq!(desk.call(&step, &mut [0; 52]), 52);
}

/// The first Add as a leg at some clino, by some compass.
fn steep_add(compass: i64, clino: i64) -> Request {
    let mut add = first_add(0);
    set(&mut add, &[(Compass, compass), (Clino, clino)]);
    add
}

/// An edit of that leg with old and new figures at its clino.
fn steep_edit(kind: Kind, old: i64, new: i64, clino: i64) -> Request {
    let leg = [(Team, 1), (R, 1), (C, 1), (From, 1), (To, 2), (Distance, 5_000)];
    let mut edit = Request::new(kind, &leg);
    set(&mut edit, &[(Compass, old), (Clino, clino)]);
    set(&mut edit, &[(NewDistance, 5_000), (NewCompass, new), (NewClino, clino)]);
    edit
}

/// "Two members wrote 0 and 18,000 for one shaft, and a correction came back stale."
#[test]
fn one_shaft_by_any_compass() {
    for (clino, word) in [(9_000, 154_618_822_661_000), (-9_000, 5_000)] {
        for (written, quoted) in [(0, 18_000), (18_000, 0), (18_000, 35_999), (35_999, 1)] {
            let mut desk = Desk::fresh();
            assert_eq!(settled(&mut desk, steep_add(written, clino)), Answer::Granted(10));
            assert_eq!(asked(&mut desk, Request::look(66)), Answer::Value(word));
            let correct = steep_edit(Kind::Correct, quoted, written, clino);
            assert_eq!(settled(&mut desk, correct), Answer::Granted(4));
            assert_eq!(asked(&mut desk, Request::look(66)), Answer::Value(word));
            let strike = steep_edit(Kind::Strike, quoted, 0, clino);
            assert_eq!(settled(&mut desk, strike), Answer::Granted(12));
            assert_eq!(desk, Desk::fresh());
        }
    }
}

#[test]
fn a_leg_just_not_plumb_keeps_its_compass() {
    for clino in [8_999, -8_999] {
        let mut desk = Desk::fresh();
        settled(&mut desk, steep_add(18_000, clino));
        let wrong = steep_edit(Kind::Correct, 0, 0, clino);
        assert_eq!(settled(&mut desk, wrong), Answer::Stale(66, 3));
        let wrong = steep_edit(Kind::Strike, 35_999, 0, clino);
        assert_eq!(settled(&mut desk, wrong), Answer::Stale(66, 9));
        let right = steep_edit(Kind::Correct, 18_000, 5, clino);
        assert_eq!(settled(&mut desk, right), Answer::Granted(4));
        assert!(
            matches!(asked(&mut desk, Request::look(66)), Answer::Value(bits) if bits >> 17 & 0xFFFF == 5)
        );
    }
}

/// "though its field must still be in range"
#[test]
fn a_plumb_compass_out_of_range_is_refused() {
    for clino in [9_000, -9_000] {
        let asked = |edit: Request| asked(&mut Desk::fresh(), edit);
        for compass in [36_000, 65_535] {
            assert_eq!(asked(steep_add(compass, clino)), Answer::Refused(10));
            for (old, new) in [(compass, 0), (0, compass)] {
                let correct = steep_edit(Kind::Correct, old, new, clino);
                assert_eq!(asked(correct), Answer::Refused(10));
            }
            assert_eq!(asked(steep_edit(Kind::Strike, compass, 0, clino)), Answer::Refused(10));
        }
        assert_eq!(asked(steep_add(35_999, clino)), Answer::Standing(5));
    }
}

#[test]
fn plumb_legs_read_with_compass_0_alone() {
    for clino in [9_000, -9_000] {
        let measure = |compass| Measure { distance: 5_000, compass, clino };
        let read = |compass| reading(8_388_673, measure(compass).written() as u64);
        assert_eq!(read(0).map(|leg| leg.measure), Some(measure(0)));
        for compass in [1, 500, 18_000, 35_999, 36_000] {
            assert_eq!(read(compass), None, "{compass} at {clino}");
        }
    }
}

/// "and the plain book alike": its own words, and its own success.
#[test]
fn the_plain_book_takes_a_plumb_compass_as_0() {
    let mut plain = Plain::fresh();
    assert!(plain.play(&steep_add(18_000, 9_000)));
    assert_eq!(plain.word(66), 154_618_822_661_000);
    assert!(plain.play(&steep_edit(Kind::Correct, 35_999, 7, 9_000)));
    assert_eq!(plain.word(66), 154_618_822_661_000);
    assert!(plain.list(0)[0].sound());
    plain.lists[0][0].measure.compass = 500;
    assert!(!plain.list(0)[0].sound());
}

/// The first Add in minutes.
fn minutes_add(team: i64, angles: [i64; 5]) -> Request {
    let mut add = first_add(team);
    add.kind = Kind::AddInMinutes;
    ANGLES.into_iter().zip(angles).for_each(|(field, angle)| add.set(field, angle));
    add
}

/// "rounded to the nearest hundredth of a degree, within a third of one; no half
/// occurs", and by the plain book's own rule alike.
#[test]
fn minutes_are_rounded_to_the_nearest_hundredth() {
    let some = [(0, 1, 2), (0, 2, 3), (0, 30, 50), (0, 59, 98), (90, 0, 9_000), (359, 59, 35_998)];
    for (degrees, minutes, hundredths) in some {
        assert_eq!(nearest_hundredth(degrees, minutes), hundredths);
    }
    for (degrees, minutes) in (0..360).flat_map(|d| (0..60).map(move |m| (d, m))) {
        let hundredths = nearest_hundredth(degrees, minutes);
        assert!((60 * hundredths - 100 * (60 * degrees + minutes)).abs() <= 20);
        let mut plain = Plain::fresh();
        assert!(plain.play(&minutes_add(0, [degrees, minutes, 1, degrees / 4, minutes])));
        let clino = -nearest_hundredth(degrees / 4, minutes);
        let due = Measure { distance: 5_000, compass: hundredths, clino };
        assert_eq!(plain.list(0)[0].measure, due, "{degrees} degrees {minutes} minutes");
    }
}

#[test]
fn the_whole_case_in_minutes() {
    let frame = streams::of_hex(
        "1E 00 11 00 00 00 00 00 01 00 00 00 00 00 01 00 02 00 88 13 00 00 5A 00 00 00 01 00 01 00 1E 00",
    );
    assert_eq!(frame, minutes_add(0, [90, 0, 1, 1, 30]).bytes());
    let (mut hundredths, mut minutes) = (Desk::fresh(), Desk::fresh());
    asked(&mut hundredths, first_add(0));
    assert_eq!(minutes.answer(&frame), Answer::Standing(5));
    assert_eq!(minutes, hundredths, "the same ticket");
}

#[test]
fn angles_in_minutes_at_and_past_their_limits() {
    let answer = |angles| asked(&mut Desk::fresh(), minutes_add(0, angles));
    for good in [[359, 59, 0, 89, 59], [0, 0, 1, 90, 0], [359, 59, 0, 90, 0], [0, 0, 1, 0, 0]] {
        assert_eq!(answer(good), Answer::Standing(5), "{good:?}");
        let mut muddled = minutes_add(0, good);
        muddled.set(To, 1);
        assert_eq!(asked(&mut Desk::fresh(), muddled), Answer::Refused(11));
    }
    let past = [[360, 0, 0, 0, 0], [0, 60, 0, 0, 0], [10, 60, 0, 10, 0], [0, 0, 2, 0, 0]];
    let clinos = [[0, 0, 0, 91, 0], [0, 0, 0, 10, 60], [0, 0, 0, 90, 1], [0, 0, 1, 90, 59]];
    let far = [[65_535, 0, 0, 0, 0], [0, 65_535, 0, 0, 0], [0, 0, 65_535, 0, 0]];
    for bad in past.into_iter().chain(clinos).chain(far) {
        assert_eq!(answer(bad), Answer::Refused(10), "{bad:?}");
        let mut muddled = minutes_add(0, bad);
        muddled.set(To, 1);
        assert_eq!(asked(&mut Desk::fresh(), muddled), Answer::Refused(10), "10 goes first");
        for angles in [ANGLES, NEW_ANGLES] {
            let mut correct = steep_edit(Kind::CorrectInMinutes, 0, 0, 0);
            assert_eq!(asked(&mut Desk::fresh(), correct), Answer::Standing(2));
            angles.into_iter().zip(bad).for_each(|(field, angle)| correct.set(field, angle));
            assert_eq!(asked(&mut Desk::fresh(), correct), Answer::Refused(10), "{bad:?}");
        }
    }
}

#[test]
fn kinds_and_lengths_around_those_in_minutes() {
    for kind in (0..=255).filter(|kind| ![17, 18].contains(kind) && !(1..=7).contains(kind)) {
        for length in [4, 24, 28, 30, 40] {
            let frame = framed(kind, &vec![0; length - 2]);
            assert_eq!(Desk::fresh().answer(&frame), Answer::Refused(4), "{kind} {length}");
        }
    }
    for (kind, right) in [(17, 30), (18, 40)] {
        for length in (2..=62).filter(|length| *length != right) {
            let frame = framed(kind, &vec![0; length - 2]);
            assert_eq!(Desk::fresh().answer(&frame), Answer::Refused(5), "{kind} {length}");
        }
        assert_eq!(Desk::fresh().answer(&framed(kind, &vec![0; right - 2])), Answer::Refused(10));
    }
}

/// "The edit then behaves as one in hundredths": two teams quote one leg in either form,
/// shafts and both zeros among them.
#[test]
fn a_leg_is_quoted_in_either_form() {
    for angles in [[12, 34, 1, 0, 30], [0, 1, 1, 0, 0], [200, 20, 0, 90, 0], [1, 2, 1, 90, 0]] {
        for minutes_first in [true, false] {
            let form = |edit: Request, minutes| if minutes { edit } else { edit.in_hundredths() };
            let mut desk = Desk::fresh();
            let added = minutes_add(0, angles);
            assert_eq!(settled(&mut desk, form(added, minutes_first)), Answer::Granted(10));
            let mut corrected = steep_edit(Kind::CorrectInMinutes, 0, 0, 0);
            for fields in [ANGLES, NEW_ANGLES] {
                fields.into_iter().zip(angles).for_each(|(at, angle)| corrected.set(at, angle));
            }
            // Up zero for down zero, and another compass for a shaft.
            if angles[3..] == [0, 0] {
                corrected.set(Sign, 0);
            }
            if angles[3] == 90 {
                corrected.set(CompassDegrees, 359);
            }
            for minutes in [!minutes_first, minutes_first] {
                assert_eq!(settled(&mut desk, form(corrected, minutes)), Answer::Granted(4));
            }
            let figures = added.in_hundredths().measure().taken().written() as u64;
            assert_eq!(asked(&mut desk, Request::look(66)), Answer::Value(figures));
        }
    }
}

/// No stream reads a leg or checks a book: the lent calls and the stored books do.
#[test]
fn other_readers_of_plumb_legs_are_told_by_readings_and_books() {
    let stored = books::stored();
    let right = books::answered(&stored, None).unwrap();
    let lent_calls = lent::stored();
    let told = lent::answered(&lent_calls, None);
    for fault in [Fault::PlumbReads, Fault::PlumbUnread] {
        assert_ne!(lent::answered(&lent_calls, Some(fault)), told, "{fault:?}");
        assert_ne!(books::answered(&stored, Some(fault)).unwrap(), right, "{fault:?}");
        let input = streams::plumb(5, 2_000);
        assert_eq!(answers(fault, &input), survey(&input));
    }
}

/// "and the check's scratch to 126 bytes"
#[test]
fn other_scratches_and_checks_of_newer_words_are_told_by_books() {
    let stored = books::stored();
    let right = books::answered(&stored, None).unwrap();
    let scratches = [Fault::ScratchOf168, Fault::ScratchOf127, Fault::ScratchOf125];
    let newer = [Fault::NewerUnchecked, Fault::UnusedNewerUnchecked, Fault::NewerChecksOlder];
    for fault in scratches.into_iter().chain(newer) {
        assert_ne!(books::answered(&stored, Some(fault)).unwrap(), right, "{fault:?}");
    }
}

/// The stored words of an edit, as targets.
fn stored_words(edit: &Request) -> Vec<i64> {
    crate::model::targets(edit, &RANKS).iter().map(|target| target.word).collect()
}

/// "Add 5 or 6, Correct 2, Strike 6 or 7, Move 7 to 9": by h and s, and never by f.
#[test]
fn numbers_of_targets() {
    let count = |kind, h: i64, f: i64, s: i64| {
        let mut edit = streams::a_fair_edit(kind);
        set(&mut edit, &[(H, h), (F, f), (S, s)]);
        stored_words(&edit).len()
    };
    for f in [0, 3] {
        assert_eq!([0, 6].map(|h| count(Kind::Add, h, f, 5)), [5, 6]);
        assert_eq!([0, 6].map(|h| count(Kind::AddInMinutes, h, f, 5)), [5, 6]);
        assert_eq!([0, 6].map(|h| count(Kind::Correct, h, f, 5)), [2, 2]);
        assert_eq!([0, 5].map(|s| count(Kind::Strike, 6, f, s)), [6, 7]);
        let moves = [(0, 0), (0, 5), (6, 0), (6, 5)].map(|(h, s)| count(Kind::Move, h, f, s));
        assert_eq!(moves, [7, 8, 8, 9]);
    }
}

/// A move with all its legs, by hand: 1 and 3 are the counts of passages 0 and 1, 2 the newest
/// leg of 1, 100 the link of 10, 1,263 the newer word of 300, 2,060 to 2,063 those of 500 but its
/// measure, 4,063 the newer word of 1,000.
#[test]
fn nine_targets_by_position() {
    let mut edit = Request::new(Kind::Move, &[(P, 0), (Q, 1), (F, 10), (R, 500), (S, 300)]);
    set(&mut edit, &[(H, 1_000), (C, 3), (D, 1), (From, 1), (To, 2)]);
    assert_eq!(stored_words(&edit), [1, 2, 3, 100, 1_263, 2_060, 2_061, 2_063, 4_063]);
}

/// Adds a first leg, and others on top of it.
fn chain_of(desk: &mut Desk, p: i64, legs: &[i64]) {
    for (count, leg) in legs.iter().enumerate() {
        let mut add = first_add(0);
        let h = if count == 0 { 0 } else { legs[count - 1] };
        set(&mut add, &[(P, p), (R, *leg), (H, h), (C, count as i64)]);
        let tries = if h == 0 { 10 } else { 12 };
        assert_eq!(settled(desk, add), Answer::Granted(tries));
    }
}

/// The newer words of legs.
fn newer_words(desk: &Desk, legs: &[i64]) -> Vec<u64> {
    legs.iter().map(|leg| desk.book[newer_word(*leg) as usize].bits()).collect()
}

#[test]
fn chains_run_both_ways() {
    let legs = [5, 9, 2, 1_008];
    let mut desk = Desk::fresh();
    chain_of(&mut desk, 3, &legs);
    assert_eq!(newer_words(&desk, &legs), [9, 2, 1_008, 0]);
    let of = [(Team, 0), (From, 1), (To, 2), (Distance, 5_000), (Compass, 9_000), (Clino, -150)];
    let mut strike = Request::new(Kind::Strike, &of);
    set(&mut strike, &[(P, 3), (F, 2), (R, 9), (S, 5), (C, 4)]);
    assert_eq!(settled(&mut desk, strike), Answer::Granted(14));
    assert_eq!(newer_words(&desk, &legs), [2, 0, 1_008, 0]);
    let mut moved = Request::new(Kind::Move, &of);
    set(&mut moved, &[(P, 3), (Q, 4), (F, 0), (R, 1_008), (S, 2), (C, 3), (H, 0), (D, 0)]);
    assert_eq!(settled(&mut desk, moved), Answer::Granted(16));
    assert_eq!(newer_words(&desk, &legs), [2, 0, 0, 0]);
    set(&mut moved, &[(F, 2), (R, 5), (S, 0), (C, 2), (H, 1_008), (D, 1)]);
    assert_eq!(settled(&mut desk, moved), Answer::Granted(16));
    assert_eq!(newer_words(&desk, &legs), [0, 0, 0, 5]);
    assert!(books::sound(&desk.book, None));
}

/// "Leg, link and count ranges shrink to match."
#[test]
fn ranges_of_legs_and_counts() {
    let answer = |kind, field, value| {
        let mut edit = streams::a_fair_edit(kind);
        edit.set(field, value);
        asked(&mut Desk::fresh(), edit)
    };
    for kind in [Kind::Add, Kind::Correct, Kind::Strike, Kind::Move] {
        let fair = streams::a_fair_edit(kind);
        for field in [F, R, S, H, C, D].into_iter().filter(|field| fair.form().contains(field)) {
            let counts = field == D || (field == C && kind == Kind::Add);
            let last = if counts { 1_007 } else { 1_008 };
            let least = i64::from(field == R || (field == C && !counts));
            assert!(matches!(answer(kind, field, last), Answer::Standing(_)), "{kind:?} {field:?}");
            assert!(matches!(answer(kind, field, least), Answer::Standing(_)));
            assert_eq!(answer(kind, field, last + 1), Answer::Refused(10), "{kind:?} {field:?}");
            assert_eq!(answer(kind, field, 1_344), Answer::Refused(10), "{kind:?} {field:?}");
        }
    }
    assert_eq!(asked(&mut Desk::fresh(), Request::look(4_095)), Answer::Value(0));
}

/// A view may name six words, and a lent one with more isn't well made; an edit may have nine.
#[test]
fn more_names_are_told_by_lent_calls() {
    let calls = lent::stored();
    let right = lent::answered(&calls, None);
    for fault in [Fault::NineNamed, Fault::SixTargets] {
        assert_ne!(lent::answered(&calls, Some(fault)), right, "{fault:?}");
    }
}

/// Two passages with a leg each, two tickets that move them across.
pub fn opposite_moves(p: i64, q: i64) -> Vec<u8> {
    let mut frames = Vec::new();
    for (team, passage) in [(0, p), (1, q)] {
        let mut add = first_add(team);
        add.set(P, passage);
        frames.push(add);
        frames.extend([Request::step(team); 10]);
    }
    for (team, from, to) in [(0, p, q), (1, q, p)] {
        let mut moved = Request::new(Kind::Move, &[(Team, team), (P, from), (Q, to)]);
        set(&mut moved, &[(R, 1 + team), (C, 1), (H, 2 - team), (D, 1), (From, 1), (To, 2)]);
        frames.push(moved);
    }
    frames.iter().flat_map(Request::bytes).collect()
}

#[test]
fn opposite_moves_do_not_block_each_other() {
    let mut rng = Prng::new(7);
    let mut blocked = 0;
    for (p, q) in (0..32).flat_map(|p| (0..32).map(move |q| (p, q))).filter(|(p, q)| p != q) {
        let mut input = opposite_moves(p, q);
        for turn in 0..60 {
            let team = if p < q { turn % 2 } else { rng.below(2) };
            input.extend(Request::step(team).bytes());
        }
        let output = survey(&input);
        let last = &split(&output)[24..];
        let ends: Vec<Answer> = last.iter().filter_map(|bytes| Answer::of_bytes(bytes)).collect();
        let granted = ends.iter().filter(|answer| matches!(answer, Answer::Granted(_))).count();
        let stale = ends.iter().filter(|answer| matches!(answer, Answer::Stale(..))).count();
        assert_eq!((granted, stale), (1, 1), "passages {p} and {q}");
        check(&input, &output).unwrap();
        let listing = answers(Fault::ListingOrder, &input);
        blocked += i32::from(split(&listing).last().unwrap()[2] == 130);
    }
    assert!(blocked > 100, "claiming in listing order blocks: {blocked}");
}

#[test]
fn a_stream_ends_as_the_paper_says() {
    let refused = Answer::Refused(3).bytes();
    assert_eq!(survey(&[]), []);
    assert_eq!(survey(&[4]), refused);
    assert_eq!(survey(&[0, 0]), refused);
    assert_eq!(survey(&[1, 0, 9, 0, 0]), refused.repeat(2));
    assert_eq!(survey(&[4, 0, 6, 0, 0]), refused);
    assert_eq!(survey(&[63, 0, 2, 0, 0, 0]), refused);
    let longest = [&[62, 0, 6, 0][..], &[0; 60]].concat();
    assert_eq!(survey(&longest), Answer::Refused(5).bytes());
}

#[test]
fn demand_three_holds_on_small_streams() {
    for seed in 0..40 {
        let input = [streams::fuzz(seed, 400), sweep()].concat();
        check(&input, &survey(&input)).unwrap();
    }
}

/// A wrong answer in place of a right one, if it is of the kind to be planted.
fn planted(answer: Answer, which: usize) -> Option<Answer> {
    match (answer, which) {
        (Answer::Granted(tries), 0) => Some(Answer::Stale(0, tries)),
        (Answer::Granted(tries), 1) => Some(Answer::Granted(tries + 1)),
        (Answer::Stale(_, tries), 2) => Some(Answer::Granted(tries)),
        (Answer::Stale(word, tries), 3) => Some(Answer::Stale(word, tries - 1)),
        (Answer::Value(bits), 4) => Some(Answer::Value(bits + 1)),
        (Answer::Value(_), 5) => Some(Answer::Held),
        (Answer::Held, 6) => Some(Answer::Value(1 << 63)),
        (Answer::Found(word), 7) => Some(Answer::Found(word + 1)),
        (Answer::Claimed(5), 8) => Some(Answer::Found(0)),
        (Answer::Waiting(..), 9) => Some(Answer::Refused(9)),
        (Answer::Seen(values), 10) => {
            let rest = &values[1..];
            Some(Answer::Seen([&[values[0] + 1], rest].concat()))
        }
        (Answer::Seen(mut values), 11) if values.iter().any(|value| *value != values[0]) => {
            values.rotate_left(1);
            Some(Answer::Seen(values))
        }
        (Answer::Seen(values), 12) => Some(Answer::Returned(values.len() as i64)),
        (Answer::Seen(_), 13) => Some(Answer::Granted(2)),
        (Answer::Returned(_), 14) => Some(Answer::Seen(vec![0])),
        (Answer::Waiting(word, team), 15) => Some(Answer::Waiting(word, (team + 1) % TEAMS)),
        (Answer::Waiting(word, _), 16) => Some(Answer::Waiting(word, NOBODY)),
        (Answer::Waiting(word, team), 17) => Some(Answer::Waiting(word + 1, team)),
        (Answer::Claimed(_), 18) => Some(Answer::Waiting(0, 0)),
        _ => None,
    }
}

/// Whether the step at an index is one of an edit that ends.
fn is_of_edit(frames: &[&[u8]], answers: &[Vec<u8>], at: usize) -> bool {
    let later = (at..answers.len()).filter(|i| frames[*i] == frames[at]);
    let last = later.filter_map(|i| Answer::of_bytes(&answers[i]));
    let mut last = last.filter(|answer| matches!(answer.number(), 134 | 135 | 139));
    last.next().is_some_and(|answer| !matches!(answer, Answer::Seen(_)))
}

#[test]
fn demand_three_notices_planted_faults() {
    let input = streams::contention(3, 6_000);
    let right: Vec<Vec<u8>> = split(&survey(&input)).iter().map(|bytes| bytes.to_vec()).collect();
    let frames = split(&input);
    for which in 0..19 {
        let fits = |bytes: &[u8]| planted(Answer::of_bytes(bytes)?, which);
        // A wait passed over is noticed by tries, which a view doesn't tell.
        let told = |i: &usize| which != 9 || is_of_edit(&frames, &right, *i);
        let places = (0..right.len()).filter(|i| fits(&right[*i]).is_some()).filter(told);
        let places: Vec<usize> = places.collect();
        assert!(places.len() > 10, "fault {which} has {} places", places.len());
        for at in places.iter().take(10) {
            let mut answers = right.clone();
            answers[*at] = fits(&right[*at]).unwrap().bytes();
            assert!(check(&input, &answers.concat()).is_err(), "fault {which} at {at}");
        }
    }
}

#[test]
fn demand_three_tells_wrong_programs_apart() {
    let inputs = [streams::minutes(5, 20_000), streams::plumb(4, 0)];
    let mut otherwise = Vec::new();
    for (name, fault) in FAULTS {
        let noticed = inputs.iter().any(|input| check(input, &answers(fault, input)).is_err());
        // A Strike of f = r only waits, for itself. "A step that says Waiting while
        // the word is free: only demand 2's step rule stops it, as demand 3 holds for
        // it", but it names a holder that the word hasn't.
        // Refusals are passed over.
        let kept = [Fault::StrikesItself, Fault::Late].contains(&fault)
            || [Fault::PlumbRangeSkipped, Fault::PlumbRefused].contains(&fault)
            || [Fault::DownZeroRefused, Fault::SixtyMinutesPass].contains(&fault)
            || [Fault::SignTwoIsDown, Fault::NinetyAndMinutes].contains(&fault)
            || [Fault::KindsBetweenKnown, Fault::MinutesUnknownByLength].contains(&fault)
            || [Fault::AnglesAfterStations, Fault::SixTargets].contains(&fault)
            || fault == Fault::LegsTo1344
            || NOT_OF_STREAMS.contains(&fault);
        if noticed == kept {
            otherwise.push(name);
        }
    }
    assert!(otherwise.is_empty(), "noticed or not: {otherwise:?}");
}

#[test]
fn reading_is_the_inverse_of_writing() {
    let leg = reading(8_388_673, 76_022_100_792_200).unwrap();
    assert_eq!((leg.p, leg.from, leg.to, leg.measure.clino), (0, 1, 2, -150));
    let good = leg.measure.written() as u64;
    for bad_place in [0, 1, place(32, 1, 2) as u64, place(0, 7, 7) as u64, 1 << 63, 1 << 40] {
        assert_eq!(reading(bad_place, good), None, "place {bad_place}");
    }
    for bad in [0, good - 5_000, good + (1 << 34) * 9_000, u64::MAX, good - 5_000 + 100_001] {
        assert_eq!(reading(8_388_673, bad), None, "measure {bad}");
    }
}

#[test]
fn the_lent_calls_are_as_stored() {
    let input = include_bytes!("../../crates/lent/stdin");
    lent::check(input, include_str!("../../crates/lent/stdout")).unwrap();
}

/// No stream has such a mark, but both edits and views are lent one.
#[test]
fn a_mark_of_sixteen_is_told_by_lent_calls() {
    let told = lent::answered(&lent::stored(), Some(Fault::SixteenNamed));
    let waits = "returns 8 : 06 00 82 00 07 00 10 00";
    assert_eq!(told.lines().filter(|line| line.starts_with(waits)).count(), 2);
    let input = streams::fuzz(5, 2_000);
    assert_eq!(answers(Fault::SixteenNamed, &input), survey(&input));
}

/// "the team is the mark less 2^63 if that is below 16, else 65,535"
#[test]
fn waiting_names_the_holder() {
    let mark = |above: u64| (1 << 63) + above;
    let cases = [
        (mark(0), 0),
        (mark(9), 9),
        (mark(15), 15),
        (mark(16), 65_535),
        (mark(65_535), 65_535),
        (mark(65_536), 65_535),
        (mark((1 << 32) + 3), 65_535),
        (u64::MAX, 65_535),
    ];
    for opener in [first_add(5), Request::view(5, &[0])] {
        for (bits, holder) in cases {
            let mut desk = Desk::fresh();
            asked(&mut desk, opener);
            desk.book[0] = Word::of_bits(bits);
            let answer = asked(&mut desk, Request::step(5));
            assert_eq!(answer, Answer::Waiting(0, holder), "{bits}");
            assert_eq!(desk.book[0].bits(), bits);
            let bytes = [&[6, 0, 130, 0, 0, 0], &(holder as u16).to_le_bytes()[..]].concat();
            assert_eq!((answer.bytes(), Answer::of_bytes(&bytes)), (bytes, Some(answer)));
        }
    }
    assert_eq!(Answer::of_bytes(&[4, 0, 130, 0, 0, 0]), None, "the form without a team");
}

/// Three teams in a row, an edit, a view and an edit: each names the one before it.
#[test]
fn edits_and_views_wait_for_each_other() {
    let mut desk = Desk::fresh();
    asked(&mut desk, first_add(15));
    asked(&mut desk, Request::step(15));
    asked(&mut desk, Request::view(7, &[0, 50]));
    assert_eq!(asked(&mut desk, Request::step(7)), Answer::Claimed(1));
    assert_eq!(asked(&mut desk, Request::step(7)), Answer::Waiting(0, 15));
    let mut add = first_add(3);
    add.set(P, 25);
    asked(&mut desk, add);
    assert_eq!(asked(&mut desk, Request::step(3)), Answer::Waiting(50, 7));
}

#[test]
fn the_stored_stream_reaches_everything() {
    let input = streams::stored();
    let mut tally = Tally::default();
    tally.add(&input, &survey(&input));
    tally.complete(true).unwrap();
}

/// The stored files alone tell every fault that a stream can tell, but late answers.
#[test]
fn the_stored_stream_tells_wrong_programs_apart() {
    let input = streams::stored();
    let right = survey(&input);
    for (name, fault) in FAULTS {
        let same = fault == Fault::Late || NOT_OF_STREAMS.contains(&fault);
        assert_eq!(answers(fault, &input) == right, same, "{name}");
    }
}

/// Moves between passages whose ranks rise as their numbers fall: by word number the
/// first claim is another word.
#[test]
fn the_stored_stream_has_crossing_moves() {
    let input = streams::stored();
    let moves = |(p, q): (i64, i64)| {
        let opened = split(&input).into_iter().filter_map(|frame| crate::frames::parse(frame).ok());
        let mut opened = opened.filter(|edit| edit.kind == Kind::Move);
        opened.any(|edit| (edit.get(P), edit.get(Q)) == (p, q))
    };
    for (p, q) in [(0, 25), (12, 31)] {
        assert!(p < q && RANKS[p as usize] > RANKS[q as usize]);
        assert!(moves((p, q)) && moves((q, p)), "passages {p} and {q}");
    }
}

#[test]
fn an_edit_that_fails_leaves_the_plain_book() {
    let mut plain = Plain::fresh();
    assert!(plain.play(&first_add(0)));
    let before = plain.clone();
    assert!(!plain.play(&first_add(1)), "h and c are outdated");
    assert_eq!(plain, before);
}
