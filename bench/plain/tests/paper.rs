//! The paper's examples and every refusal, put to a whole program: the plain
//! one, or the one that the variable PROGRAM names.

use std::io::{Read, Write};
use std::process::{Child, Command, Stdio};

fn start() -> Child {
    let program = std::env::var("PROGRAM").unwrap_or(env!("CARGO_BIN_EXE_plain").to_string());
    Command::new(program)
        .stdin(Stdio::piped())
        .stdout(Stdio::piped())
        .spawn()
        .expect("the program starts")
}

fn answers(input: &[u8]) -> Vec<u8> {
    let mut child = start();
    let mut stdin = child.stdin.take().unwrap();
    let input = input.to_vec();
    // A program that stops early may close its input.
    let writer = std::thread::spawn(move || drop(stdin.write_all(&input)));
    let mut output = Vec::new();
    child
        .stdout
        .take()
        .unwrap()
        .read_to_end(&mut output)
        .unwrap();
    writer.join().unwrap();
    assert!(child.wait().unwrap().success());
    output
}

fn frame(fields: &[u16]) -> Vec<u8> {
    let mut bytes = (2 * fields.len() as u16).to_le_bytes().to_vec();
    fields
        .iter()
        .for_each(|field| bytes.extend(field.to_le_bytes()));
    bytes
}

fn step(team: u16) -> Vec<u8> {
    frame(&[5, team])
}

fn look(word: u16) -> Vec<u8> {
    frame(&[6, word])
}

fn value(value: u64) -> Vec<u8> {
    frame(&[
        136,
        value as u16,
        (value >> 16) as u16,
        (value >> 32) as u16,
        (value >> 48) as u16,
    ])
}

fn granted(tries: u16) -> Vec<u8> {
    frame(&[134, tries, 0])
}

fn stale(word: u16, tries: u16) -> Vec<u8> {
    frame(&[135, word, tries, 0])
}

fn refused(number: u16) -> Vec<u8> {
    frame(&[138, number])
}

/// Distance 5,000, compass 9,000, clino -150.
const M: [u16; 4] = [5_000, 0, 9_000, -150i16 as u16];
const MEASURE: u64 = 76_022_100_792_200;
/// Distance 100,000, compass 35,999, clino 9,000: a plumb leg, with compass 0 in the book.
const M2: [u16; 4] = [34_464, 1, 35_999, 9_000];
const MEASURE2: u64 = 100_000 + (18_000 << 33);

fn add(team: u16, p: u16, r: u16, h: u16, c: u16) -> Vec<u8> {
    frame(&[&[1, team, p, r, h, c, 1, 2], &M[..]].concat())
}

fn correct(team: u16, p: u16, r: u16) -> Vec<u8> {
    frame(&[&[2, team, p, r, 1, 2], &M[..], &M2[..]].concat())
}

fn strike(team: u16, p: u16, f: u16, r: u16, s: u16, c: u16) -> Vec<u8> {
    frame(&[&[3, team, p, f, r, s, c, 1, 2], &M[..]].concat())
}

fn move_leg(team: u16, p: u16, q: u16, [f, r, s, c]: [u16; 4], [h, d]: [u16; 2]) -> Vec<u8> {
    frame(&[4, team, p, q, f, r, s, c, h, d, 1, 2])
}

fn place(p: u64) -> u64 {
    p + 1 + 64 + 2 * 4_194_304
}

/// Steps of a ticket that is granted at once, and their answers.
fn through(team: u16, n: u16) -> [Vec<u8>; 2] {
    let mut heard = frame(&[128, n]);
    (1..=n).for_each(|k| heard.extend(frame(&[129, k])));
    (1..n).for_each(|k| heard.extend(frame(&[132, k])));
    heard.extend(granted(2 * n));
    [step(team).repeat(2 * n as usize), heard]
}

/// Puts a list of frames with their answers to the program.
fn check(pairs: &[[Vec<u8>; 2]]) {
    let sent: Vec<u8> = pairs.iter().flat_map(|pair| pair[0].clone()).collect();
    let due: Vec<u8> = pairs.iter().flat_map(|pair| pair[1].clone()).collect();
    assert_eq!(answers(&sent), due);
}

fn edit(frame: Vec<u8>, team: u16, n: u16) -> [Vec<u8>; 2] {
    let [steps, heard] = through(team, n);
    [[frame, steps].concat(), heard]
}

#[test]
fn whole_case() {
    let mut input = vec![
        0x18, 0x00, 0x01, 0x00, 0x00, 0x00, 0x00, 0x00, 0x01, 0x00, 0x00, 0x00, 0x00, 0x00, 0x01,
        0x00, 0x02, 0x00, 0x88, 0x13, 0x00, 0x00, 0x28, 0x23, 0x6A, 0xFF,
    ];
    input.extend([0x04, 0x00, 0x05, 0x00, 0x00, 0x00].repeat(10));
    let mut output = vec![0x04, 0x00, 0x80, 0x00, 0x05, 0x00];
    (1..=5).for_each(|k| output.extend([0x04, 0x00, 0x81, 0x00, k, 0x00]));
    (1..=4).for_each(|k| output.extend([0x04, 0x00, 0x84, 0x00, k, 0x00]));
    output.extend([0x06, 0x00, 0x86, 0x00, 0x0A, 0x00, 0x00, 0x00]);
    assert_eq!(answers(&input), output);
}

#[test]
fn examples_1_and_2_and_3() {
    check(&[
        edit(add(0, 0, 1, 0, 0), 0, 5),
        [look(0), value(1)],
        [look(1), value(1)],
        [look(64), value(0)],
        [look(65), value(8_388_673)],
        [look(66), value(MEASURE)],
        [look(67), value(0)],
        edit(add(0, 0, 1_008, 1, 1), 0, 6),
        [look(4_092), value(1)],
        [look(4_094), value(MEASURE)],
        [look(4_095), value(0)],
        [look(67), value(1_008)],
    ]);
}

#[test]
fn examples_5_and_6_and_7_and_11() {
    let add = |m: [u16; 4]| frame(&[&[1, 0, 0, 1, 0, 0, 1, 2], &m[..]].concat());
    check(&[
        [add([5_000, 0, 9_000, 9_001]), refused(10)],
        [add([5_000, 0, 9_000, -9_001i16 as u16]), refused(10)],
        [add([0, 0, 9_000, 0]), refused(10)],
        [add([34_465, 1, 9_000, 0]), refused(10)],
        [add([5_000, 0, 36_000, 0]), refused(10)],
        [strike(0, 0, 3, 3, 0, 1), refused(11)],
        [add([34_464, 1, 9_000, -9_000i16 as u16]), frame(&[128, 5])],
        [step(0).repeat(10), through(0, 5)[1][6..].to_vec()],
        [look(66), value(100_000)],
    ]);
}

const UP: u16 = 9_000;
const DOWN: u16 = -9_000i16 as u16;

/// A measure of distance 5,000.
fn measure(compass: u16, clino: u16) -> [u16; 4] {
    [5_000, 0, compass, clino]
}

// Leg 1 of passage 0 with these measures: added as its first, corrected, struck.

fn add_measure(m: [u16; 4]) -> Vec<u8> {
    frame(&[&[1, 0, 0, 1, 0, 0, 1, 2], &m[..]].concat())
}

fn correct_measure(old: [u16; 4], new: [u16; 4]) -> Vec<u8> {
    frame(&[&[2, 0, 0, 1, 1, 2], &old[..], &new[..]].concat())
}

fn strike_measure(m: [u16; 4]) -> Vec<u8> {
    frame(&[&[3, 0, 0, 0, 1, 0, 1, 1, 2], &m[..]].concat())
}

#[test]
fn plumb_legs_have_no_compass() {
    for (clino, offset) in [(UP, 18_000), (DOWN, 0)] {
        let shaft = |compass| measure(compass, clino);
        let stored = value(5_000 + (offset << 33));
        check(&[
            edit(add_measure(shaft(18_000)), 0, 5),
            [look(66), stored.clone()],
            // One shaft, whichever compass is quoted for it, and written as before.
            edit(correct_measure(shaft(0), shaft(35_999)), 0, 2),
            [look(66), stored.clone()],
            edit(correct_measure(shaft(18_000), M), 0, 2),
            [look(66), value(MEASURE)],
            edit(correct_measure(M, shaft(1)), 0, 2),
            [look(66), stored.clone()],
            edit(strike_measure(shaft(35_999)), 0, 6),
            [look(66), value(0)],
            edit(add_measure(shaft(0)), 0, 5),
            [look(66), stored],
            // The other figures are still compared.
            [correct_measure([5_001, 0, 0, clino], M), frame(&[128, 2])],
            [step(0), frame(&[129, 1])],
            [step(0), frame(&[131, 66])],
            [step(0), stale(66, 3)],
            [
                correct_measure(measure(0, clino.wrapping_neg()), M),
                frame(&[128, 2]),
            ],
            [step(0), frame(&[129, 1])],
            [step(0), frame(&[131, 66])],
            [step(0), stale(66, 3)],
        ]);
    }
}

#[test]
fn a_plumb_leg_is_moved_as_it_is() {
    check(&[
        edit(add_measure(measure(500, DOWN)), 0, 5),
        edit(move_leg(0, 0, 1, [0, 1, 0, 1], [0, 0]), 0, 7),
        [
            [look(65), look(66)].concat(),
            [value(place(1)), value(5_000)].concat(),
        ],
    ]);
}

#[test]
fn a_leg_that_is_nearly_plumb_has_a_compass() {
    for (clino, offset) in [(8_999, 17_999), (-8_999i16 as u16, 1)] {
        let steep = |compass| measure(compass, clino);
        check(&[
            edit(add_measure(steep(18_000)), 0, 5),
            [look(66), value(5_000 + (18_000 << 17) + (offset << 33))],
            [correct_measure(steep(0), M), frame(&[128, 2])],
            [step(0), frame(&[129, 1])],
            [step(0), frame(&[131, 66])],
            [step(0), stale(66, 3)],
            edit(correct_measure(steep(18_000), steep(35_999)), 0, 2),
            [look(66), value(5_000 + (35_999 << 17) + (offset << 33))],
        ]);
    }
}

#[test]
fn the_compass_field_of_a_plumb_leg_is_in_range() {
    for clino in [UP, DOWN] {
        for compass in [36_000, 65_535] {
            let shaft = measure(compass, clino);
            check(&[
                [add_measure(shaft), refused(10)],
                [correct_measure(shaft, M), refused(10)],
                [correct_measure(M, shaft), refused(10)],
                [strike_measure(shaft), refused(10)],
                [add_measure(measure(35_999, clino)), frame(&[128, 5])],
            ]);
        }
    }
}

/// A measure of distance 5,000 in minutes: the compass, the sign, the clino.
fn minutes(compass: [u16; 2], sign: u16, clino: [u16; 2]) -> [u16; 7] {
    [5_000, 0, compass[0], compass[1], sign, clino[0], clino[1]]
}

/// What is M in hundredths.
const IN_MINUTES: [u16; 7] = [5_000, 0, 90, 0, 1, 1, 30];

// Leg 1 of passage 0 as above, in minutes.

fn add_minutes(m: [u16; 7]) -> Vec<u8> {
    frame(&[&[17, 0, 0, 1, 0, 0, 1, 2], &m[..]].concat())
}

fn correct_minutes(old: [u16; 7], new: [u16; 7]) -> Vec<u8> {
    frame(&[&[18, 0, 0, 1, 1, 2], &old[..], &new[..]].concat())
}

/// The word of a measure of distance 5,000, in hundredths.
fn word(compass: u64, clino: i64) -> Vec<u8> {
    value(5_000 + (compass << 17) + (((9_000 + clino) as u64) << 33))
}

#[test]
fn whole_case_in_minutes() {
    let input = [
        vec![
            0x1E, 0x00, 0x11, 0x00, 0x00, 0x00, 0x00, 0x00, 0x01, 0x00, 0x00, 0x00, 0x00, 0x00,
            0x01, 0x00, 0x02, 0x00, 0x88, 0x13, 0x00, 0x00, 0x5A, 0x00, 0x00, 0x00, 0x01, 0x00,
            0x01, 0x00, 0x1E, 0x00,
        ],
        step(0).repeat(10),
        look(66),
    ];
    let due = [through(0, 5)[1].clone(), value(MEASURE)];
    assert_eq!(answers(&input.concat()), due.concat());
}

#[test]
fn half_a_degree_down_can_be_said() {
    check(&[
        edit(add_minutes(minutes([90, 0], 1, [0, 30])), 0, 5),
        [look(66), word(9_000, -50)],
        edit(
            correct_minutes(minutes([90, 0], 1, [0, 30]), minutes([90, 0], 0, [0, 30])),
            0,
            2,
        ),
        [look(66), word(9_000, 50)],
    ]);
}

#[test]
fn up_and_down_zero_mean_the_same() {
    let level = |sign| minutes([12, 30], sign, [0, 0]);
    for sign in [0, 1] {
        check(&[
            edit(add_minutes(level(sign)), 0, 5),
            [look(66), word(1_250, 0)],
            edit(correct_minutes(level(1 - sign), level(sign)), 0, 2),
            edit(correct_measure(measure(1_250, 0), measure(1_250, 0)), 0, 2),
            edit(correct_minutes(level(sign), level(1 - sign)), 0, 2),
            [look(66), word(1_250, 0)],
            edit(strike_measure(measure(1_250, 0)), 0, 6),
        ]);
    }
}

/// The only hundredth nearest to an angle, found among those of its degree and the
/// next degree's first. Distances are in sixtieths of a hundredth.
fn nearest(degrees: u16, minutes: u16) -> u64 {
    let exact = 100 * (60 * degrees as i64 + minutes as i64);
    let distance = |hundredth: i64| (60 * hundredth - exact).abs();
    let all = 100 * degrees as i64..=100 * degrees as i64 + 100;
    let best = all.clone().min_by_key(|&h| distance(h)).unwrap();
    assert!(distance(best) <= 20);
    assert_eq!(all.filter(|&h| distance(h) <= 30).count(), 1);
    best as u64
}

#[test]
fn angles_are_rounded_to_the_nearest_hundredth() {
    // For each of these degrees of compass and clino, a leg for each minute.
    let mut pairs = Vec::new();
    let mut newest = 0;
    for (degrees, steep) in [(0, 0), (1, 89), (180, 45), (359, 7)] {
        for minute in 0..60 {
            let other = 59 - minute;
            let down = minute % 2;
            let leg = newest + 1;
            let m = minutes([degrees, minute], down, [steep, other]);
            let add = frame(&[&[17, 0, 0, leg, newest, newest, 1, 2], &m[..]].concat());
            let clino = nearest(steep, other) as i64;
            let signed = if down == 1 { -clino } else { clino };
            pairs.push(edit(add, 0, 5 + (newest != 0) as u16));
            pairs.push([look(62 + 4 * leg), word(nearest(degrees, minute), signed)]);
            newest = leg;
        }
    }
    check(&pairs);
}

#[test]
fn an_edit_in_minutes_behaves_as_one_in_hundredths() {
    let third = minutes([359, 59], 0, [89, 59]);
    let in_hundredths = measure(35_998, 8_998);
    check(&[
        // Whichever form a leg was written in, it is quoted in either.
        edit(add_minutes(IN_MINUTES), 0, 5),
        [look(66), value(MEASURE)],
        edit(correct_measure(M, in_hundredths), 0, 2),
        edit(correct_minutes(third, IN_MINUTES), 0, 2),
        [look(66), value(MEASURE)],
        edit(correct_minutes(IN_MINUTES, third), 0, 2),
        [look(66), word(35_998, 8_998)],
        edit(strike_measure(in_hundredths), 0, 6),
        edit(add_measure(M), 0, 5),
        edit(correct_minutes(IN_MINUTES, third), 0, 2),
        // A hundredth that no minute is rounded to differs from those beside it.
        edit(correct_measure(in_hundredths, measure(1, 8_998)), 0, 2),
        [
            correct_minutes(minutes([0, 1], 0, [89, 59]), third),
            frame(&[128, 2]),
        ],
        [step(0), frame(&[129, 1])],
        [step(0), frame(&[131, 66])],
        [step(0), stale(66, 3)],
    ]);
}

#[test]
fn plumb_legs_in_minutes_have_no_compass() {
    for (sign, clino) in [(0, UP), (1, DOWN)] {
        let shaft = |compass| minutes(compass, sign, [90, 0]);
        let stored = word(0, clino as i16 as i64);
        check(&[
            edit(add_minutes(shaft([180, 0])), 0, 5),
            [look(66), stored.clone()],
            edit(correct_minutes(shaft([0, 0]), shaft([359, 59])), 0, 2),
            [look(66), stored.clone()],
            edit(correct_measure(measure(1, clino), M), 0, 2),
            edit(correct_minutes(IN_MINUTES, shaft([7, 7])), 0, 2),
            [look(66), stored],
            edit(strike_measure(measure(35_999, clino)), 0, 6),
        ]);
        // A minute less is no plumb leg.
        let steep = minutes([180, 0], sign, [89, 59]);
        let signed = if sign == 1 { -8_998 } else { 8_998 };
        check(&[
            edit(add_minutes(steep), 0, 5),
            [look(66), word(18_000, signed)],
        ]);
    }
}

#[test]
fn refusals_in_minutes() {
    let mut pairs = Vec::new();
    // Kinds beside these two are none, reserved forms of them neither.
    let unknown = (8..=16).chain([19, 20, 81, 82]);
    for kind in unknown {
        pairs.push([frame(&[kind, 99]), refused(4)]);
        pairs.push([frame(&[&[kind, 0], &[0; 13][..]].concat()), refused(4)]);
    }
    // Another length, whatever the fields.
    for length in [1, 2, 12, 13, 14, 16, 20, 31] {
        pairs.push([frame(&vec![17; length]), refused(5)]);
    }
    for length in [1, 2, 12, 14, 15, 19, 21, 31] {
        pairs.push([frame(&vec![18; length]), refused(5)]);
    }
    pairs.push([frame(&[17; 15]), refused(6)]);
    pairs.push([frame(&[18; 20]), refused(6)]);
    // Each field one past its range, in each of the measures.
    let out_of_range = [
        minutes([10, 60], 0, [0, 0]),
        minutes([360, 0], 0, [0, 0]),
        minutes([65_535, 0], 0, [0, 0]),
        minutes([0, 65_535], 0, [0, 0]),
        minutes([0, 0], 2, [0, 0]),
        minutes([0, 0], 65_535, [1, 0]),
        minutes([0, 0], 0, [10, 60]),
        minutes([0, 0], 0, [90, 1]),
        minutes([0, 0], 1, [90, 1]),
        minutes([0, 0], 0, [89, 60]),
        minutes([0, 0], 0, [91, 0]),
        minutes([0, 0], 0, [65_535, 0]),
        minutes([0, 0], 0, [0, 65_535]),
        // A plumb leg's compass, too.
        minutes([360, 0], 0, [90, 0]),
        minutes([0, 60], 1, [90, 0]),
        // The distance is as ever.
        [0, 0, 90, 0, 1, 1, 30],
        [34_465, 1, 90, 0, 1, 1, 30],
    ];
    for m in out_of_range {
        pairs.push([add_minutes(m), refused(10)]);
        pairs.push([correct_minutes(m, IN_MINUTES), refused(10)]);
        pairs.push([correct_minutes(IN_MINUTES, m), refused(10)]);
        // 10 before 11: from is to.
        let same = frame(&[&[17, 0, 0, 1, 0, 0, 2, 2], &m[..]].concat());
        pairs.push([same, refused(10)]);
    }
    // The other fields are those of kinds 1 and 2.
    let m = &IN_MINUTES[..];
    let add = |fields: [u16; 7]| frame(&[&[17], &fields[..], m].concat());
    let correct = |fields: [u16; 5]| frame(&[&[18], &fields[..], m, m].concat());
    pairs.extend([
        [add([0, 32, 1, 0, 0, 1, 2]), refused(10)],
        [add([0, 0, 0, 0, 0, 1, 2]), refused(10)],
        [add([0, 0, 1_009, 0, 0, 1, 2]), refused(10)],
        [add([0, 0, 1, 1_009, 0, 1, 2]), refused(10)],
        [add([0, 0, 1, 0, 1_008, 1, 2]), refused(10)],
        [add([0, 0, 1, 0, 0, 2, 2]), refused(11)],
        [add([0, 0, 1, 1, 0, 1, 2]), refused(11)],
        [correct([0, 32, 1, 1, 2]), refused(10)],
        [correct([0, 0, 0, 1, 2]), refused(10)],
        [correct([0, 0, 1_009, 1, 2]), refused(10)],
        [correct([0, 0, 1, 2, 2]), refused(11)],
        // A team with a ticket: 8 before 10 and 11.
        [add([9, 31, 1_008, 1_007, 1_007, 1, 2]), frame(&[128, 6])],
        [add([9, 32, 1, 0, 0, 1, 2]), refused(8)],
        [correct([9, 0, 1, 2, 2]), refused(8)],
        [correct([8, 31, 1_008, 1, 2]), frame(&[128, 2])],
    ]);
    check(&pairs);
}

#[test]
fn example_10() {
    check(&[
        [add(0, 0, 1, 0, 1), frame(&[128, 5])],
        [step(0), frame(&[129, 1])],
        [look(0), frame(&[137])],
        [step(0), frame(&[131, 1])],
        [look(0), frame(&[137])],
        [step(0), stale(1, 3)],
        [look(0), value(0)],
        [step(0), refused(9)],
    ]);
}

#[test]
fn example_12() {
    check(&[
        [add(0, 0, 1, 0, 0), frame(&[128, 5])],
        [add(1, 0, 2, 0, 0), frame(&[128, 5])],
        [step(0), frame(&[129, 1])],
        [step(1), frame(&[130, 0, 0])],
        [step(0).repeat(9), through(0, 5)[1][12..].to_vec()],
        [step(1), stale(0, 2)],
    ]);
}

#[test]
fn waits_are_tries() {
    let claimed = |k| frame(&[129, k]);
    let put = |k| frame(&[132, k]);
    check(&[
        edit(add(0, 0, 1, 0, 0), 0, 5),
        [correct(3, 0, 1), frame(&[128, 2])],
        [step(3), claimed(1)],
        // A move of leg 1 waits at its place, and is granted after the correction.
        [move_leg(4, 0, 1, [0, 1, 0, 1], [0, 0]), frame(&[128, 7])],
        [step(4).repeat(5), (1..=5).flat_map(claimed).collect()],
        [step(4).repeat(2), frame(&[130, 65, 3]).repeat(2)],
        [step(3), claimed(2)],
        [step(4), frame(&[130, 65, 3])],
        [step(3), put(1)],
        [step(4), claimed(6)],
        [step(3), granted(4)],
        [step(4), claimed(7)],
        [step(4).repeat(6), (1..=6).flat_map(put).collect()],
        [step(4), granted(17)],
        [
            [look(0), look(1), look(2), look(3)].concat(),
            [value(0), value(0), value(1), value(1)].concat(),
        ],
        [
            [look(64), look(65), look(66)].concat(),
            [value(0), value(place(1)), value(MEASURE2)].concat(),
        ],
    ]);
}

#[test]
fn edits_at_both_ends_and_amid() {
    check(&[
        edit(add(0, 5, 20, 0, 0), 0, 5),
        edit(add(1, 5, 10, 20, 1), 1, 6),
        edit(add(2, 5, 30, 10, 2), 2, 6),
        edit(add(15, 6, 40, 0, 0), 15, 5),
        // The next newer leg of each.
        [
            [look(143), look(103), look(183), look(223)].concat(),
            [value(10), value(30), value(0), value(0)].concat(),
        ],
        // 30, 10, 20: the middle one goes to passage 6.
        edit(move_leg(0, 5, 6, [30, 10, 20, 3], [40, 1]), 0, 9),
        [
            [look(10), look(11)].concat(),
            [value(30), value(2)].concat(),
        ],
        [
            [look(12), look(13)].concat(),
            [value(10), value(2)].concat(),
        ],
        [
            [look(180), look(100), look(140)].concat(),
            [value(20), value(40), value(0)].concat(),
        ],
        [
            [look(143), look(103), look(183), look(223)].concat(),
            [value(30), value(0), value(0), value(10)].concat(),
        ],
        [look(101), value(place(6))],
        // The oldest is struck, behind a larger number; then the newest.
        edit(strike(7, 5, 30, 20, 0, 2), 7, 6),
        [
            [look(140), look(141), look(142), look(143), look(180)].concat(),
            value(0).repeat(5),
        ],
        edit(strike(7, 5, 0, 30, 0, 1), 7, 6),
        [
            [look(10), look(11), look(180), look(181), look(182)].concat(),
            value(0).repeat(5),
        ],
        // A quoted figure that isn't so.
        [strike(7, 6, 0, 10, 40, 3), frame(&[128, 7])],
        [step(7), frame(&[129, 1])],
        [step(7), frame(&[131, 13])],
        [step(7), stale(13, 3)],
        [strike(7, 6, 0, 40, 0, 2), frame(&[128, 6])],
        [step(7), stale(12, 1)],
        [
            [look(12), look(13)].concat(),
            [value(10), value(2)].concat(),
        ],
    ]);
}

#[test]
fn giving_back() {
    // A leg that is in another passage: found at its place, three words claimed.
    check(&[
        edit(add(0, 0, 1, 0, 0), 0, 5),
        [add(5, 1, 1, 0, 0), frame(&[128, 5])],
        [
            step(5).repeat(3),
            (1..=3).flat_map(|k| frame(&[129, k])).collect(),
        ],
        [step(5), frame(&[131, 65])],
        [
            [look(2), look(3), look(64)].concat(),
            frame(&[137]).repeat(3),
        ],
        [
            step(5).repeat(2),
            [frame(&[133, 1]), frame(&[133, 2])].concat(),
        ],
        [
            [look(2), look(3), look(64)].concat(),
            [value(0), value(0), frame(&[137])].concat(),
        ],
        [step(5), stale(65, 7)],
        [
            [look(64), look(65)].concat(),
            [value(0), value(place(0))].concat(),
        ],
    ]);
}

/// The last answer of a view.
fn seen(values: &[u64]) -> Vec<u8> {
    let body = values.iter().flat_map(|value| value.to_le_bytes());
    let length = 2 + 8 * values.len() as u8;
    [length, 0, 139, 0].into_iter().chain(body).collect()
}

#[test]
fn views() {
    let claimed = |k| frame(&[129, k]);
    let returned = |k| frame(&[133, k]);
    check(&[
        edit(add(0, 0, 1, 0, 0), 0, 5),
        // Word 50 is claimed first, then 0, 65, 66.
        [frame(&[7, 4, 4, 66, 0, 65, 50]), frame(&[128, 4])],
        [step(4), claimed(1)],
        [
            [look(50), look(0)].concat(),
            [frame(&[137]), value(1)].concat(),
        ],
        [step(4).repeat(2), [claimed(2), claimed(3)].concat()],
        // A correction waits for the view, and another view for the correction.
        [correct(5, 0, 1), frame(&[128, 2])],
        [step(5), frame(&[130, 65, 4])],
        [
            step(4).repeat(4),
            [claimed(4), returned(1), returned(2), returned(3)].concat(),
        ],
        [step(5), claimed(1)],
        [frame(&[7, 6, 1, 65]), frame(&[128, 1])],
        [step(6), frame(&[130, 65, 5])],
        [step(4), seen(&[MEASURE, 1, place(0), 0])],
        [step(4), refused(9)],
        [
            step(5).repeat(3),
            [claimed(2), frame(&[132, 1]), granted(5)].concat(),
        ],
        [step(6).repeat(2), [claimed(1), seen(&[place(0)])].concat()],
        [look(66), value(MEASURE2)],
        [frame(&[7, 6, 6, 1, 2, 3, 4, 5, 66]), frame(&[128, 6])],
        [step(6).repeat(6), (1..=6).flat_map(claimed).collect()],
        [step(6).repeat(5), (1..=5).flat_map(returned).collect()],
        [step(6), seen(&[1, 0, 0, 0, 0, MEASURE2])],
    ]);
}

#[test]
fn opposite_moves_go_by_position() {
    // Passage 25 has rank 0, passage 0 rank 3: both claim passage 25 first.
    check(&[
        edit(add(0, 0, 1, 0, 0), 0, 5),
        edit(add(0, 25, 2, 0, 0), 0, 5),
        [move_leg(0, 0, 25, [0, 1, 0, 1], [2, 1]), frame(&[128, 8])],
        [move_leg(1, 25, 0, [0, 2, 0, 1], [1, 1]), frame(&[128, 8])],
        [step(0), frame(&[129, 1])],
        [
            [look(0), look(50), look(51)].concat(),
            [value(1), frame(&[137]), value(1)].concat(),
        ],
        [step(1), frame(&[130, 50, 0])],
        [step(0).repeat(15), through(0, 8)[1][12..].to_vec()],
        [step(1), stale(50, 2)],
        [
            [look(50), look(51), look(0), look(1)].concat(),
            [value(1), value(2), value(0), value(0)].concat(),
        ],
    ]);
}

#[test]
fn refusals() {
    let with = |mut bytes: Vec<u8>, at: usize, value: u16| {
        bytes[2 + 2 * at..4 + 2 * at].copy_from_slice(&value.to_le_bytes());
        [bytes, refused(10)]
    };
    let eleven = |bytes: Vec<u8>| [bytes, refused(11)];
    let good_move = || move_leg(0, 0, 1, [2, 3, 4, 1], [5, 0]);
    let good_strike = || strike(0, 0, 2, 3, 4, 1);
    let at = |mut bytes: Vec<u8>, at: usize, value: u16| {
        bytes[2 + 2 * at..4 + 2 * at].copy_from_slice(&value.to_le_bytes());
        bytes
    };
    let mut pairs = vec![
        [vec![0, 0], refused(3)],
        [vec![1, 0, 5], refused(3)],
        [frame(&[0]), refused(4)],
        [frame(&[8, 99]), refused(4)],
        [frame(&[65_535, 0]), refused(4)],
        [vec![3, 0, 8, 0, 0], refused(4)],
        [frame(&[5]), refused(5)],
        [frame(&[5, 16, 0]), refused(5)],
        [vec![3, 0, 5, 0, 0], refused(5)],
        [frame(&[1; 31]), refused(5)],
        [frame(&[6, 0, 0]), refused(5)],
        [frame(&[7, 16, 0]), refused(5)],
        [frame(&[7, 16, 7, 1, 2, 3, 4, 5, 6, 7]), refused(5)],
        [vec![9, 0, 7, 0, 0, 0, 1, 0, 5, 0, 0], refused(5)],
        [step(16), refused(6)],
        [step(65_535), refused(6)],
        [add(16, 99, 0, 0, 0), refused(6)],
        [frame(&[7, 16, 9, 4_096]), refused(6)],
        [step(15), refused(9)],
        [look(4_096), refused(10)],
        [look(65_535), refused(10)],
        // A team with a ticket: 8 before 10 and 11.
        [add(9, 31, 1, 0, 0), frame(&[128, 5])],
        [add(9, 99, 1, 0, 0), refused(8)],
        [correct(9, 99, 1), refused(8)],
        [strike(9, 0, 3, 3, 0, 1), refused(8)],
        [move_leg(9, 0, 0, [0, 1, 0, 1], [0, 0]), refused(8)],
        [frame(&[7, 9, 9, 5, 5]), refused(8)],
        // 10 before 11: from is to, and clino is 9,001.
        with(at(add(0, 0, 1, 0, 0), 6, 2), 11, 9_001),
        // add: kind team p r h c from to M
        with(add(0, 0, 1, 0, 0), 2, 32),
        with(add(0, 0, 1, 0, 0), 3, 0),
        with(add(0, 0, 1, 0, 0), 3, 1_009),
        with(add(0, 0, 1, 0, 0), 4, 1_009),
        with(add(0, 0, 1, 0, 0), 5, 1_008),
        eleven(at(add(0, 0, 1, 0, 0), 6, 2)),
        eleven(add(0, 0, 1, 1, 0)),
        // correct: kind team p r from to M M
        with(correct(0, 0, 1), 2, 32),
        with(correct(0, 0, 1), 3, 0),
        with(correct(0, 0, 1), 3, 1_009),
        with(correct(0, 0, 1), 6, 0),
        with(correct(0, 0, 1), 8, 36_000),
        with(correct(0, 0, 1), 9, 9_001),
        with(correct(0, 0, 1), 11, 2),
        with(correct(0, 0, 1), 12, 36_000),
        with(correct(0, 0, 1), 13, 9_001),
        eleven(at(correct(0, 0, 1), 4, 2)),
        // strike: kind team p f r s c from to M
        with(good_strike(), 2, 32),
        with(good_strike(), 3, 1_009),
        with(good_strike(), 4, 0),
        with(good_strike(), 4, 1_009),
        with(good_strike(), 5, 1_009),
        with(good_strike(), 6, 0),
        with(good_strike(), 6, 1_009),
        with(good_strike(), 9, 0),
        eleven(at(good_strike(), 7, 2)),
        eleven(at(good_strike(), 3, 3)),
        eleven(at(good_strike(), 5, 3)),
        eleven(at(good_strike(), 5, 2)),
        // move: kind team p q f r s c h d from to
        with(good_move(), 2, 32),
        with(good_move(), 3, 32),
        with(good_move(), 4, 1_009),
        with(good_move(), 5, 0),
        with(good_move(), 5, 1_009),
        with(good_move(), 6, 1_009),
        with(good_move(), 7, 0),
        with(good_move(), 7, 1_009),
        with(good_move(), 8, 1_009),
        with(good_move(), 9, 1_008),
        eleven(at(good_move(), 10, 2)),
        eleven(at(good_move(), 3, 0)),
        eleven(at(good_move(), 4, 3)),
        eleven(at(good_move(), 4, 4)),
        eleven(at(good_move(), 4, 5)),
        eleven(at(good_move(), 6, 3)),
        eleven(at(good_move(), 6, 5)),
        eleven(at(good_move(), 8, 3)),
        // view: kind team n words
        with(frame(&[7, 0, 2, 5, 6]), 2, 1),
        with(frame(&[7, 0, 2, 5, 6]), 2, 3),
        with(frame(&[7, 0, 2, 5, 6]), 4, 4_096),
        with(frame(&[7, 0, 2, 5, 5]), 2, 0),
        eleven(frame(&[7, 0, 6, 1, 2, 3, 4, 5, 1])),
    ];
    // The ends of the ranges are in range, and none may be named often.
    let standing = |n: u16| frame(&[128, n]);
    pairs.extend([
        [add(0, 31, 1_008, 1_007, 1_007), standing(6)],
        [correct(1, 31, 1_008), standing(2)],
        [strike(2, 31, 0, 1_008, 0, 1_008), standing(6)],
        [
            move_leg(3, 31, 0, [0, 1_008, 0, 1_008], [0, 1_007]),
            standing(7),
        ],
        [
            move_leg(4, 0, 31, [1_008, 1, 1_007, 1], [1_006, 0]),
            standing(9),
        ],
    ]);
    check(&pairs);
}

#[test]
fn endings() {
    assert_eq!(answers(&[]), []);
    assert_eq!(answers(&[4]), refused(3));
    assert_eq!(answers(&[0xFF]), refused(3));
    assert_eq!(answers(&[4, 0]), refused(3));
    assert_eq!(answers(&[4, 0, 5, 0, 0]), refused(3));
    assert_eq!(answers(&[1, 0]), refused(3));
    // Above 62: once and at once, whatever follows.
    assert_eq!(answers(&[63, 0]), refused(3));
    assert_eq!(
        answers(&[[63, 0].to_vec(), vec![0; 63], look(0)].concat()),
        refused(3)
    );
    assert_eq!(answers(&[0, 1, 6, 0, 0, 0, 6, 0]), refused(3));
    assert_eq!(answers(&[62, 0]), refused(3));
    // After good frames.
    assert_eq!(
        answers(&[look(0), vec![4]].concat()),
        [value(0), refused(3)].concat()
    );
    assert_eq!(
        answers(&[look(0), vec![0xFF, 0xFF], look(0)].concat()),
        [value(0), refused(3)].concat()
    );
    // Two bytes and three are whole frames, and reading goes on.
    let small = [vec![0, 0], vec![1, 0, 6], look(1), vec![0, 0]].concat();
    assert_eq!(
        answers(&small),
        [refused(3), refused(3), value(0), refused(3)].concat()
    );
    // 62 is a whole frame.
    let longest = [vec![62, 0, 6, 0], vec![0; 60], look(1)].concat();
    assert_eq!(answers(&longest), [refused(5), value(0)].concat());
}

#[test]
fn long_input_across_buffers() {
    // Two-byte frames give the most answer for a byte; an odd start shifts all
    // that follows over every edge of a buffer.
    let count = 200_001;
    let input = [vec![1, 0, 9], [0, 0].repeat(count), look(0).repeat(50_000)].concat();
    assert_eq!(
        answers(&input),
        [refused(3).repeat(count + 1), value(0).repeat(50_000)].concat()
    );
}

#[test]
fn answers_come_without_waiting_for_more() {
    let mut child = start();
    let mut stdin = child.stdin.take().unwrap();
    let mut stdout = child.stdout.take().unwrap();
    for _ in 0..3 {
        let [first, rest] = [&look(0)[..3], &look(0)[3..]].map(<[u8]>::to_vec);
        stdin.write_all(&first).unwrap();
        std::thread::sleep(std::time::Duration::from_millis(20));
        stdin.write_all(&rest).unwrap();
        let mut answer = [0; 12];
        stdout.read_exact(&mut answer).unwrap();
        assert_eq!(answer.to_vec(), value(0));
    }
    drop(stdin);
    assert!(child.wait().unwrap().success());
}
