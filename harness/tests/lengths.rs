//! Every length: of a case, of a sheet and of the answer buffer.

use harness::compare::Comparison;
use harness::desks::{Plain, Proved, ProvedOnNull};
use harness::fields::Fields;
use harness::mixture::{well_headed, Mixture};
use harness::random::Random;
use harness::settings;

/// What bytes of some length are made of.
#[derive(Clone, Copy, Debug)]
enum Of {
    Kind1,
    Kind2,
    Noise,
}

const ALL: [Of; 3] = [Of::Kind1, Of::Kind2, Of::Noise];

/// A good record of a kind repeated, or noise, to that length.
fn bytes_of_length(len: usize, of: Of, random: &mut Random) -> Vec<u8> {
    let record = match of {
        Of::Kind1 => Fields::example().encode(),
        Of::Kind2 => Fields::example().wide(1).encode(),
        Of::Noise => {
            let mut noise = vec![0; len];
            random.fill(&mut noise);
            noise[..len.min(4)].fill(255);
            return noise;
        }
    };
    record.into_iter().cycle().take(len).collect()
}

#[test]
fn cases_of_every_length_into_buffers_of_every_length() {
    let mut random = Random::new(settings::seed());
    let mut comparison = Comparison::new(&Proved, &Plain);
    for len in 0..=200 {
        for of in ALL {
            let case = bytes_of_length(len, of, &mut random);
            let number = comparison.check_case(&case).expect("the desks agree");
            let read = match (len, of) {
                (88, Of::Kind1) | (92, Of::Kind2) => 0,
                (88 | 92, _) => 2,
                _ => 1,
            };
            assert_eq!(number, read, "length {len}, {of:?}");
            for out_len in 0..=200 {
                let answer = comparison
                    .rule_case(&case, out_len, &mut random)
                    .expect("the desks agree");
                let expected = match (len, out_len) {
                    (88 | 92, 96..) => number,
                    (88 | 92, _) => 11,
                    _ => 1,
                };
                assert_eq!(answer.number, expected, "length {len}, buffer {out_len}");
            }
        }
    }
}

#[test]
fn sheets_of_every_small_length() {
    let mut random = Random::new(settings::seed());
    let mut comparison = Comparison::new(&Proved, &Plain);
    for len in 0..=400 {
        for of in ALL {
            let sheet = bytes_of_length(len, of, &mut random);
            let whole = match of {
                Of::Kind1 => len % 88 == 0,
                Of::Kind2 => len % 92 == 0,
                Of::Noise => len == 0,
            };
            let room = match of {
                Of::Kind2 => len / 92 * 96,
                _ => len / 88 * 96,
            };
            for out_len in [0, room.saturating_sub(1), room, room + 1, room + 100] {
                let (refusal, _) = comparison
                    .rule_sheet(&sheet, out_len, &mut random)
                    .expect("the desks agree");
                let expected = match (whole, out_len < room) {
                    (true, false) => 0,
                    (true, true) => 11,
                    (false, _) => 10,
                };
                assert_eq!(refusal, expected, "length {len} {of:?}, buffer {out_len}");
            }
            comparison
                .print_sheet(&sheet, &mut random)
                .expect("the desks agree");
        }
    }
}

/// So many records of each kind in no order, accepted and refused, each with its right head.
fn row(narrow: usize, wide: usize, random: &mut Random) -> Vec<Vec<u8>> {
    let mixture = Mixture::default();
    let mut row: Vec<Vec<u8>> = (0..narrow + wide)
        .map(|index| well_headed(&mixture.record_of(random, index >= narrow)))
        .collect();
    random.shuffle(&mut row);
    row
}

/// Both desks rule the sheet into buffers about as long as that, and print it.
fn check_sheet(
    sheet: &[u8],
    room: usize,
    whole: bool,
    comparison: &mut Comparison,
    random: &mut Random,
) {
    for out_len in [0, room.saturating_sub(1), room, room + 1, room + 500] {
        let (refusal, _) = comparison
            .rule_sheet(sheet, out_len, random)
            .expect("the desks agree");
        let expected = match (whole, out_len < room) {
            (false, _) => 10,
            (true, true) => 11,
            (true, false) => 0,
        };
        assert_eq!(refusal, expected, "{} bytes, buffer {out_len}", sheet.len());
    }
    let text = comparison
        .print_sheet(sheet, random)
        .expect("the desks agree");
    assert_eq!(text == b"SHEET REFUSED 10\n", !whole);
}

/// Cases of kind 1 and of kind 2, and whether a sheet may hold so many; each sheet whole and with a rest
/// of zeros or of another case.
#[test]
fn sheets_of_no_case_and_of_as_many_as_there_may_be() {
    let mut random = Random::new(settings::seed());
    let mut comparison = Comparison::new(&Proved, &Plain);
    for (narrow, wide, whole) in [
        (0, 0, true),
        (1, 0, true),
        (0, 1, true),
        (2, 0, true),
        (0, 2, true),
        (1, 1, true),
        (599, 0, true),
        (600, 0, true),
        (601, 0, false),
        (1_200, 0, false),
        (0, 572, true),
        (0, 573, true),  // 52,716 bytes
        (0, 574, false), // 52,808
        (598, 1, true),  // 52,716
        (599, 1, false), // 52,804
    ] {
        let row = row(narrow, wide, &mut random).concat();
        let room = (narrow + wide) * 96;
        check_sheet(&row, room, whole, &mut comparison, &mut random);
        for (more, head) in [
            (1, [88, 0, 1, 0]),
            (2, [92, 0, 2, 0]),
            (3, [0; 4]),
            (4, [92, 0, 2, 0]),
            (44, [0; 4]),
            (87, [88, 0, 1, 0]),
            (91, [92, 0, 2, 0]),
        ] {
            let mut ragged = row.clone();
            ragged.extend(head.iter().chain(&[0; 87]).take(more));
            check_sheet(&ragged, room, false, &mut comparison, &mut random);
        }
    }
}

/// 23 cases of kind 1 are as long as 22 of kind 2, so that both together can make up 52,800 bytes; one
/// more byte, or one case of kind 2 for one of kind 1, is too much.
#[test]
fn sheets_of_both_kinds_that_end_at_52_800_bytes() {
    let mut random = Random::new(settings::seed());
    let mut comparison = Comparison::new(&Proved, &Plain);
    for turns in 1..=26 {
        let (narrow, wide) = (600 - 23 * turns, 22 * turns);
        let mut longest = row(narrow, wide, &mut random).concat();
        assert_eq!(longest.len(), 52_800);
        let room = (narrow + wide) * 96;
        check_sheet(&longest, room, true, &mut comparison, &mut random);
        longest.push(88);
        check_sheet(&longest, room, false, &mut comparison, &mut random);
        let longer = row(narrow - 1, wide + 1, &mut random).concat();
        assert_eq!(longer.len(), 52_804);
        check_sheet(&longer, room, false, &mut comparison, &mut random);
    }
}

/// 52,801 bytes are too many, whatever they are.
#[test]
fn sheets_of_52_801_bytes() {
    let mut random = Random::new(settings::seed());
    let mut comparison = Comparison::new(&Proved, &Plain);
    for of in ALL {
        for len in [52_801, 52_802, 52_803, 52_804, 65_536, 92 * 600] {
            let sheet = bytes_of_length(len, of, &mut random);
            check_sheet(&sheet, 0, false, &mut comparison, &mut random);
        }
    }
}

/// A mixed sheet cut behind each of its bytes is whole only between two cases; and whatever case has
/// the other kind's head, or none, the sheet is refused whole.
#[test]
fn mixed_sheets_cut_everywhere_and_with_a_bad_head_anywhere() {
    let mut random = Random::new(settings::seed());
    let mut comparison = Comparison::new(&Proved, &Plain);
    let row = row(4, 4, &mut random);
    let sheet = row.concat();
    let ends: Vec<usize> = (0..=row.len())
        .map(|cases| row[..cases].concat().len())
        .collect();
    for len in 0..=sheet.len() {
        let cases = ends.iter().position(|&end| end == len);
        let room = cases.unwrap_or(0) * 96;
        let cut = &sheet[..len];
        check_sheet(cut, room, cases.is_some(), &mut comparison, &mut random);
    }
    for at in 0..row.len() {
        for (length, kind) in [
            (88_u16, 1_u16),
            (92, 2),
            (88, 2),
            (92, 1),
            (88, 3),
            (92, 3),
            (94, 3),
            (0, 0),
        ] {
            let mut spoiled = row.clone();
            spoiled[at][..2].copy_from_slice(&length.to_le_bytes());
            spoiled[at][2..4].copy_from_slice(&kind.to_le_bytes());
            let right = spoiled[at] == row[at];
            let room = row.len() * 96;
            check_sheet(&spoiled.concat(), room, right, &mut comparison, &mut random);
        }
    }
}

/// As long as a line can be: every number in it has as many digits as it can have beside the others.
/// A line is taken for 96 bytes at most.
#[test]
fn the_longest_lines_have_room() {
    let longest = Fields {
        trade: u32::MAX,
        execution: 9_999_999,
        contracts: 1_000_000,
        offer: 9_998_999,
        offer_size: 500_000,
        opening: 1,
        buyer_kind: 1,
        filed_at: 34_200 + 1_800,
        agreement: 1,
        agreed: 9_999_999,
        ..Fields::example()
    };
    let line = "4294967295 ADJUST 10 9998999 9999999 500000 0 500000 1\n";
    assert!(line.len() <= 96);
    let mut random = Random::new(settings::seed());
    let mut comparison = Comparison::new(&Proved, &Plain);
    let wide = longest.clone().wide(9_999_999);
    for (record, cases) in [(longest.encode(), 600), (wide.encode(), 573)] {
        let text = comparison
            .print_sheet(&record.repeat(cases), &mut random)
            .expect("the desks agree");
        let header = "TRADE OUTCOME REASON TP NEW ADJ NUL OLD FROM\n";
        let end = format!("END {cases} 0\n");
        let expected = [header, &line.repeat(cases), &end].concat();
        assert_eq!(String::from_utf8_lossy(text), expected);
    }
}

#[test]
fn null_beside_a_length_of_0() {
    let mut random = Random::new(settings::seed());
    let mut comparison = Comparison::new(&ProvedOnNull, &Plain);
    let record = Fields::example().encode();
    let wide = Fields::example().wide(1).encode();
    for (bytes, out_len, case, sheet) in [
        (&[][..], 0, 1, 0),
        (&[], 96, 1, 0),
        (&record, 0, 11, 11),
        (&record, 96, 0, 0),
        (&wide, 0, 11, 11),
        (&wide, 96, 0, 0),
    ] {
        comparison.check_case(bytes).expect("the desks agree");
        let answer = comparison
            .rule_case(bytes, out_len, &mut random)
            .expect("the desks agree");
        assert_eq!(answer.number, case);
        let (refusal, _) = comparison
            .rule_sheet(bytes, out_len, &mut random)
            .expect("the desks agree");
        assert_eq!(refusal, sheet);
        comparison
            .print_sheet(bytes, &mut random)
            .expect("the desks agree");
    }
}
