//! Single and combined faults of cases of both kinds: the first failed test of the table gives the
//! number, on both desks.

use harness::accepted::{accepted, accepted_of};
use harness::compare::Comparison;
use harness::desks::{Plain, Proved};
use harness::faults::{faults, wide_faults, Fault};
use harness::fields::Fields;
use harness::random::Random;
use harness::settings;

/// The number that both desks give, reading and ruling.
fn number(comparison: &mut Comparison, fields: &Fields, random: &mut Random) -> u32 {
    let record = fields.encode();
    let read = comparison.check_case(&record).expect("the desks agree");
    let ruled = comparison
        .rule_case(&record, 96, random)
        .expect("the desks agree");
    assert_eq!(read, ruled.number);
    read
}

fn with(fault: &Fault, fields: &Fields) -> Fields {
    let mut faulty = fields.clone();
    fault.apply(&mut faulty);
    faulty
}

#[test]
fn generated_cases_are_accepted() {
    let mut random = Random::new(settings::seed());
    let mut comparison = Comparison::new(&Proved, &Plain);
    for _ in 0..20_000 {
        let fields = accepted(&mut random);
        assert_eq!(
            number(&mut comparison, &fields, &mut random),
            0,
            "\n{fields}"
        );
    }
}

/// The faults of either kind; those of kind 2, if it is to be one.
fn faults_of(wide: bool) -> Vec<Fault> {
    if wide {
        wide_faults()
    } else {
        faults()
    }
}

#[test]
fn each_fault_gives_its_number() {
    let mut random = Random::new(settings::seed());
    let mut comparison = Comparison::new(&Proved, &Plain);
    for wide in [false, true] {
        let faults = faults_of(wide);
        for test in 2..=9 {
            assert!(faults.iter().any(|fault| fault.number == test));
        }
        for fault in &faults {
            for _ in 0..200 {
                let faulty = with(fault, &accepted_of(&mut random, wide));
                let number = number(&mut comparison, &faulty, &mut random);
                assert_eq!(number, fault.number, "{}\n{faulty}", fault.name);
            }
        }
    }
}

/// In a sheet a fault of the head refuses it whole, wherever the case stands; every other fault gives
/// its number to its case alone.
#[test]
fn each_fault_gives_its_number_in_a_sheet() {
    let mut random = Random::new(settings::seed());
    let mut comparison = Comparison::new(&Proved, &Plain);
    for wide in [false, true] {
        for fault in faults_of(wide) {
            for at in 0..3_u32 {
                let faulty = with(&fault, &accepted_of(&mut random, wide));
                let mut cases: Vec<Vec<u8>> =
                    (0..2).map(|_| accepted(&mut random).encode()).collect();
                cases.insert(at as usize, faulty.encode());
                let (refusal, answers) = comparison
                    .rule_sheet(&cases.concat(), 3 * 96, &mut random)
                    .expect("the desks agree");
                let name = &fault.name;
                if fault.number == 2 {
                    assert_eq!((refusal, answers), (10, &[][..]), "{name}, case {at}");
                } else {
                    assert_eq!(refusal, 0, "{name}, case {at}");
                    let refused = &answers[96 * at as usize..][..12];
                    let [index, number] = [at.to_le_bytes(), fault.number.to_le_bytes()];
                    let expected = [[12, 0, 18, 0], index, number].concat();
                    assert_eq!(refused, expected, "{name}, case {at}");
                }
            }
        }
    }
}

/// Where the second fault leaves what the first has changed, the lower number is given, whichever
/// came first.
#[test]
fn of_two_faults_the_first_test_decides() {
    let mut random = Random::new(settings::seed());
    let mut comparison = Comparison::new(&Proved, &Plain);
    for wide in [false, true] {
        let faults = faults_of(wide);
        let mut decided = 0;
        for first in &faults {
            for second in &faults {
                let fields = accepted_of(&mut random, wide);
                let one = with(first, &fields);
                let both = with(second, &one);
                let number = number(&mut comparison, &both, &mut random);
                if kept(&fields, &one, &both) {
                    let expected = first.number.min(second.number);
                    assert_eq!(
                        number, expected,
                        "{} and {}\n{both}",
                        first.name, second.name
                    );
                    decided += 1;
                }
            }
        }
        let pairs = faults.len() * faults.len();
        println!("{decided} of {pairs} pairs decided");
        assert!(decided > pairs / 2);
    }
}

/// Every byte that the first fault changed is still as it made it.
fn kept(fields: &Fields, one: &Fields, both: &Fields) -> bool {
    let (fields, one, both) = (fields.encode(), one.encode(), both.encode());
    (0..fields.len()).all(|at| one[at] == fields[at] || both[at] == one[at])
}
