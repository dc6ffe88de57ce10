//! Load refusals as the generator makes them: each fault alone, several, raw bytes.

use plain::make::faults::FAULTS;
use plain::make::{damaged_tables, each_fault, raw_tables, valid_tables, Dice};
use plain::{judge, Verdict};

#[test]
fn each_fault_alone_gives_its_number_at_its_record() {
    let mut made = std::collections::BTreeMap::new();
    for seed in 0..3_000 {
        let mut dice = Dice::new(seed);
        let tables = valid_tables(&mut dice);
        for damaged in each_fault(&mut dice, &tables) {
            let verdict = judge(&damaged.tables);
            let expected = Verdict::Refused {
                number: damaged.number,
                record: damaged.record,
            };
            assert_eq!(verdict, expected, "{} from seed {seed}", damaged.name);
            *made.entry(damaged.name).or_insert(0) += 1;
        }
    }
    for (_, name, _) in FAULTS {
        assert!(made.get(name).copied().unwrap_or(0) > 100, "{name} is rare");
    }
}

#[test]
fn several_faults_and_raw_bytes_are_judged() {
    let mut refusals = [0; 27];
    for seed in 0..5_000 {
        let mut dice = Dice::new(seed);
        let (_, damaged) = damaged_tables(&mut dice);
        for tables in [damaged, raw_tables(&mut dice)] {
            if let Verdict::Refused { number, record } = judge(&tables) {
                assert!(record <= tables.len() / 48);
                refusals[number as usize] += 1;
            }
        }
    }
    assert!(
        refusals[20..].iter().all(|&count| count > 0),
        "{refusals:?}"
    );
}
