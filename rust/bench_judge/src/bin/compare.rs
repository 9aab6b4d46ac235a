//! The proved judge and the second program's, on sound tables and on tables with a few bytes changed.
//! Arguments: how many tables, and a seed. Fails at the first table on which the two differ, and prints it.
use bench_judge::{judge, tables};
use random::damage::damage;
use random::Random;

/// The number that the second program's test gives.
fn beside(table: &[u8]) -> u8 {
    if !table.len().is_multiple_of(32) || table.len() > 65_536 {
        1
    } else if beside::sound(table) {
        0
    } else {
        2
    }
}

/// A table of one of the shapes with up to three changes: a byte, a record copied, or a record cleared. `collided` has names that the
/// chains are too long for.
fn table(random: &mut Random, collided: &[u8]) -> Vec<u8> {
    let records = random.pick(&[5, 6, 9, 12, 40, 130, 400]);
    let mut table = match random.below(16) {
        0..=3 => tables::long_files(records),
        4..=7 => tables::small_files(records),
        8..=11 => tables::directories(records),
        12..=14 => tables::marked_files(records),
        _ => collided.to_vec(),
    };
    for _ in 0..random.below(4) {
        damage(random, &mut table);
    }
    if random.once_in(50) {
        table.truncate(random.below(table.len()));
    }
    table
}

fn main() {
    let mut words = std::env::args()
        .skip(1)
        .map(|word| word.parse::<u64>().expect("a number"));
    let count = words.next().unwrap_or(100_000);
    let seed = words.next().unwrap_or(1971);
    println!("{count} tables, seed {seed}");
    let mut random = Random::new(seed);
    let collided = tables::collided(400);
    let mut met = [0u64; 3];
    for _ in 0..count {
        let table = table(&mut random, &collided);
        let (ours, theirs) = (judge(&table), beside(&table));
        if ours != theirs {
            println!("judge {ours}, second program {theirs}: {table:?}");
            std::process::exit(1);
        }
        met[usize::from(ours)] += 1;
    }
    println!(
        "the same on all: {} sound, {} not sized, {} not sound",
        met[0], met[1], met[2]
    );
}
