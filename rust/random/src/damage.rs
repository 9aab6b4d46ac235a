//! Damage to a table: a few bytes changed, records copied or cleared, headings marked or counted wrongly, entries named wrongly, free
//! records littered.

use crate::counts::miscount;
use crate::names::misname;
use crate::rewrites::mark;
use crate::Random;

/// A byte that a field may well hold.
fn likely(random: &mut Random, table: &[u8]) -> u8 {
    let some = [0, 1, 2, 3, 7, 8, 10, 11, 24, 25, 46, 58, 65, 82, 112, 255];
    match random.below(3) {
        0 => random.pick(&some),
        1 => random.pick(table),
        _ => random.below(256) as u8,
    }
}

/// Change one of the first twenty bytes of a record, which hold all fields but a text's; or point a field at another
/// record; or copy or clear a record; or mark every heading in some stretch of the table; or make a count or a name wrong.
pub fn damage(random: &mut Random, table: &mut [u8]) {
    let records = table.len() / 32;
    if records == 0 {
        return;
    }
    let (other, to) = (random.below(records), random.below(records) * 32);
    match random.below(12) {
        0 => table.copy_within(other * 32..other * 32 + 32, to),
        1 => table[to..to + 32].fill(0),
        3 => {
            let stretch = table[to..].chunks_exact_mut(32).take(3);
            stretch.for_each(|record| mark(random, record));
        }
        4 => miscount(random, table),
        5 => misname(random, table),
        2 => {
            let field = to + random.pick(&[2, 4]);
            table[field..field + 2].copy_from_slice(&(other as u16).to_le_bytes());
        }
        _ => {
            let byte = likely(random, table);
            table[to + random.below(20)] = byte;
        }
    }
}

/// Litter up to three free records with headings, entries and texts such as mending clears, or nearly: of any type, at the heading
/// of any record or of none, with any bytes after.
pub fn litter(random: &mut Random, table: &mut [u8]) {
    let records = table.len() / 32;
    for _ in 0..3 {
        let at = random.below(records.max(1)) * 32;
        let Some(record) = table.get_mut(at..at + 32).filter(|r| r[0] == 0) else {
            continue;
        };
        record[..2].copy_from_slice(&[random.pick(&[1, 2, 3, 3]), random.below(3) as u8]);
        let heading = random.below(records + 1) as u16;
        record[2..4].copy_from_slice(&heading.to_le_bytes());
        if random.once_in(2) {
            record[4 + random.below(28)] = random.below(256) as u8;
        }
    }
}
