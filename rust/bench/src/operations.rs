//! What is timed: calls on a table with its index, which are set right before each turn.

use filebox::{mend, request, sweep, Number, LONGEST_TEXT, NO_STOP};
use turns::nanoseconds;

use crate::names::{of_one_length, of_other_lengths, ONE_LENGTH, OTHER_LENGTHS};
use crate::parts::part_of_long;
use crate::tables::{
    crowded, cut, hundred, index, long_text, with_long_file, with_room_for_another, USER,
};
use crate::trees::{full_of_loops, tree};

/// One call of the library.
enum Call {
    Mend,
    Sweep,
    Request { line: String, text: Vec<u8> },
}

/// What is timed together, and on which table.
pub struct Operation {
    /// On the command line.
    pub name: &'static str,
    /// In the table that is printed.
    pub title: &'static str,
    /// The passes that it may take at 2,048 records.
    pub bar: Option<f64>,
    table: fn(usize) -> Vec<u8>,
    calls: fn(usize) -> Vec<Call>,
}

fn asks(line: &str) -> Call {
    files(line, 0)
}

fn files(line: &str, bytes: usize) -> Call {
    let (line, text) = (line.to_string(), vec![b'N'; bytes]);
    Call::Request { line, text }
}

pub const OPERATIONS: [Operation; 18] = [
    Operation {
        name: "rds",
        title: "RDS of 24 bytes",
        bar: Some(5.0),
        table: hundred,
        calls: |_| vec![asks("RDS .R:F12")],
    },
    Operation {
        name: "rds-long",
        title: "RDS of 24,000 bytes",
        bar: Some(6.0),
        table: with_long_file,
        calls: |_| vec![asks("RDS .R:LONG")],
    },
    Operation {
        name: "rds-part",
        title: "RDS of 24 bytes out of 24,000",
        bar: Some(5.0),
        table: with_long_file,
        calls: |records| vec![asks(&part_of_long(records))],
    },
    Operation {
        name: "rds-beside",
        title: "RDS of 24 bytes beside a long file",
        bar: None,
        table: with_long_file,
        calls: |_| vec![asks("RDS .R:F12")],
    },
    Operation {
        name: "wrs-del",
        title: "WRS of 24 bytes, then DEL",
        bar: Some(12.0),
        table: hundred,
        calls: |_| vec![files("WRS M .R:NEW", 24), asks("DEL .R:NEW")],
    },
    Operation {
        name: "wrs-over",
        title: "WRS over a file of 24,000 bytes",
        bar: Some(12.0),
        table: with_room_for_another,
        calls: |records| vec![files("WRS M .R:LONG", long_text(records).len())],
    },
    Operation {
        name: "rewrite",
        title: "WRS* of 24,000 bytes onto 24,000",
        bar: Some(12.0),
        table: with_room_for_another,
        calls: |records| vec![files("WRS* M .R:LONG", long_text(records).len())],
    },
    Operation {
        name: "lst",
        title: "LST of 25 names",
        bar: Some(5.0),
        table: hundred,
        calls: |_| vec![asks("LST .R")],
    },
    Operation {
        name: "tree",
        title: "LST* of 126 lines on three levels",
        bar: Some(12.0),
        table: tree,
        calls: |_| vec![asks("LST* .TOP 3")],
    },
    Operation {
        name: "loops",
        title: "LST* of a loop, 24,000 bytes",
        bar: Some(300.0),
        table: full_of_loops,
        calls: |_| vec![asks("LST* .R 4")],
    },
    Operation {
        name: "dup",
        title: "DUP",
        bar: Some(5.0),
        table: hundred,
        calls: |_| vec![asks("DUP .R:F12 .W:NEW")],
    },
    Operation {
        name: "del",
        title: "DEL of one name",
        bar: Some(5.0),
        table: hundred,
        calls: |_| vec![asks("DEL .R:F12")],
    },
    Operation {
        name: "crd-crowded",
        title: "CRD into a directory of 111",
        bar: Some(5.0),
        table: crowded,
        calls: |_| vec![asks("CRD .R:NEW")],
    },
    Operation {
        name: "mend",
        title: "mending a sound table",
        bar: None,
        table: hundred,
        calls: |_| vec![Call::Mend],
    },
    Operation {
        name: "mend-cut",
        title: "mending a cut table",
        bar: None,
        table: cut,
        calls: |_| vec![Call::Mend],
    },
    Operation {
        name: "sweep",
        title: "sweeping a table with nothing lost",
        bar: None,
        table: hundred,
        calls: |_| vec![Call::Sweep],
    },
    Operation {
        name: "walk",
        title: "RDS past nine links, names of other lengths",
        bar: None,
        table: of_other_lengths,
        calls: |_| vec![asks(OTHER_LENGTHS)],
    },
    Operation {
        name: "walk-alike",
        title: "RDS past nine links, names of one length",
        bar: None,
        table: of_one_length,
        calls: |_| vec![asks(ONE_LENGTH)],
    },
];

/// The least times of two operations at so many records, in turns, in microseconds.
pub fn times(names: [&str; 2], records: usize, turns: usize) -> [f64; 2] {
    let mut both = names.map(|name| named(name).expect("it is one").ready(records));
    let mut least = [f64::MAX; 2];
    for _ in 0..turns {
        for (least, ready) in least.iter_mut().zip(&mut both) {
            ready.set_right();
            *least = least.min(nanoseconds(|| ready.timed()));
        }
    }
    least.map(|nanoseconds| nanoseconds / 1000.0)
}

/// The operation of this name.
pub fn named(name: &str) -> Option<&'static Operation> {
    OPERATIONS.iter().find(|operation| operation.name == name)
}

/// An operation, ready to be timed again and again.
pub struct Ready {
    pub before: Vec<u8>,
    index_before: Vec<u16>,
    table: Vec<u8>,
    index: Vec<u16>,
    reply: Vec<u8>,
    calls: Vec<Call>,
}

impl Operation {
    pub fn ready(&self, records: usize) -> Ready {
        let before = (self.table)(records);
        let index_before = index(&before);
        Ready {
            table: before.clone(),
            before,
            index: index_before.clone(),
            index_before,
            reply: vec![0; LONGEST_TEXT],
            calls: (self.calls)(records),
        }
    }
}

impl Ready {
    /// The part that is timed: each call must be granted.
    #[inline(never)]
    pub fn timed(&mut self) {
        for call in &self.calls {
            let answer = match call {
                Call::Mend => mend(&mut self.table, &mut self.index, NO_STOP),
                Call::Sweep => sweep(&mut self.table, &mut self.index, NO_STOP),
                Call::Request { line, text } => {
                    let (table, index, reply) = (&mut self.table, &mut self.index, &mut self.reply);
                    request(table, index, line.as_bytes(), text, reply, USER, NO_STOP)
                }
            };
            assert_eq!(answer.number, Number::Done);
        }
    }

    /// The table as it was, outside the timed part.
    pub fn set_right(&mut self) {
        self.table.copy_from_slice(&self.before);
        self.index.copy_from_slice(&self.index_before);
    }
}

#[cfg(test)]
mod tests {
    use super::*;
    use filebox::Table;

    fn after(name: &str, records: usize) -> (Ready, Table) {
        let mut ready = named(name).expect("an operation").ready(records);
        ready.timed();
        let table = Table::of(ready.table.clone());
        (ready, table)
    }

    #[test]
    fn what_is_read_is_as_long_as_said() {
        for records in [256, 512, 1024, 2048] {
            let (_, mut table) = after("rds", records);
            assert_eq!(table.sheet(USER, ".R:F12").map(|text| text.len()), Ok(24));
            assert_eq!(table.list(USER, ".R").map(|list| list.len()), Ok(25 * 14));
        }
        let (_, mut table) = after("rds-long", 2048);
        let long = table.sheet(USER, ".R:LONG");
        assert_eq!(long.map(|text| text.len()), Ok(24_000));
    }

    #[test]
    fn what_is_changed_is_as_said() {
        for records in [256, 512, 1024, 2048] {
            for name in [
                "rds",
                "rds-long",
                "rds-part",
                "rds-beside",
                "lst",
                "tree",
                "loops",
                "wrs-del",
                "mend",
                "sweep",
                "walk",
                "walk-alike",
            ] {
                let (ready, table) = after(name, records);
                assert!(table.as_ref() == ready.before, "{name}");
            }
            for name in ["wrs-over", "rewrite", "dup", "del", "crd-crowded"] {
                let (mut ready, table) = after(name, records);
                assert!(table.as_ref() != ready.before, "{name}");
                ready.set_right();
                ready.timed();
                assert!(table.as_ref() == ready.table, "{name}");
            }
            assert!(after("mend-cut", records).1.as_ref() == hundred(records));
            let list = after("crd-crowded", records).1.list(USER, ".R").unwrap();
            assert_eq!(list.iter().filter(|&&byte| byte == b'\n').count(), 112);
        }
    }
}
