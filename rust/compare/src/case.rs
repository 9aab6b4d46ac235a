//! A case: one call, made by the proved library and by the second program, and compared byte for byte; a request, mending and a sweep also
//! with the second program on the old table.

use beside::Layout;

use crate::branches::Branches;
use crate::counted::{self, Counted};
use crate::destroyed::{self, Destroyed};
use crate::handed::{self, Handed};
use crate::indexed::{self, Indexed, PADDING};
use crate::links::{self, Links};
use crate::met::Met;
use crate::parted::Parted;
use crate::rewritten::{self, Rewritten};
use crate::rounded::{self, Rounded};
use crate::sixed::{self, Sixed};
use crate::swept::{self, Swept};
use crate::treed::{self, Treed};

/// The byte that fills a reply buffer before the call.
pub const UNTOUCHED: u8 = 0xEE;

/// What is lent and given in a request, but for the table and the stop number.
#[derive(Debug, Clone)]
pub struct Asked {
    pub line: Vec<u8>,
    pub text: Vec<u8>,
    /// The length of the reply buffer.
    pub reply: usize,
    pub user: u32,
}

/// What is looked up: a name in the directory of a heading, or in the base list of a user.
#[derive(Debug, Clone)]
pub struct Sought {
    pub heading: u32,
    pub user: u32,
    pub name: Vec<u8>,
}

/// One call: a request; where nothing is asked a conversion, a look-up, a sweep, or mending.
#[derive(Debug, Clone)]
pub struct Case {
    pub table: Vec<u8>,
    /// The list that is lent beside the table.
    pub index: Vec<u16>,
    pub asked: Option<Asked>,
    /// The layout that the table is converted from.
    pub from: Option<Layout>,
    pub sought: Option<Sought>,
    pub sweep: bool,
    pub stop: u32,
}

/// What a call answered and left: number, argument, link, names, displaced, bytes, stores (of a look-up found, entry, count); each byte of the table
/// and of the reply, and each place of the index.
#[derive(Debug, Clone, PartialEq, Eq)]
pub struct Outcome {
    pub answer: [u64; 7],
    pub table: Vec<u8>,
    pub index: Vec<u16>,
    pub reply: Vec<u8>,
}

impl Outcome {
    pub fn number(&self) -> u32 {
        self.answer[0] as u32
    }

    pub fn names(&self) -> u32 {
        self.answer[3] as u32
    }

    pub fn bytes(&self) -> usize {
        self.answer[5] as usize
    }

    pub fn stores(&self) -> u32 {
        self.answer[6] as u32
    }
}

impl Case {
    /// A request that is not stopped, with the true index.
    pub fn request(table: &[u8], asked: Asked) -> Case {
        Case {
            index: beside::true_index(table),
            asked: Some(asked),
            ..Case::mend(table, filebox::NO_STOP)
        }
    }

    /// Mending, with a list of the right length that holds nothing.
    pub fn mend(table: &[u8], stop: u32) -> Case {
        Case {
            table: table.to_vec(),
            index: vec![PADDING; table.len() / 32],
            asked: None,
            from: None,
            sought: None,
            sweep: false,
            stop,
        }
    }

    /// A sweep that is not stopped, with the true index.
    pub fn sweep(table: &[u8]) -> Case {
        Case {
            index: beside::true_index(table),
            sweep: true,
            ..Case::mend(table, filebox::NO_STOP)
        }
    }

    /// Mending what a call left, with the list that it left.
    pub fn mend_after(left: &Outcome, stop: u32) -> Case {
        Case::mend(&left.table, stop).with(&left.index)
    }

    /// A conversion from this layout to the other one.
    pub fn convert(table: &[u8], from: Layout) -> Case {
        Case {
            from: Some(from),
            ..Case::mend(table, filebox::NO_STOP)
        }
    }

    /// Looking a name up through this list.
    pub fn look_up(table: &[u8], list: &[u16], sought: Sought) -> Case {
        Case {
            sought: Some(sought),
            ..Case::mend(table, filebox::NO_STOP).with(list)
        }
    }

    /// The same with another list.
    pub fn with(&self, list: &[u16]) -> Case {
        Case {
            index: list.to_vec(),
            ..self.clone()
        }
    }

    /// The same with another stop number.
    pub fn stopped(&self, stop: u32) -> Case {
        Case {
            stop,
            ..self.clone()
        }
    }

    /// The outcome of a call on a copy of the table and the list, and a fresh reply buffer.
    fn outcome(&self, call: impl Fn(&mut [u8], &mut [u16], &mut [u8]) -> [u64; 7]) -> Outcome {
        let (mut table, mut index) = (self.table.clone(), self.index.clone());
        let room = self.asked.as_ref().map_or(0, |asked| asked.reply);
        let mut reply = vec![UNTOUCHED; room];
        let answer = call(&mut table, &mut index, &mut reply);
        Outcome {
            answer,
            table,
            index,
            reply,
        }
    }

    /// By the proved library.
    fn proved(&self) -> Outcome {
        self.outcome(|table, index, reply| match (&self.asked, &self.sought) {
            (
                Some(Asked {
                    line, text, user, ..
                }),
                _,
            ) => filebox::request(table, index, line, text, reply, *user, self.stop).numbers(),
            (_, Some(sought)) => {
                let Sought {
                    heading,
                    user,
                    name,
                } = sought;
                three(filebox::look_up(table, index, *heading, *user, name).numbers())
            }
            (None, None) => match self.from {
                Some(Layout::Old) => alone(filebox::to_six(table).code()),
                Some(Layout::Six) => alone(filebox::from_six(table).code()),
                None if self.sweep => filebox::sweep(table, index, self.stop).numbers(),
                None => filebox::mend(table, index, self.stop).numbers(),
            },
        })
    }

    /// By the second program.
    pub fn beside(&self) -> Outcome {
        if let Some(Sought {
            heading,
            user,
            name,
        }) = &self.sought
        {
            return self.outcome(|table, index, _| {
                three(beside::look_up(table, index, *heading, *user, name).numbers())
            });
        }
        match self.from {
            None => self.beside_in(Layout::Six),
            Some(Layout::Old) => self.outcome(|table, _, _| alone(beside::to_six(table))),
            Some(Layout::Six) => self.outcome(|table, _, _| alone(beside::from_six(table))),
        }
    }

    /// A request, a sweep or mending by the second program, on a table whose names lie so.
    fn beside_in(&self, layout: Layout) -> Outcome {
        self.outcome(|table, index, reply| {
            let answer = match &self.asked {
                None if self.sweep => beside::sweep_in(layout, table, index, self.stop),
                None => beside::mend_in(layout, table, index, self.stop),
                Some(Asked {
                    line, text, user, ..
                }) => beside::request_in(layout, table, index, line, text, reply, *user, self.stop),
            };
            answer.numbers()
        })
    }

    /// The same on the old table, with the table converted after it, record by record; nothing where there
    /// is no old table, since an entry's name is not as it may lie.
    pub fn on_the_old_table(&self) -> Option<Outcome> {
        let alike = self.from.is_none() && self.sought.is_none();
        let old = beside::converted(Layout::Six, &self.table).filter(|_| alike)?;
        let case = Case {
            table: old,
            ..self.clone()
        };
        let outcome = case.beside_in(Layout::Old);
        let table = beside::converted(Layout::Old, &outcome.table).unwrap_or_default();
        Some(Outcome { table, ..outcome })
    }
}

/// A conversion's number as an answer.
fn alone(number: u32) -> [u64; 7] {
    [number.into(), 0, 0, 0, 0, 0, 0]
}

/// A look-up's numbers as an answer.
fn three([found, entry, count]: [u32; 3]) -> [u64; 7] {
    [found.into(), entry.into(), count.into(), 0, 0, 0, 0]
}

/// A case that is not as it should be: what is wrong, and both outcomes.
#[derive(Debug)]
pub struct Difference {
    pub case: Case,
    pub wrong: &'static str,
    pub proved: Outcome,
    pub beside: Outcome,
}

/// What was compared so far.
#[derive(Default)]
pub struct Comparison {
    pub met: Met,
    /// Which links were met.
    pub links: Links,
    /// What gives and takes met.
    pub handed: Handed,
    /// What an RDS with numbers met.
    pub parted: Parted,
    /// What an LST* met.
    pub treed: Treed,
    /// What a WRS* and a marked file met.
    pub rewritten: Rewritten,
    /// What the counts in headings met.
    pub counted: Counted,
    /// What a DST and entries that name no heading met.
    pub destroyed: Destroyed,
    /// What six-bit names and conversions met.
    pub sixed: Sixed,
    /// What the index and look-ups met.
    pub indexed: Indexed,
    /// What mending in rounds met.
    pub rounded: Rounded,
    /// What sweeps met.
    pub swept: Swept,
    /// The requests of the stories.
    pub requests: u64,
    /// The calls made by both: these requests again and again, and mending.
    pub calls: u64,
    /// The calls that were cut and then mended.
    pub cuts: u64,
}

impl Comparison {
    /// What requests and mends met besides their numbers and links.
    pub fn branches(&self) -> [&Branches; 8] {
        [
            self.parted.branches(),
            self.treed.branches(),
            self.rewritten.branches(),
            self.counted.branches(),
            self.destroyed.branches(),
            self.sixed.branches(),
            self.indexed.branches(),
            self.rounded.branches(),
        ]
    }

    /// Make the call with both, and on the old table; the outcome that they agree on.
    pub fn compare(&mut self, case: &Case) -> Result<Outcome, Box<Difference>> {
        let (proved, beside) = (case.proved(), case.beside());
        let old = case.on_the_old_table();
        self.calls += 1;
        if let Some(wrong) = unlike(&proved, &beside) {
            return Err(difference(case, wrong, &proved, &beside));
        }
        if let Some(old) = old.as_ref().filter(|old| **old != proved) {
            let wrong = "on the old table it is otherwise";
            return Err(difference(case, wrong, &proved, old));
        }
        let broken = match (case.from, &case.sought) {
            (Some(_), _) => {
                self.sixed.count(case, &proved, false);
                sixed::broken(case, &proved)
            }
            (_, Some(_)) => {
                self.indexed.count(case, &proved);
                indexed::broken(case, &proved)
            }
            (None, None) if case.sweep => {
                self.met.count(case, proved.number());
                self.swept.count(case, &proved);
                swept::broken(case, &proved).or(indexed::broken(case, &proved))
            }
            (None, None) => {
                self.count(case, &proved, old.is_some());
                broken(case, &proved)
            }
        };
        match broken {
            None => Ok(proved),
            Some(wrong) => Err(must_not_be(case, wrong, &proved)),
        }
    }

    /// One more request or mend; was it made on the old table too?
    fn count(&mut self, case: &Case, outcome: &Outcome, old: bool) {
        self.met.count(case, outcome.number());
        self.links.count(outcome.answer);
        self.handed.count(case, outcome.answer);
        self.parted.count(case, outcome.answer);
        self.treed.count(case, outcome);
        self.rewritten.count(case, outcome);
        self.counted.count(case, outcome);
        self.destroyed.count(case, outcome);
        self.sixed.count(case, outcome, old);
        self.indexed.count(case, outcome);
        self.rounded.count(case, outcome);
    }
}

/// What of a request or mend is broken that every one promises, by the records.
fn broken(case: &Case, outcome: &Outcome) -> Option<&'static str> {
    let broken = [
        handed::broken,
        links::broken,
        treed::broken,
        rewritten::broken,
        counted::broken,
        destroyed::broken,
        sixed::broken,
        indexed::broken,
        rounded::broken,
    ];
    broken.iter().find_map(|broken| broken(case, outcome))
}

/// In what two outcomes differ, if they do.
fn unlike(proved: &Outcome, beside: &Outcome) -> Option<&'static str> {
    let differ = [
        (proved.answer != beside.answer, "the answers differ"),
        (proved.table != beside.table, "the tables differ"),
        (proved.reply != beside.reply, "the replies differ"),
        (proved.index != beside.index, "the indexes differ"),
    ];
    let wrong = differ.into_iter().find(|(differ, _)| *differ);
    wrong.map(|(_, wrong)| wrong)
}

fn difference(case: &Case, wrong: &'static str, one: &Outcome, other: &Outcome) -> Box<Difference> {
    Box::new(Difference {
        case: case.clone(),
        wrong,
        proved: one.clone(),
        beside: other.clone(),
    })
}

/// Both agree on this outcome, and yet it must not be.
pub fn must_not_be(case: &Case, wrong: &'static str, outcome: &Outcome) -> Box<Difference> {
    difference(case, wrong, outcome, outcome)
}
