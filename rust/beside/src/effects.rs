//! "Effects, store by store": each function's walks, its end checks in number order, and its stores.

use crate::declarations::Guard;
use crate::entries::{check, cleared, recount, settle, strands_entries, NewName};
use crate::listing::{listing, tree};
use crate::names::Chain;
use crate::octal::Portion;
use crate::records::{Entry, Heading, Level, Lifetime, Record, Text, Type, BLOCK};
use crate::request::{refusal, Listed, Place, Refusal, Request};
use crate::table::{blocks, List, Store, Table};
use crate::walk::{to_directory, to_file, File, Strayed};

/// What `.nnnnnn` stands for: in a new name "that user's `.G`", in an old one "that user's `.T`".
const GIVE: &[u8] = b".G";
const TAKE: &[u8] = b".T";

/// What a request comes to when it is not cut.
#[derive(Debug, Default)]
pub struct Outcome {
    /// The stores, in order.
    pub stores: Vec<Store>,
    /// For each name done, how many stores are made when it is.
    pub names: Vec<usize>,
    /// Is an entry overwritten that already bore the new name?
    pub displaced: bool,
    /// The bytes for the front of the reply buffer.
    pub reply: Vec<u8>,
    /// What it ends with, if not with 0.
    pub refusal: Option<Refusal>,
}

/// What is asked: of a sound table, for a user, with a text and a reply buffer of this length.
#[derive(Debug)]
pub struct Asked<'a> {
    pub table: &'a Table,
    pub user: u32,
    pub text: &'a [u8],
    pub room: usize,
}

/// What this request comes to.
pub fn outcome(asked: &Asked, request: &Request) -> Outcome {
    let outcome = match request {
        Request::Crd { name, guard } => asked.crd(name, *guard),
        Request::Wrs {
            lifetime,
            guard,
            name,
        } => asked.wrs(*lifetime, *guard, name),
        Request::Rewrite { name } => asked.rewrite(name),
        Request::Rds { name, portion } => asked.rds(name, *portion),
        Request::Cpy {
            old,
            new,
            lifetime,
            guard,
        } => asked.cpy(old, new, *lifetime, *guard),
        Request::Dup { old, new, digit } => asked.dup(old, new, *digit),
        Request::Chn { old, link } => asked.chn(old, link),
        Request::Del { names } => Ok(asked.each(names, |now, at, name| now.del_name(at, name))),
        Request::Dst { names } => Ok(asked.each(names, |now, at, name| now.dst_name(at, name))),
        Request::Dpr { name, digit } => asked.dpr(name, *digit),
        Request::Lst { listed } => asked.lst(listed),
        Request::Tree { listed, depth } => asked.tree(listed, *depth),
    };
    outcome.unwrap_or_else(Outcome::refused)
}

impl Outcome {
    /// Nothing done.
    fn refused(refusal: Refusal) -> Outcome {
        Outcome {
            refusal: Some(refusal),
            ..Outcome::default()
        }
    }

    /// One name done with these stores.
    fn stored(stores: Vec<Store>) -> Outcome {
        Outcome {
            names: vec![stores.len()],
            stores,
            ..Outcome::default()
        }
    }

    /// One name done with these reply bytes.
    fn replied(reply: Vec<u8>) -> Outcome {
        Outcome {
            names: vec![0],
            reply,
            ..Outcome::default()
        }
    }
}

/// "in a walk the link refused".
fn on_the_way(argument: usize) -> impl Fn(Strayed) -> Refusal {
    move |Strayed { number, link }| refusal(number, Place::link(argument, link))
}

/// The text records of a file with this heading, by position.
fn texts(heading: u16, content: &[u8]) -> impl Iterator<Item = Record> + '_ {
    let blocks = content.chunks(BLOCK).enumerate();
    blocks.map(move |(position, bytes)| {
        Record::Text(Text {
            heading,
            position: position as u16,
            bytes: bytes.to_vec(),
        })
    })
}

/// The store of a heading with this mark and length: "same heading, same level and codes", and the same counts.
fn headed(number: u16, heading: &Heading, marked: bool, length: u16) -> Store {
    let heading = Heading {
        marked,
        length,
        ..heading.clone()
    };
    Store {
        number: number.into(),
        record: Record::Heading(heading),
    }
}

impl Asked<'_> {
    /// Walk an old name to its file; with the place of the end checks that are about it.
    fn old_name(&self, argument: usize, chain: &Chain) -> Result<(File, Place), Refusal> {
        let (user, chain) = chain.begun(self.user, TAKE);
        let file = to_file(self.table, user, &chain).map_err(on_the_way(argument))?;
        Ok((file, Place::end(argument, &chain)))
    }

    /// Walk a new name, "only to its directory".
    fn new_name<'n>(&self, argument: usize, chain: &Chain<'n>) -> Result<NewName<'n>, Refusal> {
        let (user, chain) = chain.begun(self.user, GIVE);
        let directory = to_directory(self.table, user, &chain).map_err(on_the_way(argument))?;
        let borne = self.table.find(directory.list, chain.last);
        Ok(NewName {
            directory,
            name: chain.last,
            displaced: borne.map(|(number, entry)| (number, entry.heading)),
            place: Place::end(argument, &chain),
        })
    }

    /// "CRD: heading, entry." "A new heading starts with both at 0."
    fn crd(&self, name: &Chain, guard: Guard) -> Result<Outcome, Refusal> {
        let new = self.new_name(1, name)?;
        check(new.directory.may_be_written(), 14, new.place)?;
        let heading = Heading {
            file_type: Type::Directory,
            level: guard.level.unwrap_or(Level::U),
            code: guard.digit.unwrap_or(0),
            lifetime: Lifetime::M,
            marked: false,
            length: 0,
            named: 0,
            holding: 0,
        };
        let numbers = new.numbers(self.table, 1, None)?;
        Ok(self.new_file(&new, numbers, heading, b""))
    }

    /// "WRS ...: heading, text by position, entry."
    fn wrs(&self, lifetime: Lifetime, guard: Guard, name: &Chain) -> Result<Outcome, Refusal> {
        let new = self.new_name(2, name)?;
        check(new.directory.may_be_written(), 14, new.place)?;
        let heading = Heading {
            file_type: Type::Simple,
            level: guard.level.unwrap_or(Level::U),
            code: guard.digit.unwrap_or(0),
            lifetime,
            marked: false,
            length: self.text.len() as u16,
            named: 0,
            holding: 0,
        };
        let numbers = new.numbers(self.table, 1 + blocks(self.text.len()), None)?;
        Ok(self.new_file(&new, numbers, heading, self.text))
    }

    /// "CPY: heading, text by position, entry." The content is the old file's, as it was before. "A copy's level must
    /// be at least its source's": 25.
    fn cpy(
        &self,
        old: &Chain,
        new: &Chain,
        lifetime: Option<Lifetime>,
        guard: Guard,
    ) -> Result<Outcome, Refusal> {
        let (old, end) = self.old_name(1, old)?;
        let new = self.new_name(2, new)?;
        check(old.may_be_read(), 13, end)?;
        check(new.directory.may_be_written(), 14, new.place)?;
        check(old.heading.file_type == Type::Simple, 15, end)?;
        let heading = Heading {
            file_type: Type::Simple,
            level: guard.level.unwrap_or(old.heading.level),
            code: guard.digit.unwrap_or(0),
            lifetime: lifetime.unwrap_or(old.heading.lifetime),
            marked: false,
            length: old.heading.length,
            named: 0,
            holding: 0,
        };
        let content = self.table.content(old.entry.heading);
        let numbers = new.numbers(self.table, 1 + blocks(content.len()), None)?;
        check(!old.heading.marked, 23, end)?;
        let declaration = Place::no_chain(3);
        check(heading.level >= old.heading.level, 25, declaration)?;
        Ok(self.new_file(&new, numbers, heading, &content))
    }

    /// "`WRS*` decl name, with a text, rewrites an existing simple file of lifetime M": "the heading marked ... with
    /// length 0, old text cleared by position, new text into the lowest records then free, heading unmarked with the new
    /// length". "Room is free records plus the old text's."
    fn rewrite(&self, name: &Chain) -> Result<Outcome, Refusal> {
        let (file, end) = self.old_name(2, name)?;
        let number = file.entry.heading;
        check(file.may_be_written(), 14, end)?;
        check(file.heading.file_type == Type::Simple, 15, end)?;
        let mut table = self.table.clone();
        let mut stores = vec![headed(number, &file.heading, true, 0)];
        let old = self.table.texts_of(number).into_iter();
        stores.extend(old.map(|(record, _)| cleared(record)));
        table.make(&stores);
        let free = table.free();
        check(free.len() >= blocks(self.text.len()), 19, Place::NONE)?;
        check(file.heading.lifetime == Lifetime::M, 24, end)?;
        let new = free.into_iter().zip(texts(number, self.text));
        stores.extend(new.map(|(number, record)| Store { number, record }));
        let length = self.text.len() as u16;
        stores.push(headed(number, &file.heading, false, length));
        Ok(Outcome::stored(stores))
    }

    /// A new heading with its text and its entry. "In each the code goes into both heading and entry."
    fn new_file(
        &self,
        new: &NewName,
        numbers: Vec<usize>,
        heading: Heading,
        content: &[u8],
    ) -> Outcome {
        let number = numbers[0] as u16;
        let entry = new.entry(heading.code, number);
        let mut records = vec![Record::Heading(heading)];
        records.extend(texts(number, content));
        self.named(new, numbers, records, entry)
    }

    /// "DUP: entry, its code the old entry's joined with the declared one." "A give never displaces": 16 "where the
    /// link is taken".
    fn dup(&self, old: &Chain, new: &Chain, digit: Option<u8>) -> Result<Outcome, Refusal> {
        let gives = new.user().is_some();
        let old = self.old_name(1, old)?.0.entry;
        let new = self.new_name(2, new)?;
        check(new.directory.may_be_written(), 14, new.place)?;
        check(!gives || new.displaced.is_none(), 16, new.place)?;
        let numbers = new.numbers(self.table, 0, Some(old.heading))?;
        let entry = new.entry(old.code | digit.unwrap_or(0), old.heading);
        Ok(self.named(&new, numbers, Vec::new(), entry))
    }

    /// These records stored under these numbers, the entry last; then the counts that are no longer true are corrected, and
    /// what it displaced is settled.
    fn named(
        &self,
        new: &NewName,
        numbers: Vec<usize>,
        mut records: Vec<Record>,
        entry: Entry,
    ) -> Outcome {
        let displaced = new.displaced.map(|(_, heading)| heading);
        let files: Vec<u16> = displaced.into_iter().chain([entry.heading]).collect();
        records.push(Record::Entry(entry));
        let store = |(number, record)| Store { number, record };
        let mut stores: Vec<Store> = numbers.into_iter().zip(records).map(store).collect();
        recount(self.table, &mut stores, &files, &[new.directory.list]);
        if let Some(heading) = displaced {
            settle(self.table, &mut stores, heading);
        }
        Outcome {
            displaced: new.displaced.is_some(),
            ..Outcome::stored(stores)
        }
    }

    /// "CHN: the entry with its new name."
    fn chn(&self, old: &Chain, link: &[u8]) -> Result<Outcome, Refusal> {
        let (old, end) = self.old_name(1, old)?;
        check(old.directory.may_be_written(), 14, end)?;
        let borne = self.table.find(old.directory.list, link);
        check(borne.is_none(), 16, Place::no_chain(2))?;
        let mut entry = old.entry;
        entry.name = link.to_vec();
        Ok(Outcome::stored(vec![Store {
            number: old.entry_number,
            record: Record::Entry(entry),
        }]))
    }

    /// "DPR: the heading with its new code." 21: "new code lacks a bit of the heading's".
    fn dpr(&self, name: &Chain, digit: u8) -> Result<Outcome, Refusal> {
        let (file, end) = self.old_name(1, name)?;
        check(file.may_be_written(), 14, end)?;
        let mut heading = file.heading;
        check(heading.code & !digit == 0, 21, Place::no_chain(2))?;
        heading.code = digit;
        Ok(Outcome::stored(vec![Store {
            number: usize::from(file.entry.heading),
            record: Record::Heading(heading),
        }]))
    }

    /// "DEL does walk and end checks name by name and stops at the first refusal", and what document 01 says "for a DEL of several
    /// names holds for DST too". Each name meets the table after the names before it.
    fn each(
        &self,
        names: &[Chain],
        stores: impl Fn(&Asked, usize, &Chain) -> Result<Vec<Store>, Refusal>,
    ) -> Outcome {
        let mut table = self.table.clone();
        let mut outcome = Outcome::default();
        for (at, name) in names.iter().enumerate() {
            let now = Asked {
                table: &table,
                ..*self
            };
            match stores(&now, at + 1, name) {
                Err(refusal) => {
                    outcome.refusal = Some(refusal);
                    return outcome;
                }
                Ok(stores) => {
                    table.make(&stores);
                    outcome.stores.extend(stores);
                    outcome.names.push(outcome.stores.len());
                }
            }
        }
        outcome
    }

    /// "DEL: for each name in turn, the entry cleared."
    fn del_name(&self, argument: usize, name: &Chain) -> Result<Vec<Store>, Refusal> {
        let (file, end) = self.old_name(argument, name)?;
        check(file.directory.may_be_written(), 14, end)?;
        let heading = file.entry.heading;
        let stranded = strands_entries(self.table, file.entry_number, heading);
        check(!stranded, 18, end)?;
        let mut stores = vec![cleared(file.entry_number)];
        recount(self.table, &mut stores, &[heading], &[file.directory.list]);
        settle(self.table, &mut stores, heading);
        Ok(stores)
    }

    /// "Stores for each name: heading cleared, text by position, then every entry naming it, by record number, then the holders'
    /// counts." "needs write on each file, and asks nothing of the directories": 14 is about the file. 18 "for a directory with
    /// entries, its own self-entry included".
    fn dst_name(&self, argument: usize, name: &Chain) -> Result<Vec<Store>, Refusal> {
        let (file, end) = self.old_name(argument, name)?;
        check(file.may_be_written(), 14, end)?;
        let heading = file.entry.heading;
        let mut inside = self.table.entries_in(List::Directory(heading));
        check(inside.next().is_none(), 18, end)?;
        let own = [usize::from(heading)];
        let texts = self.table.texts_of(heading);
        let texts: Vec<usize> = texts.into_iter().map(|(number, _)| number).collect();
        let (entries, holders) = self.table.entries_of(heading);
        let all = [&own[..], &texts, &entries].concat();
        let mut stores = all.into_iter().map(cleared).collect();
        recount(self.table, &mut stores, &[], &holders);
        Ok(stores)
    }

    /// "RDS writes the text to the front of the reply buffer", or the part that is asked for. 20 goes by what would be
    /// written; 28: "first beyond the end".
    fn rds(&self, name: &Chain, portion: Portion) -> Result<Outcome, Refusal> {
        let (file, end) = self.old_name(1, name)?;
        check(file.may_be_read(), 13, end)?;
        check(file.heading.file_type == Type::Simple, 15, end)?;
        let content = self.table.content(file.entry.heading);
        let part = portion.of(&content);
        let outcome = self.reply(part.unwrap_or_default().to_vec())?;
        check(!file.heading.marked, 23, end)?;
        check(part.is_some(), 28, Place::no_chain(2))?;
        Ok(outcome)
    }

    /// "LST writes one line an entry".
    fn lst(&self, listed: &Listed) -> Result<Outcome, Refusal> {
        let entries = self.listed(listed)?;
        self.reply(listing(self.table, entries))
    }

    /// "`LST*` name digit": "the deeper ones take the same names". "The needed length is judged before anything is written."
    fn tree(&self, listed: &Listed, depth: u8) -> Result<Outcome, Refusal> {
        let entries = self.listed(listed)?;
        let lines = tree(self.table, entries, depth, self.room);
        let lines = lines.ok_or(refusal(20, Place::NONE))?;
        Ok(Outcome::replied(lines))
    }

    /// The entries at the top of a listing, in any order: those of a directory, or "the user's base files other than `.W`."
    fn listed(&self, listed: &Listed) -> Result<Vec<&Entry>, Refusal> {
        let in_list = |list| self.table.entries_in(list).map(|(_, entry)| entry);
        let chain = match listed {
            Listed::BaseList => {
                let base = in_list(List::Base(self.user));
                return Ok(base.filter(|entry| entry.name != b".W").collect());
            }
            Listed::Directory(chain) => chain,
        };
        let (file, end) = self.old_name(1, chain)?;
        check(file.may_be_read(), 13, end)?;
        check(file.heading.file_type == Type::Directory, 15, end)?;
        Ok(in_list(List::Directory(file.entry.heading)).collect())
    }

    /// 20: "reply buffer too short".
    fn reply(&self, bytes: Vec<u8>) -> Result<Outcome, Refusal> {
        check(bytes.len() <= self.room, 20, Place::NONE)?;
        Ok(Outcome::replied(bytes))
    }
}
