//! A story: one table, the requests of several users on it, and what befalls it on the way.

use beside::Layout;
use random::names::{misname, misname_before};
use random::{counts, damage, destroys, lists, loops, requests, rewrites, shelves, trees, Random};

use crate::case::{must_not_be, Asked, Case, Comparison, Difference, Sought};
use crate::cut::cut_everywhere;
use crate::levels::in_levels;
use crate::pieces::in_pieces;
use crate::rewritten::marked_and_empty;
use crate::tables::{shuffled, spoiled, About, Start};

type Told = Result<(), Box<Difference>>;

/// Users that are near each other in one of the three bytes, and the highest.
const USERS: [u32; 7] = [1, 2, 0, 257, 65_537, 999_999, 999_743];
const TOO_HIGH: [u32; 4] = [1_000_000, 16_777_217, 0x8000_0001, u32::MAX];

pub struct Story<'a> {
    comparison: &'a mut Comparison,
    random: &'a mut Random,
    /// Another source, of lists and what is looked up through them, so that the story is the same without them.
    lists: Random,
    table: Vec<u8>,
    /// The list of the table before some request.
    stale: Vec<u16>,
    about: About,
    cast: Cast,
}

/// Who asks, and about what.
enum Cast {
    /// Mostly user 1, and these besides, about anything.
    Anything([u32; 2]),
    /// These in turn, mostly about each other's shelves.
    Shelves([u32; 3]),
}

impl<'a> Story<'a> {
    pub fn new(comparison: &'a mut Comparison, random: &'a mut Random, start: Start) -> Self {
        let others = [random.pick(&USERS), random.pick(&USERS)];
        Story {
            lists: Random::new(comparison.requests),
            comparison,
            random,
            stale: beside::true_index(&start.table),
            table: start.table,
            about: start.about,
            cast: Cast::Anything(others),
        }
    }

    /// The same with these users, who give and take.
    pub fn among(self, users: [u32; 3]) -> Self {
        let cast = Cast::Shelves(users);
        Story { cast, ..self }
    }

    /// So many requests, one after the other.
    pub fn tell(&mut self, requests: u64) -> Told {
        for _ in 0..requests {
            self.comparison.requests += 1;
            if self.random.once_in(12) {
                self.table = shuffled(self.random, &self.table);
            }
            let asked = self.asked();
            if self.random.once_in(8) {
                self.with_a_wrong_name(asked.clone())?;
            }
            if self.lists.once_in(4) {
                self.with_another_list(asked.clone())?;
            }
            if self.lists.once_in(6) {
                self.with_a_tree_cut_off()?;
            }
            self.looked_up()?;
            match self.random.once_in(5) {
                true => self.on_a_spoiled_table(asked)?,
                false => self.on_the_sound_table(asked)?,
            }
        }
        Ok(())
    }

    /// What is asked next, and by whom.
    fn asked(&mut self) -> Asked {
        let random = &mut *self.random;
        let user = match (random.below(40), &self.cast) {
            (0, _) => random.pick(&TOO_HIGH),
            (1..=12, Cast::Anything(others)) => random.pick(others),
            (_, Cast::Anything(_)) => 1,
            (_, Cast::Shelves(users)) => random.pick(users),
        };
        let length = match random.below(32) {
            0 => random.pick(&[24_000, 24_001, 24_024, 65_560]),
            1..=20 if self.about == About::LongTexts => {
                random.pick(&[24_000, 24_000, 23_999, 12_000])
            }
            1..=12 => random.pick(&[0, 1, 23, 24, 25, 48, 49]),
            _ => random.below(120),
        };
        let table = &self.table;
        let line = match (&self.cast, self.about) {
            (Cast::Shelves(users), _) => shelves::line(random, table, users, user),
            (_, About::LongChains) if !random.once_in(4) => requests::long(random, table, user),
            (Cast::Anything(others), About::Trees) if !random.once_in(4) => {
                let other = random.pick(&[1, 1, others[0], others[1]]);
                trees::line(random, table, user, other)
            }
            (_, About::Rewrites) if !random.once_in(5) => rewrites::about(random, table, user),
            (_, About::Counts) if !random.once_in(5) => counts::about(random, table, user),
            (_, About::Destroys) if !random.once_in(6) => destroys::about(random, table, user),
            _ => requests::line(random, table, user),
        };
        Asked {
            line,
            text: random.bytes(length),
            reply: random.pick(&[0, 10, 17, 33, 100, 24_000, 24_000, 24_000]),
            user,
        }
    }

    /// A stop number: none, a small one, or one of the highest.
    fn stop(&mut self) -> u32 {
        let small = self.random.below(8) as u32;
        self.random.pick(&[small, small, 65_535, u32::MAX])
    }

    /// The request and mending, on a copy of the table that something befell.
    fn on_a_spoiled_table(&mut self, asked: Asked) -> Told {
        let table = spoiled(self.random, &self.table, asked.user);
        let case = Case::request(&table, asked).stopped(self.stop());
        let seen = self.comparison.compare(&case)?;
        let stop = self.stop();
        for mend in [
            Case::mend(&table, stop),
            Case::mend(&table, filebox::NO_STOP),
            Case::mend(&seen.table, filebox::NO_STOP),
        ] {
            self.comparison.compare(&mend)?;
        }
        if self.lists.once_in(2) {
            let list = lists::wrong(&mut self.lists, &case.index, &self.stale);
            self.comparison.compare(&case.with(&list))?;
            let mend = Case::mend(&table, stop).with(&list);
            self.comparison.compare(&mend)?;
        }
        self.converted(&table)
    }

    /// The request and mending, with a list that is likely not true, now and then for a user that there is not.
    fn with_another_list(&mut self, mut asked: Asked) -> Told {
        if self.lists.once_in(8) {
            asked.user = self.lists.pick(&TOO_HIGH);
        }
        let case = Case::request(&self.table, asked);
        let list = lists::wrong(&mut self.lists, &case.index, &self.stale);
        let mend = Case::mend(&self.table, self.lists.pick(&[0, 1, filebox::NO_STOP]));
        self.comparison.compare(&case.with(&list))?;
        self.comparison.compare(&mend.with(&list))?;
        if self.lists.once_in(4) {
            self.stale = case.index;
        }
        Ok(())
    }

    /// Mending of a copy of the table in which a tree, or several, are cut off or stand in no heading.
    fn with_a_tree_cut_off(&mut self) -> Told {
        let mut table = self.table.clone();
        for _ in 0..self.lists.pick(&[1, 1, 1, 2, 3]) {
            loops::unhook(&mut self.lists, &mut table);
        }
        if self.lists.once_in(4) {
            damage::damage(&mut self.lists, &mut table);
        }
        let mend = Case::mend(&table, filebox::NO_STOP);
        let mended = self.comparison.compare(&mend)?;
        let stop = self.lists.below(mended.stores() as usize + 1) as u32;
        self.comparison.compare(&mend.stopped(stop)).map(|_| ())
    }

    /// Names looked up through the true list; now and then through another one, or in a table that is cut off or whose entries are none.
    fn looked_up(&mut self) -> Told {
        let random = &mut self.lists;
        let mut table = self.table.clone();
        let mut list = beside::true_index(&table);
        match random.below(8) {
            0 => list = lists::junk(random, table.len() / 32),
            1 => list = lists::wrong(random, &list, &self.stale),
            2 => table.truncate(random.below(table.len() + 1)),
            3 => {
                (0..4).for_each(|_| lists::disorder(random, &mut table));
                list = beside::true_index(&table);
            }
            _ => {}
        }
        for _ in 0..3 {
            let (heading, user, name) = lists::sought(&mut self.lists, &self.table);
            let sought = Sought {
                heading,
                user,
                name,
            };
            let case = Case::look_up(&table, &list, sought);
            self.comparison.compare(&case)?;
        }
        Ok(())
    }

    /// The same on a copy in which a name is made wrong, now and then on the old table, with its names right or one wrong.
    fn with_a_wrong_name(&mut self, asked: Asked) -> Told {
        let mut table = self.table.clone();
        match beside::converted(Layout::Six, &table).filter(|_| self.random.once_in(2)) {
            None => misname(self.random, &mut table),
            Some(old) => {
                table = old;
                if !self.random.once_in(4) {
                    misname_before(self.random, &mut table);
                }
            }
        }
        for case in [
            Case::request(&table, asked),
            Case::mend(&table, filebox::NO_STOP),
        ] {
            self.comparison.compare(&case)?;
        }
        self.converted(&table)
    }

    /// The table converted to six-bit names, and from them.
    fn converted(&mut self, table: &[u8]) -> Told {
        for from in [Layout::Old, Layout::Six] {
            self.comparison.compare(&Case::convert(table, from))?;
        }
        Ok(())
    }

    /// The sound table converted to the old layout and back, and once more.
    fn there_and_back(&mut self) -> Told {
        let there = Case::convert(&self.table, Layout::Six);
        let old = self.comparison.compare(&there)?;
        let back = Case::convert(&old.table, Layout::Old);
        let six = self.comparison.compare(&back)?;
        self.converted(&old.table)?;
        self.converted(&six.table)?;
        match (old.number(), six.number(), six.table == self.table) {
            (0, 0, true) => Ok(()),
            _ => Err(must_not_be(&there, "not the same, there and back", &six)),
        }
    }

    /// The request, with no stop number and with all; the table after it is the story's, or, of a rewrite, now and then the one that a cut
    /// leaves, mended.
    fn on_the_sound_table(&mut self, asked: Asked) -> Told {
        let case = Case::request(&self.table, asked);
        let uncut = self.comparison.compare(&case)?;
        if uncut.bytes() > 0 {
            self.in_a_tight_reply(&case, uncut.bytes())?;
        }
        in_pieces(self.comparison, self.random, &case, &uncut)?;
        in_levels(self.comparison, &case, &uncut)?;
        if uncut.stores() > 0 {
            cut_everywhere(self.comparison, self.random, &case, &uncut)?;
        }
        let mend = Case::mend_after(&uncut, self.stop());
        if self.comparison.compare(&mend)?.answer != [0; 7] {
            return Err(must_not_be(&case, "not sound after the request", &uncut));
        }
        let cut = marked_and_empty(&case, &uncut).filter(|_| self.random.once_in(3));
        self.table = cut.unwrap_or(uncut.table);
        match self.random.once_in(8) {
            true => self.there_and_back(),
            false => Ok(()),
        }
    }

    /// A reply buffer of just the bytes that are written, and one byte less.
    fn in_a_tight_reply(&mut self, case: &Case, bytes: usize) -> Told {
        for room in [bytes, bytes - 1] {
            let mut tight = case.clone();
            if let Some(asked) = &mut tight.asked {
                asked.reply = room;
            }
            self.comparison.compare(&tight)?;
        }
        Ok(())
    }
}
