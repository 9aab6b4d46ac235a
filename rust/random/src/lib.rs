//! What the random tests share: a repeatable source of numbers, request lines, and damage to a table.

pub mod chains;
pub mod counts;
pub mod damage;
pub mod destroys;
pub mod lines;
pub mod lists;
pub mod loops;
pub mod names;
pub mod parts;
pub mod requests;
pub mod rewrites;
pub mod shelves;
pub mod trees;

/// A small repeatable source of numbers (xorshift), from a seed.
pub struct Random(u64);

impl Random {
    /// The source of this seed; near seeds give unlike numbers.
    pub fn new(seed: u64) -> Self {
        let mut random = Random(seed.wrapping_mul(0x9E37_79B9_7F4A_7C15) | 1);
        for _ in 0..16 {
            random.below(2);
        }
        random
    }

    /// A number below `n`.
    pub fn below(&mut self, n: usize) -> usize {
        self.0 ^= self.0 << 13;
        self.0 ^= self.0 >> 7;
        self.0 ^= self.0 << 17;
        ((self.0 >> 11) % n as u64) as usize
    }

    /// True once in `n` times.
    pub fn once_in(&mut self, n: usize) -> bool {
        self.below(n) == 0
    }

    /// One of these.
    pub fn pick<T: Copy>(&mut self, from: &[T]) -> T {
        from[self.below(from.len())]
    }

    /// So many bytes, each any.
    pub fn bytes(&mut self, length: usize) -> Vec<u8> {
        (0..length).map(|_| self.below(256) as u8).collect()
    }
}

#[cfg(test)]
mod tests {
    use super::*;

    /// A directory, which is user 1's `.R`, and an entry A in it that names an empty sheet.
    fn small() -> Vec<u8> {
        let mut table = vec![0; 160];
        table[0] = 1;
        table[32..39].copy_from_slice(&[2, 0, 255, 255, 0, 0, 1]);
        table[41..52].copy_from_slice(&names::laid(".R"));
        table[64..70].copy_from_slice(&[2, 0, 0, 0, 3, 0]);
        table[73..84].copy_from_slice(&names::laid("A"));
        table[96..101].copy_from_slice(&[1, 1, 0, 0, 1]);
        table
    }

    #[test]
    fn a_seed_gives_the_same_again_and_another_gives_others() {
        let bytes = |seed| Random::new(seed).bytes(64);
        assert_eq!(bytes(1971), bytes(1971));
        assert_ne!(bytes(1971), bytes(1972));
    }

    #[test]
    fn every_number_below_the_bound_comes() {
        let mut random = Random::new(1);
        let mut met = [false; 23];
        (0..1_000).for_each(|_| met[random.below(23)] = true);
        assert_eq!(met, [true; 23]);
    }

    #[test]
    fn a_take_goes_by_what_stands_on_the_shelf() {
        // a directory, which is user 7's `.T`, and an entry A in it that names it too
        let mut table = vec![0; 96];
        table[0] = 1;
        table[32..39].copy_from_slice(&[2, 0, 255, 255, 0, 0, 7]);
        table[41..52].copy_from_slice(&names::laid(".T"));
        table[64] = 2;
        table[73..84].copy_from_slice(&names::laid("A"));
        let mut random = Random::new(1);
        let chains: Vec<String> = (0..100)
            .map(|_| chains::taken(&mut random, &table, 7))
            .collect();
        assert!(chains.iter().all(|chain| chain.starts_with(".000007")));
        assert!(chains.iter().any(|chain| chain == ".000007"));
        assert!(chains.iter().any(|chain| chain == ".000007:A:A:A"));
    }

    #[test]
    fn every_depth_comes_and_words_that_are_none() {
        let mut random = Random::new(1);
        let depths: Vec<String> = (0..1_000).map(|_| trees::depth(&mut random)).collect();
        for depth in ["1", "2", "3", "4", "5", "6", "7", "8", "0", "9", "-", "1:2"] {
            assert!(depths.iter().any(|word| word == depth), "{depth}");
        }
        let shallow: Vec<&str> = (0..1_000).map(|_| trees::shallow(&mut random)).collect();
        assert!(["1", "2", "3", "0"]
            .iter()
            .all(|word| shallow.contains(word)));
        assert!(!shallow.contains(&"4"));
    }

    #[test]
    fn every_kind_of_rewrite_comes() {
        let table = small();
        let mut random = Random::new(1);
        let lines: Vec<Vec<u8>> = (0..3_000)
            .map(|_| rewrites::line(&mut random, &table, 1))
            .collect();
        for line in [
            "WRS* M .R:A",
            "WRS* M. .R:A",
            "WRS* M .R",
            "WRS* L .R:A",
            "WRS* M -",
            "WRS* M .1",
            "WRS* M",
        ] {
            assert!(lines.iter().any(|met| met == line.as_bytes()), "{line}");
        }
    }

    #[test]
    fn a_heading_is_marked_and_nothing_else_is() {
        let mut random = Random::new(1);
        let mut met = [0; 3];
        for _ in 0..100 {
            let mut record = [1, 1, 0, 0, 1, 0, 0, 0, 0, 0, 5, 0];
            rewrites::mark(&mut random, &mut record);
            met[usize::from(record[5])] += 1;
        }
        assert!(met.iter().all(|times| *times > 0));
        for kind in [0, 2, 3] {
            let mut record = [kind; 12];
            rewrites::mark(&mut random, &mut record);
            assert_eq!(record, [kind; 12]);
        }
    }

    #[test]
    fn each_byte_of_a_count_is_made_wrong_and_no_other() {
        let mut random = Random::new(1);
        let mut met = [0; 4];
        for _ in 0..200 {
            // an entry, a heading, a text
            let mut table = vec![0; 96];
            (table[0], table[32], table[64]) = (2, 1, 3);
            let before = table.clone();
            counts::miscount(&mut random, &mut table);
            let other = table.iter().zip(&before).position(|(one, two)| one != two);
            if let Some(at) = other {
                met[at - 44] += 1;
                table[at] = 0;
            }
            assert_eq!(table, before);
        }
        assert!(met.iter().all(|times| *times > 10));
        counts::miscount(&mut random, &mut []);
        counts::miscount(&mut random, &mut [2; 32]);
    }

    #[test]
    fn a_table_of_document_01_has_no_count() {
        let mut table = vec![9; 64];
        table[0] = 1;
        counts::uncount(&mut table);
        assert_eq!(table[12..16], [0; 4]);
        table[12..16].fill(9);
        table[0] = 9;
        assert_eq!(table, [9; 64]);
    }

    #[test]
    fn every_kind_of_line_that_moves_counts_comes() {
        let table = small();
        let mut random = Random::new(1);
        let lines: Vec<Vec<u8>> = (0..3_000)
            .map(|_| counts::about(&mut random, &table, 1))
            .collect();
        for line in [
            "DUP .R .R:B",
            "DUP .R:A .R:A .4",
            "DUP .R:A .AB",
            "DUP .R .R:A",
            "DEL .R:A",
            "DEL .R:A .R:A",
            "CRD .R:A",
            "WRS M .R:A",
            "CPY .R:A .R:A",
            "WRS* M .R:A",
        ] {
            assert!(lines.iter().any(|met| met == line.as_bytes()), "{line}");
        }
    }

    #[test]
    fn every_kind_of_dst_comes() {
        let mut random = Random::new(1);
        let lines: Vec<Vec<u8>> = (0..3_000)
            .map(|_| destroys::about(&mut random, &small(), 1))
            .collect();
        for line in [
            "DST .R:A",
            "DST .R",
            "DST .R:A .R:A",
            "DST .R:A .R",
            "DST .R .R:A",
            "DST ",
            "DST -",
            "DST .1",
            "DST .000777",
            "DST .R:A .R:A .R:A .R:A .R:A .R:A .R:A .R:A .R:A",
            "DUP .R .R:B",
        ] {
            assert!(lines.iter().any(|met| met == line.as_bytes()), "{line}");
        }
    }

    #[test]
    fn entries_lose_their_heading() {
        let mut random = Random::new(1);
        let mut met = [0; 4];
        for _ in 0..1_000 {
            let mut table = small();
            destroys::lose(&mut random, &mut table);
            let headings = table.chunks(32).filter(|record| record[0] == 1).count();
            met[0] += usize::from(headings < 2);
            let entry = &table[128..];
            let named = usize::from(u16::from_le_bytes([entry[4], entry[5]]));
            met[1] += usize::from(entry[0] == 2 && named >= 5);
            met[2] += usize::from(entry[0] == 2 && [1, 2].contains(&named));
            met[3] += usize::from(entry[0] == 2 && named == 4);
        }
        assert!(met.iter().all(|times| *times > 50), "{met:?}");
        destroys::lose(&mut random, &mut []);
        destroys::lose(&mut random, &mut [3; 32]);
    }

    #[test]
    fn names_are_read_as_they_were_laid() {
        assert_eq!(names::laid(".R"), [0, 0, 0, 0, 0, 0, 0, 178, 3, 0, 0]);
        for name in ["", "A", "!", "_", ".R", "LONGNAME10", "A B", "__________"] {
            let mut entry = [2; 32];
            entry[9..20].copy_from_slice(&names::laid(name));
            assert_eq!(names::name(&entry), name);
        }
    }

    #[test]
    fn the_name_of_one_entry_is_made_wrong_and_nothing_else() {
        let (mut random, before) = (Random::new(1), small());
        for wrong in [names::misname, names::misname_before] {
            let mut met = [0; 32];
            for _ in 0..2_000 {
                let mut table = before.clone();
                wrong(&mut random, &mut table);
                let other: Vec<usize> = (0..160).filter(|at| table[*at] != before[*at]).collect();
                assert!(other.iter().all(|at| [1, 2].contains(&(at / 32))));
                other.iter().for_each(|at| met[at % 32] += 1);
            }
            assert!(met[..9].iter().all(|times| *times == 0));
            assert!(
                [9, 10, 19, 20, 31].iter().all(|at| met[*at] > 10),
                "{met:?}"
            );
            wrong(&mut random, &mut []);
            wrong(&mut random, &mut [3; 32]);
        }
    }

    #[test]
    fn damage_changes_a_table_and_leaves_an_empty_one() {
        let mut random = Random::new(1);
        let mut table = random.bytes(96);
        let before = table.clone();
        (0..20).for_each(|_| damage::damage(&mut random, &mut table));
        assert_ne!(table, before);
        damage::damage(&mut random, &mut []);
    }

    #[test]
    fn lists_are_mostly_other_ones_and_of_every_length() {
        let (list, stale) = (
            [2, 1, 65_535, 65_535, 65_535],
            [1, 65_535, 65_535, 65_535, 65_535],
        );
        let mut random = Random::new(1);
        let made: Vec<Vec<u16>> = (0..1_000)
            .map(|_| lists::wrong(&mut random, &list, &stale))
            .collect();
        let count =
            |test: &dyn Fn(&Vec<u16>) -> bool| made.iter().filter(|list| test(list)).count();
        assert!(count(&|made| made[..] != list) > 600);
        assert!(count(&|made| made[..] == stale) > 100);
        assert!(count(&|made| made.len() < 5) > 10);
        assert!(count(&|made| made.len() > 5) > 10);
        assert!(count(&|made| made.len() == 5 && made[..2] == [2, 1]) > 50);
        assert!(count(&|made| made[..] == [1, 2, 65_535, 65_535, 65_535]) > 10);
    }

    #[test]
    fn names_are_looked_up_where_they_are_and_elsewhere() {
        let table = small();
        let mut random = Random::new(1);
        let sought: Vec<_> = (0..1_000)
            .map(|_| lists::sought(&mut random, &table))
            .collect();
        for (heading, user, name) in [(65_535, 1, &b".R"[..]), (0, 0, b"A")] {
            let there = (heading, user, name.to_vec());
            assert!(sought.iter().filter(|one| **one == there).count() > 200);
        }
        assert!(sought.iter().any(|(_, _, name)| name.is_empty()));
        assert!(sought.iter().any(|(heading, _, _)| *heading > 65_535));
    }

    #[test]
    fn an_entry_is_made_such_as_no_sound_table_has() {
        let mut random = Random::new(1);
        let made = || {
            let mut table = small();
            lists::disorder(&mut random, &mut table);
            table
        };
        let made: Vec<Vec<u8>> = std::iter::repeat_with(made).take(200).collect();
        // a user in a directory, in each byte; another name, and one of more than 60 bits
        for at in [70, 71, 72, 74, 81] {
            assert!(made.iter().any(|table| table[at] != small()[at]), "{at}");
        }
        let headings = |table: &[u8]| [table[..32].to_vec(), table[96..].to_vec()];
        assert!(made
            .iter()
            .all(|table| headings(table) == headings(&small())));
    }

    #[test]
    fn every_kind_of_line_that_makes_and_loses_loops_comes() {
        let mut random = Random::new(1);
        let lines: Vec<Vec<u8>> = (0..3_000)
            .map(|_| loops::about(&mut random, &small(), 1))
            .collect();
        for line in [
            "CRD .R:A",
            "DUP .R .R:B",
            "DUP .R .R:A",
            "DEL .R",
            "DEL .R:A .R",
            "WRS M .R:AB",
            "WRS M .R:A",
            "DPR .R .7",
        ] {
            assert!(lines.iter().any(|met| met == line.as_bytes()), "{line}");
        }
    }

    #[test]
    fn trees_are_cut_off() {
        let mut random = Random::new(1);
        let mut met = [0; 4];
        for _ in 0..3_000 {
            let mut table = small();
            loops::unhook(&mut random, &mut table);
            let differ = (0..5).filter(|at| table[at * 32..][..32] != small()[at * 32..][..32]);
            let differ: Vec<usize> = differ.collect();
            assert!(differ.len() < 2, "{differ:?}");
            match differ.first() {
                Some(1) => met[0] += 1,
                Some(2) if table[64] == 0 => met[1] += 1,
                Some(2) => met[2] += 1,
                Some(0) => met[3] += 1,
                _ => {}
            }
        }
        assert!(met.iter().all(|times| *times > 50), "{met:?}");
        loops::unhook(&mut random, &mut []);
        loops::unhook(&mut random, &mut [1; 32]);
        loops::unhook(&mut random, &mut [3; 32]);
    }
}
