//! A table of records, owned or lent, with its index, and what a fixture asks of it.

use std::hash::{Hash, Hasher};

use crate::answer::{Answer, Refused};
use crate::index::{index_of, PADDING};
use crate::library::{from_six, mend, request, sweep, to_six};
use crate::number::Number;

/// "The table is records of 32 bytes".
pub const RECORD_BYTES: usize = 32;
/// "0 to 2,048 of them".
pub const MOST_RECORDS: usize = 2_048;
/// The longest text of a file, in bytes.
pub const LONGEST_TEXT: usize = 24_000;
/// A stop number that no call reaches: a request makes fewer than 4,096 stores (a DST of eight names clears a record once, and stores at most a
/// count for each entry that it clears), a mend or a sweep at most 2,048. `FILEBOX_NO_STOP` of the C header.
pub const NO_STOP: u32 = 65_535;

/// The bytes of the longest listing: 112 lines of a name of ten characters.
const LONGEST_LISTING: usize = 112 * 21;

/// A table: `Table` owns its bytes, `Table<&mut [u8]>` has them lent. Any bytes will do; a table that is not sound, or of
/// a length that does not fit, is refused by every request. Two tables are equal when their bytes are.
///
/// ```
/// use filebox::Table;
///
/// let mut memory = [0; 64];
/// let mut lent = Table::of(&mut memory[..]);
/// lent.ask(1, "CRD .R").unwrap();
/// assert_eq!(memory[0], 1);
/// ```
///
/// It keeps its index beside the bytes, and no call of it gets 26: the index of a sound table is built when it is first asked for, again
/// after the bytes were handed out to be written ([`AsMut`]) and after a call that was stopped; every other call keeps it true. A table that
/// is not sound has none, and is refused by 2 until it is mended.
///
/// ```
/// use filebox::{Holder, Table};
///
/// let mut filed = Table::free(16);
/// filed.ask(1, "CRD .R").unwrap();
/// let mut loaded = Table::of(filed.into_bytes());
/// loaded.ask(1, "DUP .R .G").unwrap();
/// loaded.as_mut().fill(0);
/// loaded.ask(1, "CRD .R").unwrap();
/// assert_eq!(loaded.look_up(Holder::Base(1), ".G").unwrap().entry, None);
/// ```
#[derive(Debug, Clone)]
pub struct Table<B = Vec<u8>> {
    bytes: B,
    /// The true index of the bytes; empty where it is not built.
    index: Vec<u16>,
}

impl<B: PartialEq> PartialEq for Table<B> {
    fn eq(&self, other: &Table<B>) -> bool {
        self.bytes == other.bytes
    }
}

impl<B: Eq> Eq for Table<B> {}

impl<B: Hash> Hash for Table<B> {
    fn hash<H: Hasher>(&self, state: &mut H) {
        self.bytes.hash(state);
    }
}

impl Table {
    /// So many records, all free.
    pub fn free(records: usize) -> Table {
        Table {
            bytes: vec![0; records * RECORD_BYTES],
            index: vec![PADDING; records],
        }
    }
}

impl<B> Table<B> {
    /// The table of these bytes, given or lent.
    pub fn of(bytes: B) -> Table<B> {
        Table {
            bytes,
            index: Vec::new(),
        }
    }

    /// The bytes, handed back.
    pub fn into_bytes(self) -> B {
        self.bytes
    }
}

impl<B: AsRef<[u8]>> AsRef<[u8]> for Table<B> {
    fn as_ref(&self) -> &[u8] {
        self.bytes.as_ref()
    }
}

impl<B: AsMut<[u8]>> AsMut<[u8]> for Table<B> {
    /// The bytes, to be written: any table may stand there then, so the index is built anew when it is next asked for.
    fn as_mut(&mut self) -> &mut [u8] {
        self.index.clear();
        self.bytes.as_mut()
    }
}

impl<B: AsMut<[u8]>> Table<B> {
    /// See that a sound table has its index; of bytes that no request takes, say the number that they get.
    pub(crate) fn build(&mut self) -> Result<(), Refused> {
        if self.index.is_empty() {
            self.index = index_of(self.bytes.as_mut())?;
        }
        Ok(())
    }

    /// The bytes and the index, as a call takes them.
    pub(crate) fn lent(&mut self) -> (&mut [u8], &mut [u16]) {
        // what has no index is not sound, and the call says so
        let _ = self.build();
        (self.bytes.as_mut(), &mut self.index)
    }

    /// A request as it is, with no stop number.
    #[must_use = "the answer may be a refusal"]
    pub fn request(
        &mut self,
        user: u32,
        line: impl AsRef<[u8]>,
        text: &[u8],
        reply: &mut [u8],
    ) -> Answer {
        self.stopped(user, line, text, reply, NO_STOP)
    }

    /// A request with a stop number: exactly its first `stop` stores are made, as if the power failed then. Stopped (22), the table is
    /// mended before it is asked again.
    ///
    /// ```
    /// use filebox::{Number, Table};
    ///
    /// let mut table = Table::free(16);
    /// let cut = table.stopped(1, "CRD .R", b"", &mut [], 1);
    /// assert_eq!((cut.number, cut.stores), (Number::Stopped, 1));
    /// assert_eq!(table.ask(1, "LST .").unwrap_err().answer().number, Number::TableNotSound);
    /// table.mend().unwrap();
    /// assert_eq!(table, Table::free(16));
    /// ```
    #[must_use = "the answer may be a refusal"]
    pub fn stopped(
        &mut self,
        user: u32,
        line: impl AsRef<[u8]>,
        text: &[u8],
        reply: &mut [u8],
        stop: u32,
    ) -> Answer {
        let (bytes, index) = self.lent();
        let answer = request(bytes, index, line.as_ref(), text, reply, user, stop);
        if answer.number == Number::Stopped {
            self.index.clear();
        }
        answer
    }

    /// A request that takes no text and gives no reply bytes: CRD, CPY, DUP, CHN, DEL, DST, DPR.
    ///
    /// A DEL or a DST that is refused midway has done the names before:
    ///
    /// ```
    /// use filebox::{Number, Table};
    ///
    /// let mut table = Table::free(2);
    /// table.ask(1, "CRD .R").unwrap();
    /// let answer = table.ask(1, "DEL .R .R").unwrap_err().answer();
    /// assert_eq!((answer.number, answer.place, answer.link, answer.names), (Number::NameNotThere, 2, 1, 1));
    /// assert_eq!(table, Table::free(2));
    /// ```
    pub fn ask(&mut self, user: u32, line: &str) -> Result<Answer, Refused> {
        self.request(user, line, b"", &mut []).granted()
    }

    /// WRS: file a sheet under a name, as declared. A declaration or a name with a blank in it would be two words of the line:
    /// it is refused here, by 9 or 7, and the box is not asked.
    ///
    /// ```
    /// use filebox::Table;
    ///
    /// let mut table = Table::free(16);
    /// table.ask(1, "CRD .R").unwrap();
    /// let refused = table.file(1, "M", ".R:TEST LIMITS", b"5.0 V").unwrap_err();
    /// assert_eq!(refused.to_string(), "7: malformed name or chain (argument 2)");
    /// ```
    pub fn file(
        &mut self,
        user: u32,
        declaration: &str,
        name: &str,
        text: &[u8],
    ) -> Result<Answer, Refused> {
        without_blank(declaration, Number::DeclarationUnfit, 1)?;
        without_blank(name, Number::MalformedName, 2)?;
        let line = format!("WRS {declaration} {name}");
        self.request(user, &line, text, &mut []).granted()
    }

    /// WRS*: rewrite a sheet of lifetime M. Its heading stays, with level and codes, so every link to it sees the new text; a copy of
    /// it does not. It needs write on the sheet, and as much room as the free records and the old text's. A sheet of lifetime L gets 24; a
    /// name that is not there 11, since no file is made; a name with a blank in it 7, as in [`Table::file`].
    ///
    /// Test limits change weekly and every link sees the new text:
    ///
    /// ```
    /// use filebox::{Number, Table};
    ///
    /// let mut table = Table::free(16);
    /// table.ask(1, "CRD .R").unwrap();
    /// table.file(1, "M", ".R:LIMITS", b"5.0 V").unwrap();
    /// table.ask(1, "DUP .R:LIMITS .R:BOARD7").unwrap();
    /// table.rewrite(1, ".R:LIMITS", b"4.9 V to 5.1 V").unwrap();
    /// assert_eq!(table.sheet(1, ".R:BOARD7").unwrap(), b"4.9 V to 5.1 V");
    /// let refused = table.rewrite(1, ".R:KEYS", b"9 9 9").unwrap_err();
    /// assert_eq!(refused.answer().number, Number::NameNotThere);
    /// ```
    ///
    /// A rewrite that was cut leaves the sheet marked and empty, and the next one repairs it:
    ///
    /// ```
    /// use filebox::{Number, Table};
    ///
    /// let mut table = Table::free(16);
    /// table.file(1, "M", ".LIMITS", b"5.0 V").unwrap();
    /// let cut = table.stopped(1, "WRS* M .LIMITS", b"4.9 V", &mut [], 3);
    /// assert_eq!((cut.number, cut.stores), (Number::Stopped, 3));
    /// table.mend().unwrap();
    /// let refused = table.sheet(1, ".LIMITS").unwrap_err();
    /// assert_eq!(refused.to_string(), "23: RDS, CPY: marked, since a rewrite of it was cut (argument 1, link 1)");
    /// table.rewrite(1, ".LIMITS", b"4.9 V").unwrap();
    /// assert_eq!(table.sheet(1, ".LIMITS").unwrap(), b"4.9 V");
    /// ```
    pub fn rewrite(&mut self, user: u32, name: &str, text: &[u8]) -> Result<Answer, Refused> {
        without_blank(name, Number::MalformedName, 2)?;
        let line = format!("WRS* M {name}");
        self.request(user, &line, text, &mut []).granted()
    }

    /// DST: destroy a file everywhere: its heading, its text and every entry that names it, of whatever user and in whatever directory. It
    /// needs write on the file, and asks nothing of the directories. A directory with entries, its own included, gets 18; a name with a
    /// blank in it 7, as in [`Table::file`]. Up to eight names at once go by [`Table::ask`].
    ///
    /// When a key sheet is withdrawn, every path goes:
    ///
    /// ```
    /// use filebox::{Number, Table};
    ///
    /// let (day, night) = (1, 777);
    /// let mut table = Table::free(16);
    /// table.ask(day, "CRD .R").unwrap();
    /// table.file(day, "M", ".R:KEYS", b"9 9 9").unwrap();
    /// table.ask(night, "CRD .G").unwrap();
    /// table.ask(day, "DUP .R:KEYS .000777:KEYS .1").unwrap();
    /// // heading, text, two entries, and the counts of `.R` and `.G`
    /// assert_eq!(table.destroy(day, ".R:KEYS").unwrap().stores, 6);
    /// let refused = table.sheet(night, ".G:KEYS").unwrap_err();
    /// assert_eq!(refused.to_string(), "11: name not there (argument 1, link 2)");
    /// ```
    ///
    /// Who has an entry without the pen cannot withdraw the sheet:
    ///
    /// ```
    /// use filebox::{Number, Table};
    ///
    /// let mut table = Table::free(16);
    /// table.file(1, "M", ".KEYS", b"9 9 9").unwrap();
    /// table.ask(777, "CRD .G").unwrap();
    /// table.ask(1, "DUP .KEYS .000777:KEYS .1").unwrap();
    /// let refused = table.destroy(777, ".G:KEYS").unwrap_err();
    /// assert_eq!(refused.answer().number, Number::WriteInhibited);
    /// ```
    pub fn destroy(&mut self, user: u32, name: &str) -> Result<Answer, Refused> {
        without_blank(name, Number::MalformedName, 1)?;
        self.ask(user, &format!("DST {name}"))
    }

    /// RDS: the text of a sheet. A sheet that a cut rewrite left marked gets 23. A name with a blank in it is refused by 7, as in [`Table::file`].
    pub fn sheet(&mut self, user: u32, name: &str) -> Result<Vec<u8>, Refused> {
        without_blank(name, Number::MalformedName, 1)?;
        self.reply(user, &format!("RDS {name}"), LONGEST_TEXT)
    }

    /// RDS of a part: so many bytes of a sheet from the first on, counted from 0; fewer where the text ends before. A count of
    /// [`LONGEST_TEXT`] is to the end. A count of 0, and numbers of more than six octal digits, get 27; a first byte beyond the
    /// end gets 28.
    ///
    /// ```
    /// use filebox::{Number, Table};
    ///
    /// let mut table = Table::free(16);
    /// table.ask(1, "CRD .R").unwrap();
    /// table.file(1, "M", ".R:LIMITS", b"5.0 V 4.9 V").unwrap();
    /// assert_eq!(table.part(1, ".R:LIMITS", 6, 5).unwrap(), b"4.9 V");
    /// assert_eq!(table.part(1, ".R:LIMITS", 11, 5).unwrap(), b"");
    /// let refused = table.part(1, ".R:LIMITS", 12, 5).unwrap_err();
    /// assert_eq!(refused.answer().number, Number::FirstBeyondEnd);
    /// ```
    pub fn part(
        &mut self,
        user: u32,
        name: &str,
        first: usize,
        count: usize,
    ) -> Result<Vec<u8>, Refused> {
        without_blank(name, Number::MalformedName, 1)?;
        let line = format!("RDS {name} {first:o} {count:o}");
        self.reply(user, &line, count.min(LONGEST_TEXT))
    }

    /// LST: the lines of a directory; with a lone point, of the user's base files other than `.W`. A name with a blank in it is
    /// refused by 7, as in [`Table::file`].
    pub fn list(&mut self, user: u32, name: &str) -> Result<Vec<u8>, Refused> {
        without_blank(name, Number::MalformedName, 1)?;
        self.reply(user, &format!("LST {name}"), LONGEST_LISTING)
    }

    /// LST*: the lines of a directory and, two blanks further in, of each readable directory in it, down to so many levels, 1 to 8; with
    /// a lone point, of the user's base files other than `.W`. They are written to the front of the buffer and handed back. A
    /// directory that holds itself is shown again at each level, so no buffer is long enough for every tree: lines that do not fit
    /// get 20, and the buffer is as it was. Another depth gets 9; a name with a blank in it is refused by 7, as in [`Table::file`].
    ///
    /// ```
    /// use filebox::{Number, Table};
    ///
    /// let mut table = Table::free(16);
    /// table.ask(1, "CRD .R").unwrap();
    /// table.ask(1, "CRD .R:LINE1").unwrap();
    /// table.file(1, "M", ".R:LINE1:LIMITS", b"5.0 V").unwrap();
    /// table.ask(1, "DUP .R .R:LINE1:UP").unwrap();
    /// let mut reply = [0; 80];
    /// let lines = table.tree(1, ".R", 3, &mut reply).unwrap();
    /// assert_eq!(
    ///     lines,
    ///     b"DM.U0    LINE1\r\n  FM.U0    LIMITS\r\n  DM.U0    UP\r\n    DM.U0    LINE1\r\n"
    /// );
    /// let refused = table.tree(1, ".R", 9, &mut reply).unwrap_err();
    /// assert_eq!(refused.answer().number, Number::DeclarationUnfit);
    /// let refused = table.tree(1, ".R", 8, &mut reply).unwrap_err();
    /// assert_eq!(refused.answer().number, Number::ReplyTooShort);
    /// ```
    pub fn tree<'r>(
        &mut self,
        user: u32,
        name: &str,
        depth: usize,
        reply: &'r mut [u8],
    ) -> Result<&'r [u8], Refused> {
        without_blank(name, Number::MalformedName, 1)?;
        let line = format!("LST* {name} {depth}");
        let answer = self.request(user, &line, b"", reply).granted()?;
        Ok(&reply[..answer.bytes])
    }

    /// Mend the table, as the first thing after the power is back. See [`mend`].
    pub fn mend(&mut self) -> Result<Answer, Refused> {
        let bytes = self.as_mut();
        let mut index = vec![PADDING; bytes.len() / RECORD_BYTES];
        let mended = mend(bytes, &mut index, NO_STOP).granted()?;
        self.index = index;
        Ok(mended)
    }

    /// Sweep the table: clear exactly what no chain of entries from any user's base files reaches, whatever the codes on it. At most `stop` stores are
    /// made, [`NO_STOP`] for all. The answer says how many there were, the counts that were corrected among them; none where nothing is lost.
    /// Stopped (22), the table is mended before it is asked again, and swept again it ends as by one uncut sweep.
    ///
    /// A directory that holds itself outlives the one entry that led to it:
    ///
    /// ```
    /// use filebox::{Number, Table, NO_STOP};
    ///
    /// let mut table = Table::free(16);
    /// table.ask(1, "CRD .R").unwrap();
    /// let before = table.clone();
    /// table.ask(1, "CRD .R:LINE1").unwrap();
    /// table.file(1, "M", ".R:LINE1:LIMITS", b"5.0 V").unwrap();
    /// table.ask(1, "DUP .R:LINE1 .R:LINE1:LOOP").unwrap();
    /// table.ask(1, "DEL .R:LINE1").unwrap();
    /// assert_ne!(table, before);
    /// assert_eq!(table.clone().sweep(2).unwrap_err().answer().number, Number::Stopped);
    /// // two entries, two headings, one text
    /// assert_eq!(table.sweep(NO_STOP).unwrap().stores, 5);
    /// assert_eq!(table, before);
    /// assert_eq!(table.sweep(NO_STOP).unwrap().stores, 0);
    /// ```
    pub fn sweep(&mut self, stop: u32) -> Result<Answer, Refused> {
        let (bytes, index) = self.lent();
        let answer = sweep(bytes, index, stop);
        if answer.number == Number::Stopped {
            self.index.clear();
        }
        answer.granted()
    }

    /// A table of the old layout, a byte for each character of a name, converted to six-bit names; every request of the old one answers
    /// on it as before. A table that is not sound in the old layout, one of six-bit names that has entries among them, is refused and stays. A
    /// power cut may leave half of it converted, so convert a copy:
    ///
    /// ```
    /// use filebox::{Refused, Table};
    ///
    /// fn main() -> Result<(), Refused> {
    ///     let mut filed = Table::free(16);
    ///     filed.ask(1, "CRD .R")?;
    ///     filed.file(1, "M", ".R:LIMITS", b"5.0 V")?;
    ///     let mut old = filed.clone();
    ///     old.from_six()?;
    ///
    ///     let mut table = old.clone();
    ///     table.to_six()?;
    ///     assert_eq!(table.sheet(1, ".R:LIMITS")?, b"5.0 V");
    ///     assert_eq!(table, filed);
    ///     assert_eq!(table.to_six().unwrap_err().to_string(), "2: table not sound");
    ///     Ok(())
    /// }
    /// ```
    pub fn to_six(&mut self) -> Result<(), Refused> {
        converted(to_six(self.as_mut()))
    }

    /// A table of six-bit names converted to the old layout. No request takes it then, until it is converted back; nothing is lost by that.
    #[allow(clippy::wrong_self_convention)]
    pub fn from_six(&mut self) -> Result<(), Refused> {
        converted(from_six(self.as_mut()))
    }

    /// The reply bytes of a request that gives no more than so many.
    fn reply(&mut self, user: u32, line: &str, most: usize) -> Result<Vec<u8>, Refused> {
        let mut reply = vec![0; most];
        let answer = self.request(user, line, b"", &mut reply).granted()?;
        reply.truncate(answer.bytes);
        Ok(reply)
    }
}

/// What a conversion says: done, or refused with the table as it was.
fn converted(number: Number) -> Result<(), Refused> {
    match number {
        Number::Done => Ok(()),
        refused => Err(Refused::unasked(refused, 0)),
    }
}

/// No name and no declaration has a blank: an argument that has one is refused, by this number and at this place; it is
/// no chain, so it has no link.
fn without_blank(argument: &str, number: Number, place: u32) -> Result<(), Refused> {
    match argument.contains(' ') {
        true => Err(Refused::unasked(number, place)),
        false => Ok(()),
    }
}
