//! Request lines as they come in: at most one line and one text are held, whatever is sent.

use std::io::{self, BufRead, ErrorKind};

/// The bytes held of a line, and of a text: one more than either may have, so that a longer one is refused all the same.
const MOST_LINE: usize = 257;
const MOST_TEXT: usize = 24_001;
const LINE_END: u8 = 10;

/// What the last bytes of an input are that have no byte 10 after them.
#[derive(Debug, Clone, Copy, PartialEq, Eq)]
pub enum Unended {
    /// A line, as in document 01's program.
    Line,
    /// Nothing: whoever was sending it has gone away in the middle.
    Nothing,
}

/// Is the first word of a line WRS or WRS*? Told byte by byte, so that a line of any length needs no room.
#[derive(Debug, Clone, Copy, PartialEq, Eq)]
enum FirstWord {
    /// Blanks alone.
    Blanks,
    W,
    Wr,
    Wrs,
    Rewrite,
    /// One of these two and blanks: a colon would join a name to it.
    Gap,
    Is,
    IsNot,
}

impl FirstWord {
    fn after(self, byte: u8) -> FirstWord {
        match (self, byte) {
            (FirstWord::Blanks, b' ') => FirstWord::Blanks,
            (FirstWord::Blanks, b'W') => FirstWord::W,
            (FirstWord::W, b'R') => FirstWord::Wr,
            (FirstWord::Wr, b'S') => FirstWord::Wrs,
            (FirstWord::Wrs, b'*') => FirstWord::Rewrite,
            (FirstWord::Wrs | FirstWord::Rewrite | FirstWord::Gap, b' ') => FirstWord::Gap,
            (FirstWord::Gap, b':') => FirstWord::IsNot,
            (FirstWord::Gap | FirstWord::Is, _) => FirstWord::Is,
            _ => FirstWord::IsNot,
        }
    }

    /// Where the line ends here.
    fn takes_text(self) -> bool {
        use FirstWord::{Gap, Is, Rewrite, Wrs};
        matches!(self, Wrs | Rewrite | Gap | Is)
    }
}

/// How a line came to its end.
#[derive(Debug, Clone, Copy, PartialEq, Eq)]
enum End {
    /// By a byte 10.
    Ended,
    /// By the end of the input, after some bytes.
    Cut,
    /// There was none.
    NoLine,
}

/// The line that was read last, and its text.
#[derive(Debug, Default)]
pub struct Held {
    /// Its first 257 bytes.
    pub line: Vec<u8>,
    /// The first 24,001 bytes of the line after a WRS or WRS*; nothing after any other.
    pub text: Vec<u8>,
}

impl Held {
    /// Read the next request; is there one?
    pub fn next(&mut self, input: &mut impl BufRead, unended: Unended) -> io::Result<bool> {
        self.line.clear();
        self.text.clear();
        let mut word = FirstWord::Blanks;
        let end = bytes(input, |byte| {
            hold(&mut self.line, MOST_LINE, byte);
            word = word.after(byte);
        })?;
        let line = end == End::Ended || (end == End::Cut && unended == Unended::Line);
        if !line || !word.takes_text() {
            return Ok(line);
        }
        let end = bytes(input, |byte| hold(&mut self.text, MOST_TEXT, byte))?;
        Ok(end == End::Ended || unended == Unended::Line)
    }
}

/// Keep a byte, if so many are not yet held.
fn hold(held: &mut Vec<u8>, most: usize, byte: u8) {
    if held.len() < most {
        held.push(byte);
    }
}

/// The bytes of one line, without its byte 10, one by one.
fn bytes(input: &mut impl BufRead, mut each: impl FnMut(u8)) -> io::Result<End> {
    let mut some = false;
    loop {
        let portion = match input.fill_buf() {
            Err(error) if error.kind() == ErrorKind::Interrupted => continue,
            portion => portion?,
        };
        if portion.is_empty() {
            return Ok(if some { End::Cut } else { End::NoLine });
        }
        some = true;
        let end = portion.iter().position(|byte| *byte == LINE_END);
        let length = end.unwrap_or(portion.len());
        portion[..length].iter().for_each(|byte| each(*byte));
        input.consume(length + usize::from(end.is_some()));
        if end.is_some() {
            return Ok(End::Ended);
        }
    }
}

#[cfg(test)]
mod tests {
    use super::*;

    /// All requests of an input, read in portions of so many bytes.
    fn requests(input: &[u8], portion: usize, unended: Unended) -> Vec<(Vec<u8>, Vec<u8>)> {
        let mut input = io::BufReader::with_capacity(portion, input);
        let mut held = Held::default();
        let mut met = Vec::new();
        while held.next(&mut input, unended).unwrap() {
            met.push((held.line.clone(), held.text.clone()));
        }
        met
    }

    fn pair(line: &str, text: &str) -> (Vec<u8>, Vec<u8>) {
        (line.into(), text.into())
    }

    #[test]
    fn a_line_after_a_wrs_is_its_text() {
        for portion in [1, 2, 3, 100] {
            let met = requests(b"LST .\nWRS M A\ntext\n\nRDS A", portion, Unended::Line);
            let expected = [("LST .", ""), ("WRS M A", "text"), ("", ""), ("RDS A", "")];
            assert_eq!(met, expected.map(|(line, text)| pair(line, text)));
        }
    }

    #[test]
    fn a_line_after_a_rewrite_is_its_text_too() {
        for portion in [1, 2, 3, 100] {
            let met = requests(
                b"WRS* M A\ntext\nLST* . 2\nWRS** M\nWRS*\n\nWRS* :A\nRDS A\n",
                portion,
                Unended::Line,
            );
            let expected = [
                ("WRS* M A", "text"),
                ("LST* . 2", ""),
                ("WRS** M", ""),
                ("WRS*", ""),
                ("WRS* :A", ""),
                ("RDS A", ""),
            ];
            assert_eq!(met, expected.map(|(line, text)| pair(line, text)));
        }
    }

    #[test]
    fn what_goes_away_in_the_middle_asks_nothing() {
        assert!(requests(b"DEL .R:LIMITS", 100, Unended::Nothing).is_empty());
        assert!(requests(b"WRS M .R:A\nhalf", 100, Unended::Nothing).is_empty());
        assert!(requests(b"WRS* M .R:A\nhalf", 100, Unended::Nothing).is_empty());
        assert_eq!(
            requests(b"LST .\nDEL", 100, Unended::Nothing),
            [pair("LST .", "")]
        );
    }

    #[test]
    fn no_more_is_held_than_a_line_and_a_text() {
        let mut input = b"WRS ".to_vec();
        input.resize(100_000, b' ');
        input.extend(b"\n");
        input.resize(200_000, b'x');
        let met = requests(&input, 8_192, Unended::Line);
        assert_eq!((met[0].0.len(), met[0].1.len()), (MOST_LINE, MOST_TEXT));
    }

    #[test]
    fn the_first_word_is_told_as_the_second_program_tells_it() {
        let mut random = random::Random::new(1971);
        for _ in 0..200_000 {
            let mut line = random.pick(&["", "", "WRS", "WRS*"]).as_bytes().to_vec();
            line.extend((0..random.below(12)).map(|_| random.pick(b"WRS :*A")));
            let word = line
                .iter()
                .fold(FirstWord::Blanks, |word, byte| word.after(*byte));
            assert_eq!(word.takes_text(), beside::takes_text(&line), "{line:?}");
        }
    }
}
