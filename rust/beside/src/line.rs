//! "Request lines": a line cut into words.

/// "At most 256 bytes".
const LONGEST_LINE: usize = 256;

/// A word, cut at its colons: a word without a colon is its last stretch alone.
#[derive(Debug, Clone, Default, PartialEq, Eq)]
pub struct Word<'a> {
    /// The stretches before the last colon.
    pub before: Vec<&'a [u8]>,
    /// The stretch after the last colon.
    pub last: &'a [u8],
}

/// A colon, or a stretch of bytes that are neither blank nor colon.
enum Token<'a> {
    Colon,
    Stretch(&'a [u8]),
}

impl<'a> Word<'a> {
    /// The first stretch.
    pub fn first(&self) -> &'a [u8] {
        self.before.first().copied().unwrap_or(self.last)
    }

    /// The word, if there is no colon in it.
    pub fn whole(&self) -> Option<&'a [u8]> {
        self.before.is_empty().then_some(self.last)
    }

    /// One more colon, or the stretch after the last one.
    fn join(&mut self, token: Token<'a>) {
        match token {
            Token::Colon => {
                self.before.push(self.last);
                self.last = b"";
            }
            Token::Stretch(stretch) => self.last = stretch,
        }
    }
}

/// Not number 4: "At most 256 bytes, each 32..95."
pub fn line_fits(line: &[u8]) -> bool {
    line.len() <= LONGEST_LINE && line.iter().all(|byte| matches!(byte, 32..=95))
}

/// The colons and stretches of a line, in order; the blanks are gone.
fn tokens(line: &[u8]) -> Vec<Token<'_>> {
    let ends_stretch = |byte: &u8| matches!(byte, b' ' | b':');
    let mut tokens = Vec::new();
    let mut rest = line;
    while let Some(first) = rest.first() {
        let mut length = 1;
        match first {
            b' ' => {}
            b':' => tokens.push(Token::Colon),
            _ => {
                length = rest.iter().position(ends_stretch).unwrap_or(rest.len());
                tokens.push(Token::Stretch(&rest[..length]));
            }
        }
        rest = &rest[length..];
    }
    tokens
}

/// "Words are separated by blanks; blanks beside a colon do not count." So two stretches with only blanks
/// between them are of two words, and a colon joins what stands on its two sides.
pub fn words(line: &[u8]) -> Vec<Word<'_>> {
    let mut words: Vec<Word> = Vec::new();
    let mut after_colon = false;
    for token in tokens(line) {
        let is_colon = matches!(token, Token::Colon);
        if words.is_empty() || !(is_colon || after_colon) {
            words.push(Word::default());
        }
        if let Some(word) = words.last_mut() {
            word.join(token);
        }
        after_colon = is_colon;
    }
    words
}
