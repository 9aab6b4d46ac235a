//! Declarations: "D or F; S, M or L; a point; U, P, A or S; a digit 0..7."

use crate::line::Word;
use crate::records::{Level, Lifetime, Type};

/// A lifetime as it can be declared. No file is kept with S.
#[derive(Debug, Clone, Copy, PartialEq, Eq)]
pub enum DeclaredLifetime {
    /// Well-formed, and unfit for every function.
    S,
    /// Medium.
    M,
    /// Long.
    L,
}

/// "Each part is either given or not given".
#[derive(Debug, Clone, Copy, Default, PartialEq, Eq)]
pub struct Declared {
    /// D or F.
    pub file_type: Option<Type>,
    /// S, M or L.
    pub lifetime: Option<DeclaredLifetime>,
    /// U, P, A or S, after the point.
    pub level: Option<Level>,
    /// 0..7, after the point.
    pub digit: Option<u8>,
}

/// What CRD, WRS and CPY take from a declaration besides the lifetime.
#[derive(Debug, Clone, Copy, Default, PartialEq, Eq)]
pub struct Guard {
    /// U, P, A or S.
    pub level: Option<Level>,
    /// The code, 0..7.
    pub digit: Option<u8>,
}

/// Take the first byte off, if it stands for something.
fn take<T>(rest: &mut &[u8], stands_for: impl Fn(u8) -> Option<T>) -> Option<T> {
    let (first, after) = rest.split_first()?;
    let part = stands_for(*first)?;
    *rest = after;
    Some(part)
}

fn file_type(byte: u8) -> Option<Type> {
    match byte {
        b'D' => Some(Type::Directory),
        b'F' => Some(Type::Simple),
        _ => None,
    }
}

fn lifetime(byte: u8) -> Option<DeclaredLifetime> {
    match byte {
        b'S' => Some(DeclaredLifetime::S),
        b'M' => Some(DeclaredLifetime::M),
        b'L' => Some(DeclaredLifetime::L),
        _ => None,
    }
}

fn point(byte: u8) -> Option<()> {
    (byte == b'.').then_some(())
}

fn level(byte: u8) -> Option<Level> {
    match byte {
        b'U' => Some(Level::U),
        b'P' => Some(Level::P),
        b'A' => Some(Level::A),
        b'S' => Some(Level::S),
        _ => None,
    }
}

fn digit(byte: u8) -> Option<u8> {
    match byte {
        b'0'..=b'7' => Some(byte - b'0'),
        _ => None,
    }
}

impl Declared {
    /// What a word declares; nothing when it is malformed. "An argument of one dash is an omitted declaration";
    /// "level or digit need the point; a point alone gives nothing."
    pub fn read(word: &Word) -> Option<Declared> {
        let mut rest = word.whole()?;
        if rest == b"-" {
            return Some(Declared::default());
        }
        let mut declared = Declared {
            file_type: take(&mut rest, file_type),
            lifetime: take(&mut rest, lifetime),
            ..Declared::default()
        };
        if take(&mut rest, point).is_some() {
            declared.level = take(&mut rest, level);
            declared.digit = take(&mut rest, digit);
        }
        rest.is_empty().then_some(declared)
    }

    fn guard(self) -> Guard {
        Guard {
            level: self.level,
            digit: self.digit,
        }
    }

    /// "CRD and CPY and WRS refuse a type. CRD refuses a lifetime".
    pub fn for_crd(self) -> Option<Guard> {
        match (self.file_type, self.lifetime) {
            (None, None) => Some(self.guard()),
            _ => None,
        }
    }

    /// "WRS needs one, M or L".
    pub fn for_wrs(self) -> Option<(Lifetime, Guard)> {
        let (lifetime, guard) = self.for_cpy()?;
        Some((lifetime?, guard))
    }

    /// `WRS*`: "same heading, same level and codes, so the declaration may be only M".
    pub fn for_rewrite(self) -> Option<()> {
        let only_medium = Declared {
            lifetime: Some(DeclaredLifetime::M),
            ..Declared::default()
        };
        (self == only_medium).then_some(())
    }

    /// "CPY may have M or L, else takes the source's."
    pub fn for_cpy(self) -> Option<(Option<Lifetime>, Guard)> {
        let lifetime = match self.lifetime {
            None => None,
            Some(DeclaredLifetime::M) => Some(Lifetime::M),
            Some(DeclaredLifetime::L) => Some(Lifetime::L),
            Some(DeclaredLifetime::S) => return None,
        };
        match self.file_type {
            None => Some((lifetime, self.guard())),
            Some(_) => None,
        }
    }

    /// "DUP allows a digit only."
    pub fn for_dup(self) -> Option<Option<u8>> {
        match (self.file_type, self.lifetime, self.level) {
            (None, None, None) => Some(self.digit),
            _ => None,
        }
    }

    /// "DPR needs a digit and allows nothing else."
    pub fn for_dpr(self) -> Option<u8> {
        self.for_dup()?
    }
}
