//! Reading a request line: the request, or numbers 4 to 10 and 27 with their place; and what a place is.

use crate::declarations::{Declared, Guard};
use crate::line::{line_fits, words, Word};
use crate::names::{is_base_name, is_link_name, Chain};
use crate::octal::{number, Portion};
use crate::records::Lifetime;

/// "WRS text above 24,000 bytes".
pub const LONGEST_TEXT: usize = 24_000;

/// "The place becomes argument and link".
#[derive(Debug, Clone, Copy, PartialEq, Eq)]
pub struct Place {
    /// "argument from 1", or 0.
    pub argument: u32,
    /// "the link counted from 1 with the supplied `.W` as link 1", or 0.
    pub link: u32,
}

impl Place {
    /// Place 0: no argument in particular.
    pub const NONE: Place = Place {
        argument: 0,
        link: 0,
    };

    /// This link of an argument, or 0 for none of them.
    pub fn link(argument: usize, link: usize) -> Place {
        Place {
            argument: argument as u32,
            link: link as u32,
        }
    }

    /// "0 for ... any argument that is no chain": a declaration, a number of RDS, or CHN's link.
    pub fn no_chain(argument: usize) -> Place {
        Place::link(argument, 0)
    }

    /// "in an end check the chain's last link".
    pub fn end(argument: usize, chain: &Chain) -> Place {
        Place::link(argument, chain.length())
    }
}

/// A number other than 0, with its place.
#[derive(Debug, Clone, Copy, PartialEq, Eq)]
pub struct Refusal {
    /// The reply number.
    pub number: u32,
    /// The argument and link that were refused.
    pub place: Place,
}

/// What LST is to list.
#[derive(Debug, Clone, PartialEq, Eq)]
pub enum Listed<'a> {
    /// "LST of a lone point lists the user's base files other than `.W`."
    BaseList,
    /// The directory at the end of a chain.
    Directory(Chain<'a>),
}

/// A request as it was made out of a line, numbers 4 to 10 and 27 apart.
#[derive(Debug, Clone, PartialEq, Eq)]
#[allow(missing_docs)]
pub enum Request<'a> {
    Crd {
        name: Chain<'a>,
        guard: Guard,
    },
    Wrs {
        lifetime: Lifetime,
        guard: Guard,
        name: Chain<'a>,
    },
    Rewrite {
        name: Chain<'a>,
    },
    Rds {
        name: Chain<'a>,
        portion: Portion,
    },
    Cpy {
        old: Chain<'a>,
        new: Chain<'a>,
        lifetime: Option<Lifetime>,
        guard: Guard,
    },
    Dup {
        old: Chain<'a>,
        new: Chain<'a>,
        digit: Option<u8>,
    },
    Chn {
        old: Chain<'a>,
        link: &'a [u8],
    },
    Del {
        names: Vec<Chain<'a>>,
    },
    Dst {
        names: Vec<Chain<'a>>,
    },
    Dpr {
        name: Chain<'a>,
        digit: u8,
    },
    Lst {
        listed: Listed<'a>,
    },
    Tree {
        listed: Listed<'a>,
        depth: u8,
    },
}

#[derive(Debug, Clone, Copy, PartialEq, Eq)]
enum Function {
    Crd,
    Wrs,
    Rewrite,
    Rds,
    Cpy,
    Dup,
    Chn,
    Del,
    Dst,
    Dpr,
    Lst,
    Tree,
}

/// What an argument is to be.
#[derive(Debug, Clone, Copy, PartialEq, Eq)]
enum Part {
    /// A chain of the user's own.
    Name,
    /// The same, or a take: what RDS, LST and CPY read.
    Source,
    /// DUP's old name: the same, but no bare `.nnnnnn`, "which would hand over the take directory itself".
    Old,
    /// DUP's new name: a chain of the user's own, or a give.
    New,
    Link,
    Declaration,
    /// RDS's first byte: an octal number.
    First,
    /// RDS's count of bytes: the same, and not 0.
    Count,
    /// LST*'s digit.
    Depth,
}

/// "The first word is the function."
fn function(word: &Word) -> Option<Function> {
    match word.whole()? {
        b"CRD" => Some(Function::Crd),
        b"WRS" => Some(Function::Wrs),
        b"WRS*" => Some(Function::Rewrite),
        b"RDS" => Some(Function::Rds),
        b"CPY" => Some(Function::Cpy),
        b"DUP" => Some(Function::Dup),
        b"CHN" => Some(Function::Chn),
        b"DEL" => Some(Function::Del),
        b"DST" => Some(Function::Dst),
        b"DPR" => Some(Function::Dpr),
        b"LST" => Some(Function::Lst),
        b"LST*" => Some(Function::Tree),
        _ => None,
    }
}

/// The table of functions and arguments: the least count of arguments, and what each is to be.
fn form(function: Function) -> (usize, &'static [Part]) {
    use Part::{Count, Declaration, Depth, First, Link, Name, New, Old, Source};
    match function {
        Function::Crd => (1, &[Name, Declaration]),
        Function::Wrs | Function::Rewrite => (2, &[Declaration, Name]),
        Function::Rds => (1, &[Source, First, Count]),
        Function::Lst => (1, &[Source]),
        Function::Tree => (2, &[Source, Depth]),
        Function::Cpy => (2, &[Source, Name, Declaration]),
        Function::Dup => (2, &[Old, New, Declaration]),
        Function::Chn => (2, &[Name, Link]),
        Function::Dpr => (2, &[Name, Declaration]),
        Function::Del | Function::Dst => (1, &[Name; 8]),
    }
}

/// Number 7, and the link that it befalls. "An argument of one dash is ... a malformed name." The link is "the first
/// wrong name ...; 0 for a lone dash, a chain only too long, any argument that is no chain". A dash is a link name as any
/// other, so a lone one has no wrong name.
fn malformed(part: Part, word: &Word) -> Option<usize> {
    let dash = word.whole() == Some(b"-");
    let chain = Chain::of(word);
    match part {
        Part::Link => (dash || !word.whole().is_some_and(is_link_name)).then_some(0),
        Part::Declaration | Part::Depth | Part::First | Part::Count => None,
        _ => (dash || !chain.is_well_formed()).then(|| chain.wrong_link().unwrap_or(0)),
    }
}

/// May `.nnnnnn` stand first in this argument, with so many links after it? "In every other place it still gets 8; so
/// does a bare `.nnnnnn` as DUP's old name ... and a give with no link or more than one".
fn takes_user(part: Part, links: usize) -> bool {
    match part {
        Part::Source => true,
        Part::Old => links >= 1,
        Part::New => links == 1,
        Part::Name | Part::Link | Part::Declaration | Part::Depth | Part::First | Part::Count => {
            false
        }
    }
}

/// Has this chain a first name that may stand first in this argument?
fn begins_well(part: Part, chain: &Chain) -> bool {
    match chain.user() {
        Some(_) => takes_user(part, chain.before.len()),
        None => is_base_name(chain.base()),
    }
}

/// Number 8, "illegal base name (also CHN's link for a base file)", and the link that it befalls: a chain's first name.
fn illegal(function: Function, arguments: &[Word], part: Part, word: &Word) -> Option<usize> {
    let lone_point = word.whole() == Some(b".");
    let old_is_base_file = || Chain::of(&arguments[0]).is_base_file();
    match part {
        Part::Link => (old_is_base_file() && !is_base_name(word.last)).then_some(0),
        Part::Declaration | Part::Depth | Part::First | Part::Count => None,
        _ if matches!(function, Function::Lst | Function::Tree) && lone_point => None,
        _ => (!begins_well(part, &Chain::of(word))).then_some(1),
    }
}

/// Number 27: "bad number". "A count of 0 is refused". A number is no chain.
fn bad_number(part: Part, word: &Word) -> Option<usize> {
    let good = match part {
        Part::First => number(word).is_ok(),
        Part::Count => number(word).is_ok_and(|given| given != Some(0)),
        _ => true,
    };
    (!good).then_some(0)
}

/// Refuse the first argument of which the test gives a link.
fn all_arguments(
    number: u32,
    parts: &[Part],
    arguments: &[Word],
    test: impl Fn(Part, &Word) -> Option<usize>,
) -> Result<(), Refusal> {
    for (at, (part, word)) in parts.iter().zip(arguments).enumerate() {
        if let Some(link) = test(*part, word) {
            return Err(refusal(number, Place::link(at + 1, link)));
        }
    }
    Ok(())
}

/// The request of a line whose names are legal; nothing when the declaration is malformed or unfit.
fn make<'a>(function: Function, arguments: &[Word<'a>]) -> Option<Request<'a>> {
    let chain = |at: usize| Chain::of(&arguments[at]);
    let chains = || arguments.iter().map(Chain::of).collect();
    let declared = |at: usize| match arguments.get(at) {
        None => Some(Declared::default()),
        Some(word) => Declared::read(word),
    };
    // A bad number is refused straight after.
    let given = |at: usize| number(arguments.get(at)?).ok().flatten();
    Some(match function {
        Function::Crd => Request::Crd {
            name: chain(0),
            guard: declared(1)?.for_crd()?,
        },
        Function::Wrs => make_wrs(declared(0)?, chain(1))?,
        Function::Rewrite => {
            declared(0)?.for_rewrite()?;
            Request::Rewrite { name: chain(1) }
        }
        Function::Rds => Request::Rds {
            name: chain(0),
            portion: Portion {
                first: given(1),
                count: given(2),
            },
        },
        Function::Cpy => make_cpy(chain(0), chain(1), declared(2)?)?,
        Function::Dup => Request::Dup {
            old: chain(0),
            new: chain(1),
            digit: declared(2)?.for_dup()?,
        },
        Function::Chn => Request::Chn {
            old: chain(0),
            link: arguments[1].last,
        },
        Function::Del => Request::Del { names: chains() },
        Function::Dst => Request::Dst { names: chains() },
        Function::Dpr => Request::Dpr {
            name: chain(0),
            digit: declared(1)?.for_dpr()?,
        },
        Function::Lst => Request::Lst {
            listed: listed(&arguments[0]),
        },
        Function::Tree => Request::Tree {
            listed: listed(&arguments[0]),
            depth: depth(&arguments[1])?,
        },
    })
}

fn make_wrs(declared: Declared, name: Chain) -> Option<Request> {
    let (lifetime, guard) = declared.for_wrs()?;
    Some(Request::Wrs {
        lifetime,
        guard,
        name,
    })
}

fn make_cpy<'a>(old: Chain<'a>, new: Chain<'a>, declared: Declared) -> Option<Request<'a>> {
    let (lifetime, guard) = declared.for_cpy()?;
    Some(Request::Cpy {
        old,
        new,
        lifetime,
        guard,
    })
}

fn listed<'a>(word: &Word<'a>) -> Listed<'a> {
    match word.whole() {
        Some(b".") => Listed::BaseList,
        _ => Listed::Directory(Chain::of(word)),
    }
}

/// "the digit's depth, 1 to 8": a word of one byte.
fn depth(word: &Word) -> Option<u8> {
    match word.whole()? {
        [digit @ b'1'..=b'8'] => Some(digit - b'0'),
        _ => None,
    }
}

/// A refusal with this number, at this place.
pub fn refusal(number: u32, place: Place) -> Refusal {
    Refusal { number, place }
}

/// Read a line: "Numbers 1 to 10 are tried in that order over the whole line, arguments from left to right
/// within each." Numbers 1 to 3 are not the line's. "27 bad number, straight after 9".
pub fn read(line: &[u8], text_length: usize) -> Result<Request<'_>, Refusal> {
    if !line_fits(line) {
        return Err(refusal(4, Place::NONE));
    }
    let words = words(line);
    let Some((first, arguments)) = words.split_first() else {
        return Err(refusal(5, Place::NONE));
    };
    let function = function(first).ok_or(refusal(5, Place::NONE))?;
    let (least, parts) = form(function);
    if arguments.len() < least || arguments.len() > parts.len() {
        return Err(refusal(6, Place::NONE));
    }
    all_arguments(7, parts, arguments, malformed)?;
    all_arguments(8, parts, arguments, |part, word| {
        illegal(function, arguments, part, word)
    })?;
    let unfit = refusal(9, Place::no_chain(declaration(parts)));
    let request = make(function, arguments).ok_or(unfit)?;
    all_arguments(27, parts, arguments, bad_number)?;
    let stores_text = matches!(function, Function::Wrs | Function::Rewrite);
    if stores_text && text_length > LONGEST_TEXT {
        return Err(refusal(10, Place::NONE));
    }
    Ok(request)
}

/// Which argument of a function is its declaration or its digit.
fn declaration(parts: &[Part]) -> usize {
    let at = parts
        .iter()
        .position(|part| matches!(part, Part::Declaration | Part::Depth));
    at.map_or(0, |at| at + 1)
}
