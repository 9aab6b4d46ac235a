//! The lines of `crates/reading`, read by the second program: what it makes of each is what the proved reader's program
//! must write (`crates/reading/stdout`, which the gate holds the program to).

use beside::{Chain, Guard, Level, Lifetime, Listed, Refusal, Request};
use std::fs;

/// Where a stretch of the line starts in it, if it is one.
fn place(line: &[u8], stretch: &[u8]) -> Option<usize> {
    let at = (stretch.as_ptr() as usize).checked_sub(line.as_ptr() as usize)?;
    (at + stretch.len() <= line.len()).then_some(at)
}

/// Where a chain's first written name starts: a supplied `.W` is no stretch of the line.
fn start(line: &[u8], chain: &Chain) -> String {
    let first = chain.names().find_map(|name| place(line, name));
    first.expect("a chain has a written name").to_string()
}

fn shown<T: ToString>(part: Option<T>) -> String {
    part.map_or("-".to_string(), |n| n.to_string())
}

fn level(part: Option<Level>) -> String {
    shown(part.map(|l| match l {
        Level::U => 0,
        Level::P => 1,
        Level::A => 2,
        Level::S => 3,
    }))
}

fn lifetime(part: Lifetime) -> u8 {
    match part {
        Lifetime::M => 1,
        Lifetime::L => 2,
    }
}

fn guarded(guard: Guard) -> String {
    format!("{} {}", level(guard.level), shown(guard.digit))
}

/// The first five bytes of a heading: kind, type, level, code and lifetime.
fn heading(kind: u8, lifetime: u8, guard: Guard) -> String {
    let level = level(guard.level.or(Some(Level::U)));
    format!("1 {kind} {level} {} {lifetime}", guard.digit.unwrap_or(0))
}

/// Where a chain starts, unless in one's own base list, and the chain: the shelf's letter and its user.
fn begun(line: &[u8], shelf: char, chain: &Chain) -> String {
    let begin = chain.user().map(|user| format!("{shelf}{user} "));
    format!("{}{}", begin.unwrap_or_default(), start(line, chain))
}

/// Number, argument and link.
fn refused(Refusal { number, place }: Refusal) -> String {
    format!("{number} {} {}", place.argument, place.link)
}

fn made_of(line: &[u8]) -> String {
    let request = match beside::read(line, 0) {
        Err(refusal) => return refused(refusal),
        Ok(request) => request,
    };
    let at = |chain: &Chain| start(line, chain);
    let old = |chain: &Chain| begun(line, 'T', chain);
    match &request {
        Request::Crd { name, guard } => {
            format!(
                "0 CRD {} {} {}",
                at(name),
                guarded(*guard),
                heading(0, 1, *guard)
            )
        }
        Request::Wrs {
            lifetime: life,
            guard,
            name,
        } => {
            let life = lifetime(*life);
            format!(
                "0 WRS {life} {} {} {}",
                guarded(*guard),
                at(name),
                heading(1, life, *guard)
            )
        }
        Request::Rewrite { name } => format!("0 WRS* {}", at(name)),
        Request::Rds { name, portion } => {
            let (first, count) = (shown(portion.first), shown(portion.count));
            format!("0 RDS {} {first} {count}", old(name))
        }
        Request::Cpy {
            old: name,
            new,
            lifetime: life,
            guard,
        } => {
            format!(
                "0 CPY {} {} {} {}",
                old(name),
                at(new),
                shown(life.map(lifetime)),
                guarded(*guard)
            )
        }
        Request::Dup {
            old: name,
            new,
            digit,
        } => {
            format!(
                "0 DUP {} {} {}",
                old(name),
                begun(line, 'G', new),
                shown(*digit)
            )
        }
        Request::Chn { old: name, link } => {
            format!(
                "0 CHN {} {}",
                at(name),
                place(line, link).expect("a link is a stretch of the line")
            )
        }
        Request::Del { names } => format!("0 DEL {} {}", at(&names[0]), names.len()),
        Request::Dst { names } => format!("0 DST {} {}", at(&names[0]), names.len()),
        Request::Dpr { name, digit } => format!("0 DPR {} {digit}", at(name)),
        Request::Lst {
            listed: Listed::BaseList,
        } => "0 LST .".to_string(),
        Request::Lst {
            listed: Listed::Directory(name),
        } => format!("0 LST {}", old(name)),
        Request::Tree {
            listed: Listed::BaseList,
            depth,
        } => format!("0 LST* . {depth}"),
        Request::Tree {
            listed: Listed::Directory(name),
            depth,
        } => format!("0 LST* {} {depth}", old(name)),
    }
}

#[test]
fn the_second_program_reads_the_same() {
    let stdin = fs::read("../../crates/reading/stdin").expect("the lines");
    let stdout =
        fs::read_to_string("../../crates/reading/stdout").expect("what the reader makes of them");
    let lines: Vec<&[u8]> = stdin
        .strip_suffix(b"\n")
        .unwrap_or(&stdin)
        .split(|b| *b == b'\n')
        .collect();
    let read: Vec<&str> = stdout.lines().collect();
    assert!(
        lines.len() > 90,
        "all of document 01's names and declarations"
    );
    assert_eq!(lines.len(), read.len());
    for (line, made) in lines.iter().zip(read) {
        assert_eq!(made_of(line), made, "{:?}", String::from_utf8_lossy(line));
    }
}
