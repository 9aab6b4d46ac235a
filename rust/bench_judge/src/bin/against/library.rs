//! A shared library of the box, with an index beside the table or from before there was one, and the calls of it that are timed.
use std::ffi::{c_char, c_int, c_void, CString};
use std::mem::transmute;

const NO_STOP: u32 = 65535;
const USER: u32 = 1;
/// What stands in an index after the last entry.
const PADDING: u16 = 65535;

/// As many bytes as an answer ever had: a library writes those that it knows, the number first.
#[repr(C, align(8))]
struct Answer {
    number: u32,
    rest: [u32; 9],
}

type Judge = unsafe extern "C" fn(*const u8, usize) -> u8;
type Mend = unsafe extern "C" fn(*mut u8, usize, *mut u16, usize, u32) -> Answer;
type MendBefore = unsafe extern "C" fn(*mut u8, usize, u32) -> Answer;
#[rustfmt::skip]
type Request = unsafe extern "C" fn(*mut u8, usize, *mut u16, usize, *const u8, usize, *const u8, usize, *mut u8, usize, u32, u32) -> Answer;
#[rustfmt::skip]
type RequestBefore = unsafe extern "C" fn(*mut u8, usize, *const u8, usize, *const u8, usize, *mut u8, usize, u32, u32) -> Answer;

extern "C" {
    fn dlopen(path: *const c_char, mode: c_int) -> *mut c_void;
    fn dlsym(library: *mut c_void, name: *const c_char) -> *mut c_void;
}

/// The calls that take a table to change it.
enum Changing {
    WithIndex(Mend, Request),
    Before(MendBefore, RequestBefore),
}

/// The calls of one library.
pub struct Library {
    judge: Judge,
    changing: Changing,
}

/// One call of a library.
pub enum Call {
    Judge,
    Mend,
    Ask(String, Vec<u8>),
}

/// A table and its index, as they are lent. A library from before there was one leaves the index alone.
pub struct Lent {
    pub table: Vec<u8>,
    pub index: Vec<u16>,
}

impl Lent {
    /// A table whose index is yet to be built; of free records it is true as it is.
    pub fn of(table: Vec<u8>) -> Lent {
        let index = vec![PADDING; table.len() / 32];
        Lent { table, index }
    }

    pub fn copy_from(&mut self, other: &Lent) {
        self.table.copy_from_slice(&other.table);
        self.index.copy_from_slice(&other.index);
    }
}

impl Library {
    /// The library at this path, bound at once and its names its own. It takes an index if names can be looked up by one.
    pub fn at(path: &str) -> Library {
        let full = std::fs::canonicalize(path).unwrap_or_else(|error| panic!("{path}: {error}"));
        let name = CString::new(full.to_str().expect("a path in UTF-8")).expect("no zero");
        let now = 2;
        let sought = |symbol: &str| {
            let symbol = CString::new(symbol).expect("no zero");
            // Sound: both strings end with a zero, and what is found is not called here.
            unsafe { dlsym(dlopen(name.as_ptr(), now), symbol.as_ptr()) }
        };
        let find = |symbol: &str| {
            let found = sought(symbol);
            assert!(!found.is_null(), "{path} has no {symbol}");
            found
        };
        let (mend, request) = (find("filebox_mend"), find("filebox_request"));
        let indexed = !sought("filebox_look_up").is_null();
        // Sound: the symbols are functions of these types in every library of the box, but for numbers that an answer had not yet; those
        // that have `filebox_look_up` take an index, and no others.
        unsafe {
            Library {
                judge: transmute::<*mut c_void, Judge>(find("filebox_judge")),
                changing: match indexed {
                    true => Changing::WithIndex(
                        transmute::<*mut c_void, Mend>(mend),
                        transmute::<*mut c_void, Request>(request),
                    ),
                    false => Changing::Before(
                        transmute::<*mut c_void, MendBefore>(mend),
                        transmute::<*mut c_void, RequestBefore>(request),
                    ),
                },
            }
        }
    }

    /// The number that answers the call. Sound: each pointer is to as many bytes, or numbers, as the length after it says.
    pub fn number(&self, call: &Call, lent: &mut Lent, reply: &mut [u8]) -> u32 {
        let (t, n) = (lent.table.as_mut_ptr(), lent.table.len());
        let (i, places) = (lent.index.as_mut_ptr(), lent.index.len());
        let (r, room) = (reply.as_mut_ptr(), reply.len());
        let answer = match (call, &self.changing) {
            (Call::Judge, _) => return u32::from(unsafe { (self.judge)(t, n) }),
            (Call::Mend, Changing::WithIndex(mend, _)) => unsafe { mend(t, n, i, places, NO_STOP) },
            (Call::Mend, Changing::Before(mend, _)) => unsafe { mend(t, n, NO_STOP) },
            (Call::Ask(line, text), Changing::WithIndex(_, request)) => {
                let (l, x) = (line.as_ptr(), text.as_ptr());
                let (line, text) = (line.len(), text.len());
                unsafe { request(t, n, i, places, l, line, x, text, r, room, USER, NO_STOP) }
            }
            (Call::Ask(line, text), Changing::Before(_, request)) => {
                let (l, x) = (line.as_ptr(), text.as_ptr());
                let (line, text) = (line.len(), text.len());
                unsafe { request(t, n, l, line, x, text, r, room, USER, NO_STOP) }
            }
        };
        answer.number
    }
}
