//! The peer of the bench: a plain Rust program of both versions of the workload language, with std alone and nothing
//! proved.
//!
//! It reads all of standard input, makes the same checks, runs each script on a thread of its own and writes the same
//! report. With the words `many SEED THREADS CALLS` it draws the same workload in place of reading one, runs it without
//! keeping replies, and writes the last values. Objects are the processor's own atomics, whatever the target, so nothing
//! waits for a lock; those of 128 bits are served by `cmpxchg16b`, and loaded by 16-byte moves where the processor has
//! AVX. With `many_word32` in place of `many` the objects lie in words of 32 bits, as that workload's target has them, and
//! each call is made by the same steps as in the proved program: by one step on a word, by a loop of exchanges of its
//! lane, or under a lock. Every access is sequentially consistent, whichever order the call asks for, as in the proved
//! program. A fault ends it with status 1.

use std::arch::x86_64::{
    __m128i, _mm_cmpeq_epi8, _mm_loadu_si128, _mm_min_epu8, _mm_movemask_epi8, _mm_set1_epi8, _mm_sub_epi8,
};
use std::cell::UnsafeCell;
use std::collections::HashMap;
use std::fs::File;
use std::hash::{BuildHasherDefault, Hasher};
use std::io::{self, Read, Write};
use std::mem::ManuallyDrop;
use std::os::fd::FromRawFd;
use std::process::ExitCode;
use std::sync::atomic::Ordering::{self, SeqCst};
use std::sync::atomic::{
    AtomicBool, AtomicI8, AtomicI16, AtomicI32, AtomicI64, AtomicU8, AtomicU16, AtomicU32, AtomicU64,
};

const MOST_BYTES: usize = 8_388_608;
const MOST_THREADS: usize = 64;
const MOST_LINES: usize = 65_536;
const MOST_LINES_IN_ALL: usize = 1_000_000;
/// Zeros after the text, so that 16 bytes can be read from any place in it, and so that every line has an end.
const SPARE: usize = 32;

#[derive(Clone, Copy, PartialEq, Eq, PartialOrd, Ord)]
enum Version {
    First,
    Second,
}

impl Version {
    fn most_objects(self) -> usize {
        match self {
            Version::First => 1_024,
            Version::Second => 4_096,
        }
    }

    /// The most calls of a thread, and of all threads.
    fn most_calls(self) -> (usize, usize) {
        match self {
            Version::First => (MOST_LINES, MOST_LINES_IN_ALL),
            Version::Second => (1_000_000, 4_000_000),
        }
    }
}

#[derive(Clone, Copy, Debug)]
enum Cause {
    TooLong,
    NotAscii,
    Version,
    UnknownWord,
    BadNumber,
    OutOfRange,
    Twice,
    UnknownName,
    NotForKind,
    BadOrder,
    Missing,
    Extra,
    Limit,
    BadTarget,
    Unclosed,
}

/// A fault in a line, at a word.
type Fault = (u32, Cause);

// ---------------------------------------------------------------------------------------------------------------------
// Kinds and values

#[derive(Clone, Copy, PartialEq, Eq)]
enum Kind {
    Bool,
    I8,
    I16,
    I32,
    I64,
    I128,
    U8,
    U16,
    U32,
    U64,
    U128,
    Ptr,
}

const INT: u8 = 1;
const BOOL: u8 = 2;
const PTR: u8 = 4;

impl Kind {
    fn of(word: &[u8]) -> Option<Kind> {
        Some(match word {
            b"bool" => Kind::Bool,
            b"i8" => Kind::I8,
            b"i16" => Kind::I16,
            b"i32" => Kind::I32,
            b"i64" | b"isize" => Kind::I64,
            b"i128" => Kind::I128,
            b"u8" => Kind::U8,
            b"u16" => Kind::U16,
            b"u32" => Kind::U32,
            b"u64" | b"usize" => Kind::U64,
            b"u128" => Kind::U128,
            b"ptr" => Kind::Ptr,
            _ => return None,
        })
    }

    fn class(self) -> u8 {
        match self {
            Kind::Bool => BOOL,
            Kind::Ptr => PTR,
            _ => INT,
        }
    }

    fn width(self) -> u32 {
        match self {
            Kind::Bool => 1,
            Kind::I8 | Kind::U8 => 8,
            Kind::I16 | Kind::U16 => 16,
            Kind::I32 | Kind::U32 => 32,
            Kind::I64 | Kind::U64 | Kind::Ptr => 64,
            Kind::I128 | Kind::U128 => 128,
        }
    }

    fn signed(self) -> bool {
        matches!(self, Kind::I8 | Kind::I16 | Kind::I32 | Kind::I64 | Kind::I128)
    }

    /// The bit pattern that a text spells.
    #[inline]
    fn read(self, text: &[u8]) -> Result<u128, Cause> {
        match self {
            Kind::Bool => match text {
                b"false" => Ok(0),
                b"true" => Ok(1),
                _ => Err(Cause::BadNumber),
            },
            Kind::Ptr => read_pointer(text),
            _ => read_integer(text, self.width(), self.signed()),
        }
    }
}

/// Eight digits at once, where all eight are digits.
#[inline]
fn eight_digits(text: &[u8; 8]) -> Option<u64> {
    let found = u64::from_le_bytes(*text);
    let high = 0xf0f0_f0f0_f0f0_f0f0;
    if (found & high) | ((found.wrapping_add(0x0606_0606_0606_0606) & high) >> 4) != 0x3333_3333_3333_3333 {
        return None;
    }
    let pairs = (found & 0x0f0f_0f0f_0f0f_0f0f).wrapping_mul(2_561) >> 8;
    let fours = (pairs & 0x00ff_00ff_00ff_00ff).wrapping_mul(6_553_601) >> 16;
    Some((fours & 0x0000_ffff_0000_ffff).wrapping_mul(42_949_672_960_001) >> 32)
}

/// The number that at most 19 digits spell, where all of them are digits.
#[inline]
fn short_number(digits: &[u8]) -> Option<u64> {
    let mut number = 0;
    let mut eights = digits.chunks_exact(8);
    for eight in &mut eights {
        number = number * 100_000_000 + eight_digits(eight.try_into().unwrap())?;
    }
    for &digit in eights.remainder() {
        let digit = digit.wrapping_sub(b'0');
        if digit > 9 {
            return None;
        }
        number = number * 10 + u64::from(digit);
    }
    Some(number)
}

const TEN_19: u64 = 10_000_000_000_000_000_000;

/// The number that more than 19 digits spell.
fn long_number(digits: &[u8]) -> Result<u128, Cause> {
    if !digits.iter().all(u8::is_ascii_digit) {
        return Err(Cause::BadNumber);
    }
    let mut number: u128 = 0;
    for piece in digits.rchunks(19).rev() {
        let piece = short_number(piece).unwrap();
        let moved = number.checked_mul(u128::from(TEN_19)).and_then(|moved| moved.checked_add(u128::from(piece)));
        number = moved.ok_or(Cause::OutOfRange)?;
    }
    Ok(number)
}

#[inline]
fn read_integer(text: &[u8], width: u32, signed: bool) -> Result<u128, Cause> {
    let (negative, digits) = match text {
        [b'-', digits @ ..] => (true, digits),
        _ => (false, text),
    };
    let size = match digits {
        [] => return Err(Cause::BadNumber),
        [b'0', ..] if digits.len() > 1 || negative => return Err(Cause::BadNumber),
        _ if digits.len() <= 19 => u128::from(short_number(digits).ok_or(Cause::BadNumber)?),
        _ => long_number(digits)?,
    };
    let mask = u128::MAX >> (128 - width);
    let most = match (signed, negative) {
        (false, false) => mask,
        (false, true) => 0,
        (true, false) => mask >> 1,
        (true, true) => (mask >> 1) + 1,
    };
    if size > most {
        return Err(Cause::OutOfRange);
    }
    Ok(if negative { size.wrapping_neg() & mask } else { size })
}

fn read_pointer(text: &[u8]) -> Result<u128, Cause> {
    let [b'0', b'x', digits @ ..] = text else {
        return Err(Cause::BadNumber);
    };
    let lower = |digit: &u8| matches!(digit, b'0'..=b'9' | b'a'..=b'f');
    if digits.is_empty() || (digits[0] == b'0' && digits.len() > 1) || !digits.iter().all(lower) {
        return Err(Cause::BadNumber);
    }
    if digits.len() > 16 {
        return Err(Cause::OutOfRange);
    }
    let number = digits.iter().fold(0u64, |number, &digit| {
        let digit = if digit <= b'9' { digit - b'0' } else { digit - b'a' + 10 };
        number << 4 | u64::from(digit)
    });
    Ok(u128::from(number))
}

// ---------------------------------------------------------------------------------------------------------------------
// Calls

/// Bytes with room after them, so that a copy has a fixed length.
#[derive(Clone, Copy)]
struct Padded<const N: usize> {
    bytes: [u8; N],
    length: usize,
}

impl<const N: usize> Padded<N> {
    const fn of(text: &[u8]) -> Padded<N> {
        let mut bytes = [0; N];
        let mut at = 0;
        while at < text.len() {
            bytes[at] = text[at];
            at += 1;
        }
        Padded { bytes, length: text.len() }
    }

    fn text(&self) -> &[u8] {
        &self.bytes[..self.length]
    }
}

#[derive(Clone, Copy, PartialEq, Eq)]
enum Operands {
    None,
    One,
    Two,
    Position,
}

// families of calls, each a bit: calls of one family leave the same value in whichever order they are made
const LOADS: u8 = 0;
const SUMS: u8 = 1;
const FLIPS: u8 = 2;
const SETS: u8 = 4;
const CLEARS: u8 = 8;
const MAXIMA: u8 = 16;
const MINIMA: u8 = 32;
const OTHERS: u8 = u8::MAX;

macro_rules! operations {
    ($($name:ident $word:literal $classes:expr, $operands:ident, $family:ident;)*) => {
        #[derive(Clone, Copy, PartialEq, Eq, PartialOrd, Ord)]
        #[repr(u8)]
        enum Operation {
            $($name,)*
        }

        struct Word {
            operation: Operation,
            /// A space and the word.
            text: Padded<24>,
            classes: u8,
            operands: Operands,
            family: u8,
        }

        const WORDS: &[Word] = &[
            $(Word {
                operation: Operation::$name,
                text: Padded::of(concat!(" ", $word).as_bytes()),
                classes: $classes,
                operands: Operands::$operands,
                family: $family,
            },)*
        ];
    };
}

operations! {
    Load "load" INT | BOOL | PTR, None, LOADS;
    Store "store" INT | BOOL | PTR, One, OTHERS;
    Swap "swap" INT | BOOL | PTR, One, OTHERS;
    CompareExchange "compare_exchange" INT | BOOL | PTR, Two, OTHERS;
    CompareExchangeWeak "compare_exchange_weak" INT | BOOL | PTR, Two, OTHERS;
    FetchAdd "fetch_add" INT, One, SUMS;
    Add "add" INT, One, SUMS;
    FetchSub "fetch_sub" INT, One, SUMS;
    Sub "sub" INT, One, SUMS;
    FetchAnd "fetch_and" INT | BOOL | PTR, One, CLEARS;
    And "and" INT | BOOL, One, CLEARS;
    FetchNand "fetch_nand" INT | BOOL, One, OTHERS;
    FetchOr "fetch_or" INT | BOOL | PTR, One, SETS;
    Or "or" INT | BOOL, One, SETS;
    FetchXor "fetch_xor" INT | BOOL | PTR, One, FLIPS;
    Xor "xor" INT | BOOL, One, FLIPS;
    FetchMax "fetch_max" INT, One, MAXIMA;
    FetchMin "fetch_min" INT, One, MINIMA;
    FetchNot "fetch_not" INT | BOOL, None, FLIPS;
    Not "not" INT | BOOL, None, FLIPS;
    FetchNeg "fetch_neg" INT, None, OTHERS;
    Neg "neg" INT, None, OTHERS;
    BitSet "bit_set" INT | PTR, Position, SETS;
    BitClear "bit_clear" INT | PTR, Position, CLEARS;
    BitToggle "bit_toggle" INT | PTR, Position, FLIPS;
    FetchByteAdd "fetch_byte_add" PTR, One, SUMS;
    FetchByteSub "fetch_byte_sub" PTR, One, SUMS;
    AddFetch "add_fetch" INT, One, SUMS;
    SubFetch "sub_fetch" INT, One, SUMS;
    AndFetch "and_fetch" INT | BOOL, One, CLEARS;
    NandFetch "nand_fetch" INT | BOOL, One, OTHERS;
    OrFetch "or_fetch" INT | BOOL, One, SETS;
    XorFetch "xor_fetch" INT | BOOL, One, FLIPS;
}

impl Operation {
    /// The version in which it came.
    fn since(self) -> Version {
        if self >= Operation::AddFetch { Version::Second } else { Version::First }
    }
}

/// A number below 64 that differs from word to word; of at least two bytes.
const fn place_of_word(word: &[u8]) -> usize {
    let count = word.len();
    let (first, second) = (word[0] as usize, word[1] as usize);
    let (last, before) = (word[count - 1] as usize, word[count - 2] as usize);
    (count + 8 * first + 5 * second + 19 * last + 2 * before) % 64
}

const NO_WORD: u8 = u8::MAX;

const PLACES: [u8; 64] = {
    let mut places = [NO_WORD; 64];
    let mut number = 0;
    while number < WORDS.len() {
        let text = &WORDS[number].text;
        let (_, word) = text.bytes.split_at(1);
        let (word, _) = word.split_at(text.length - 1);
        let place = place_of_word(word);
        assert!(places[place] == NO_WORD && WORDS[number].operation as usize == number);
        places[place] = number as u8;
        number += 1;
    }
    places
};

impl Word {
    #[inline]
    fn of(word: &[u8]) -> Option<&'static Word> {
        if word.len() < 2 {
            return None;
        }
        let found = WORDS.get(usize::from(PLACES[place_of_word(word)]))?;
        (found.text.text()[1..] == *word).then_some(found)
    }
}

#[derive(Clone, Copy, PartialEq, Eq)]
enum Asked {
    Relaxed,
    Acquire,
    Release,
    AcqRel,
    SeqCst,
}

impl Asked {
    #[inline]
    fn of(word: &[u8]) -> Option<Asked> {
        Some(match word {
            b"relaxed" => Asked::Relaxed,
            b"acquire" => Asked::Acquire,
            b"release" => Asked::Release,
            b"acq_rel" => Asked::AcqRel,
            b"seq_cst" => Asked::SeqCst,
            _ => return None,
        })
    }

    /// A space and the word.
    fn text(self) -> &'static [u8; 8] {
        match self {
            Asked::Relaxed => b" relaxed",
            Asked::Acquire => b" acquire",
            Asked::Release => b" release",
            Asked::AcqRel => b" acq_rel",
            Asked::SeqCst => b" seq_cst",
        }
    }

    fn loads(self) -> bool {
        matches!(self, Asked::Relaxed | Asked::Acquire | Asked::SeqCst)
    }

    fn stores(self) -> bool {
        matches!(self, Asked::Relaxed | Asked::Release | Asked::SeqCst)
    }
}

struct Line {
    object: u32,
    operation: Operation,
    success: Asked,
    failure: Asked,
    /// Bit patterns, or a position.
    operands: [u128; 2],
}

#[derive(Clone, Copy)]
enum Reply {
    Unit,
    Value(u128),
    Bit(bool),
    Done(u128),
    Failed(u128),
}

// ---------------------------------------------------------------------------------------------------------------------
// Reading

struct Object {
    name: Padded<16>,
    kind: Kind,
    start: u128,
}

/// Lines of a script that stand in a row and are made so many times over.
struct Span {
    times: u32,
    end: usize,
}

/// The lines of a thread, each once, in spans.
#[derive(Default)]
struct Script {
    lines: Vec<Line>,
    spans: Vec<Span>,
    calls: usize,
}

impl Script {
    /// Ends a span after the lines so far.
    fn close(&mut self, times: u32) {
        let end = self.lines.len();
        if self.spans.last().map_or(0, |span| span.end) < end {
            self.spans.push(Span { times, end });
        }
    }

    /// The lines of each call, in order.
    #[inline]
    fn calls(&self) -> impl Iterator<Item = &Line> {
        let starts = std::iter::once(0).chain(self.spans.iter().map(|span| span.end));
        starts.zip(&self.spans).flat_map(|(start, span)| {
            let lines = &self.lines[start..span.end];
            (0..span.times).flat_map(move |_| lines)
        })
    }
}

struct Work {
    target: String,
    objects: Vec<Object>,
    threads: Vec<Script>,
}

/// The first byte from `from` on that isn't one of `least` to 126. There is one, since zeros stand after the text.
#[inline]
fn end_of(text: &[u8], from: usize, least: u8) -> usize {
    assert!(from + SPARE <= text.len());
    let mut at = from;
    loop {
        // SAFETY: no byte from `from` to `at` is one of the zeros after the text, so that 16 bytes stand from here on
        let outside = unsafe {
            let bytes = _mm_loadu_si128(text.as_ptr().add(at).cast::<__m128i>());
            let moved = _mm_sub_epi8(bytes, _mm_set1_epi8(least as i8));
            let inside = _mm_cmpeq_epi8(_mm_min_epu8(moved, _mm_set1_epi8((126 - least) as i8)), moved);
            !_mm_movemask_epi8(inside) & 0xffff
        };
        if outside != 0 {
            return at + outside.trailing_zeros() as usize;
        }
        at += 16;
    }
}

/// The words of a line that ends with a byte below a space.
struct Words<'t> {
    text: &'t [u8],
    at: usize,
    number: u32,
}

impl<'t> Words<'t> {
    #[inline]
    fn next(&mut self) -> Option<&'t [u8]> {
        while self.text[self.at] == b' ' {
            self.at += 1;
        }
        let start = self.at;
        self.at = end_of(self.text, start, b'!');
        self.number += 1;
        (self.at > start).then(|| &self.text[start..self.at])
    }

    /// The next word, which must be there.
    #[inline]
    fn need(&mut self) -> Result<&'t [u8], Fault> {
        self.next().ok_or((self.number, Cause::Missing))
    }

    fn finish(&mut self) -> Result<(), Fault> {
        self.next().map_or(Ok(()), |_| self.fail(Cause::Extra))
    }

    /// A fault at the word looked at last.
    fn fail<T>(&self, cause: Cause) -> Result<T, Fault> {
        Err((self.number, cause))
    }

    /// The bytes of the word looked at last as a number, where there are at most 16.
    #[inline]
    fn key(&self, word: &[u8]) -> Option<u128> {
        if word.len() > 16 {
            return None;
        }
        let start = self.at - word.len();
        let bytes: [u8; 16] = self.text[start..start + 16].try_into().unwrap();
        Some(u128::from_le_bytes(bytes) & (u128::MAX >> (128 - 8 * word.len())))
    }
}

/// Hashes a name as two factors.
#[derive(Default)]
struct Fold(u64);

impl Hasher for Fold {
    fn write(&mut self, _: &[u8]) {
        unreachable!("names are numbers")
    }

    #[inline]
    fn write_u128(&mut self, key: u128) {
        let low = key as u64 ^ 0x9e37_79b9_7f4a_7c15;
        let high = (key >> 64) as u64 ^ 0xc2b2_ae3d_27d4_eb4f;
        let product = u128::from(low) * u128::from(high);
        self.0 = product as u64 ^ (product >> 64) as u64;
    }

    fn finish(&self) -> u64 {
        self.0
    }
}

enum Waiting {
    Version,
    Target,
    Item,
    Call,
}

struct Reader {
    version: Version,
    waiting: Waiting,
    work: Work,
    names: HashMap<u128, u32, BuildHasherDefault<Fold>>,
    /// How often the open block is made.
    block: Option<u32>,
    /// The call lines and the calls of all threads.
    lines: usize,
    calls: usize,
}

const TARGETS: [(&str, &str); 5] = [
    ("full64", "64 apart swap+add+bits+order 67 locks"),
    ("word64", "64 packed swap+add+bits+order 67 locks"),
    ("word32", "32 packed swap+add+bits+order 67 locks"),
    ("cas32", "32 packed none 67 locks"),
    ("section32", "32 apart none 1 section"),
];

fn is_name(word: &[u8]) -> bool {
    let rest = |byte: &u8| matches!(byte, b'a'..=b'z' | b'0'..=b'9' | b'_');
    word.len() <= 16 && word[0].is_ascii_lowercase() && word.iter().all(rest) && word != b"end"
}

/// Whether the word stands for steps: `none`, or some of the four in their order.
fn is_steps(word: &[u8]) -> bool {
    let mut left = ["swap", "add", "bits", "order"].iter();
    word == b"none" || word.split(|byte| *byte == b'+').all(|step| left.any(|one| one.as_bytes() == step))
}

fn is_locks(word: &[u8]) -> bool {
    matches!(word, [b'1'..=b'9'] | [b'1'..=b'5', b'0'..=b'9'] | [b'6', b'0'..=b'7'])
}

impl Reader {
    fn line(&mut self, words: &mut Words) -> Result<(), Fault> {
        let Some(first) = words.next() else {
            return Ok(());
        };
        if first[0] == b'#' {
            return Ok(());
        }
        match self.waiting {
            Waiting::Version => self.version(first, words),
            Waiting::Target => self.target(first, words),
            Waiting::Item => match first {
                b"object" if self.work.threads.is_empty() => self.object(words),
                b"thread" => self.thread(words),
                _ => words.fail(Cause::UnknownWord),
            },
            Waiting::Call => self.call(first, words),
        }
    }

    fn version(&mut self, first: &[u8], words: &mut Words) -> Result<(), Fault> {
        if first != b"work" {
            return words.fail(Cause::Version);
        }
        self.version = match words.need()? {
            b"1" => Version::First,
            b"2" => Version::Second,
            _ => return words.fail(Cause::Version),
        };
        self.waiting = Waiting::Target;
        words.finish()
    }

    fn target(&mut self, first: &[u8], words: &mut Words) -> Result<(), Fault> {
        if first != b"target" {
            return words.fail(Cause::UnknownWord);
        }
        let mut given = vec![words.need()?];
        given.extend(std::iter::from_fn(|| words.next()));
        self.waiting = Waiting::Item;
        if let [name] = given[..] {
            let known = TARGETS.iter().find(|(known, _)| known.as_bytes() == name);
            self.work.target = known.ok_or((2, Cause::BadTarget))?.0.to_string();
            return Ok(());
        }
        let allowed = |place: usize, word: &[u8]| match place {
            0 => matches!(word, b"32" | b"64"),
            1 => matches!(word, b"packed" | b"apart"),
            2 => is_steps(word),
            3 => is_locks(word),
            _ => word == b"locks" || (word == b"section" && given[1..4] == [&b"apart"[..], b"none", b"1"]),
        };
        for (place, word) in given.iter().enumerate().take(5) {
            if !allowed(place, word) {
                return Err((place as u32 + 2, Cause::BadTarget));
            }
        }
        match given.len() {
            0..5 => return Err((given.len() as u32 + 2, Cause::Missing)),
            5 => {}
            _ if self.version == Version::First || given[5] != b"big" => return Err((7, Cause::Extra)),
            _ if given[1] == b"apart" => return Err((7, Cause::BadTarget)),
            6 => {}
            _ => return Err((8, Cause::Extra)),
        }
        let text = String::from_utf8(given.join(&b' ')).unwrap();
        let known = TARGETS.iter().find(|(_, description)| *description == text);
        self.work.target = known.map_or(text, |(name, _)| name.to_string());
        Ok(())
    }

    fn object(&mut self, words: &mut Words) -> Result<(), Fault> {
        if self.work.objects.len() == self.version.most_objects() {
            return words.fail(Cause::Limit);
        }
        let name = words.need()?;
        if !is_name(name) {
            return words.fail(Cause::UnknownWord);
        }
        let key = words.key(name).unwrap();
        if self.names.contains_key(&key) {
            return words.fail(Cause::Twice);
        }
        let Some(kind) = Kind::of(words.need()?) else {
            return words.fail(Cause::UnknownWord);
        };
        let start = kind.read(words.need()?).or_else(|cause| words.fail(cause))?;
        words.finish()?;
        self.names.insert(key, self.work.objects.len() as u32);
        self.work.objects.push(Object { name: Padded::of(name), kind, start });
        Ok(())
    }

    fn thread(&mut self, words: &mut Words) -> Result<(), Fault> {
        if self.work.threads.len() == MOST_THREADS {
            return words.fail(Cause::Limit);
        }
        self.work.threads.push(Script::default());
        self.waiting = Waiting::Call;
        words.finish()
    }

    /// The end of a block or a thread.
    fn close(&mut self, words: &mut Words) -> Result<(), Fault> {
        let script = self.work.threads.last_mut().unwrap();
        match self.block.take() {
            Some(times) => script.close(times),
            None => {
                script.close(1);
                self.waiting = Waiting::Item;
            }
        }
        words.finish()
    }

    /// A line whose first word is `repeat:`, in a thread of the second version.
    fn open(&mut self, words: &mut Words) -> Result<(), Fault> {
        if self.block.is_some() {
            return words.fail(Cause::UnknownWord);
        }
        let times = read_integer(words.need()?, 32, false).or_else(|cause| words.fail(cause))? as u32;
        if times == 0 {
            return words.fail(Cause::OutOfRange);
        }
        self.work.threads.last_mut().unwrap().close(1);
        self.block = Some(times);
        words.finish()
    }

    #[inline]
    fn call(&mut self, first: &[u8], words: &mut Words) -> Result<(), Fault> {
        if first == b"end" {
            return self.close(words);
        }
        let Some(&object) = words.key(first).and_then(|key| self.names.get(&key)) else {
            if self.version == Version::Second && first == b"repeat:" {
                return self.open(words);
            }
            return words.fail(Cause::UnknownName);
        };
        let script = self.work.threads.last_mut().unwrap();
        let times = self.block.unwrap_or(1) as usize;
        let (most, most_in_all) = self.version.most_calls();
        if script.lines.len() == MOST_LINES
            || self.lines == MOST_LINES_IN_ALL
            || script.calls + times > most
            || self.calls + times > most_in_all
        {
            return words.fail(Cause::Limit);
        }
        let Some(word) = Word::of(words.need()?).filter(|word| word.operation.since() <= self.version) else {
            return words.fail(Cause::UnknownWord);
        };
        let kind = self.work.objects[object as usize].kind;
        if word.classes & kind.class() == 0 {
            return words.fail(Cause::NotForKind);
        }
        let operands = read_operands(kind, word.operands, words)?;
        let (success, failure) = read_orders(word.operation, words)?;
        script.lines.push(Line { object, operation: word.operation, success, failure, operands });
        script.calls += times;
        self.lines += 1;
        self.calls += times;
        Ok(())
    }

    /// What the end of the text wants.
    fn end(self) -> Result<Work, Fault> {
        match self.waiting {
            Waiting::Version | Waiting::Target => Err((0, Cause::Missing)),
            Waiting::Call => Err((0, Cause::Unclosed)),
            Waiting::Item => Ok(self.work),
        }
    }
}

#[inline]
fn read_operands(kind: Kind, operands: Operands, words: &mut Words) -> Result<[u128; 2], Fault> {
    let mut value = || {
        let word = words.need()?;
        let value = if operands == Operands::Position { read_integer(word, 32, false) } else { kind.read(word) };
        value.or_else(|cause| words.fail(cause))
    };
    Ok(match operands {
        Operands::None => [0, 0],
        Operands::One | Operands::Position => [value()?, 0],
        Operands::Two => [value()?, value()?],
    })
}

#[inline]
fn read_orders(operation: Operation, words: &mut Words) -> Result<(Asked, Asked), Fault> {
    let Some(word) = words.next() else {
        return Ok((Asked::SeqCst, Asked::SeqCst));
    };
    let Some(success) = Asked::of(word) else {
        return words.fail(Cause::Extra);
    };
    let accepted = match operation {
        Operation::Load => success.loads(),
        Operation::Store => success.stores(),
        _ => true,
    };
    if !accepted {
        return words.fail(Cause::BadOrder);
    }
    let mut failure = Asked::SeqCst;
    if matches!(operation, Operation::CompareExchange | Operation::CompareExchangeWeak) {
        failure = match Asked::of(words.need()?) {
            None => return words.fail(Cause::Extra),
            Some(order) if !order.loads() => return words.fail(Cause::BadOrder),
            Some(order) => order,
        };
    }
    words.finish()?;
    Ok((success, failure))
}

/// Reads the first `length` bytes, after which zeros stand. A fault has its line, too.
fn read_work(text: &[u8], length: usize) -> Result<Work, (u32, Fault)> {
    if length > MOST_BYTES {
        return Err((0, (0, Cause::TooLong)));
    }
    let work = Work { target: String::new(), objects: Vec::new(), threads: Vec::new() };
    let mut reader = Reader {
        version: Version::First,
        waiting: Waiting::Version,
        work,
        names: HashMap::default(),
        block: None,
        lines: 0,
        calls: 0,
    };
    let (mut at, mut line) = (0, 0);
    while at < length {
        line += 1;
        let end = end_of(text, at, b' ');
        if end < length && text[end] != b'\n' {
            return Err((line, (0, Cause::NotAscii)));
        }
        reader.line(&mut Words { text, at, number: 0 }).map_err(|fault| (line, fault))?;
        at = end + 1;
    }
    reader.end().map_err(|fault| (line, fault))
}

// ---------------------------------------------------------------------------------------------------------------------
// Objects

/// `lock cmpxchg16b`: stores the new value where the old one stands, and answers what it found. The function of this
/// name in std isn't used, since LLVM may take it out of the functions that have the feature, and then calls libatomic.
///
/// # Safety
///
/// The place is aligned to 16 bytes and lives, and the processor has the instruction.
#[inline]
unsafe fn exchange_16(place: *mut u128, old: u128, new: u128) -> u128 {
    let (low, high): (u64, u64);
    // SAFETY: as promised; rbx, which no operand may name, is put back
    unsafe {
        std::arch::asm!(
            "xchg {new_low}, rbx",
            "lock cmpxchg16b xmmword ptr [rdi]",
            "mov rbx, {new_low}",
            new_low = inout(reg) new as u64 => _,
            in("rcx") (new >> 64) as u64,
            inout("rax") old as u64 => low,
            inout("rdx") (old >> 64) as u64 => high,
            in("rdi") place,
            options(nostack),
        );
    }
    u128::from(high) << 64 | u128::from(low)
}

/// Atomics of 128 bits, on a processor with `cmpxchg16b`.
macro_rules! wide {
    ($name:ident, $value:ident) => {
        #[repr(C, align(16))]
        struct $name(UnsafeCell<$value>);

        // SAFETY: every access is atomic
        unsafe impl Sync for $name {}

        impl $name {
            #[inline]
            fn new(value: $value) -> Self {
                Self(UnsafeCell::new(value))
            }

            #[inline]
            fn load(&self, _: Ordering) -> $value {
                if std::is_x86_feature_detected!("avx") {
                    let found: __m128i;
                    // SAFETY: with AVX an aligned move of 16 bytes is one access; here it stands at a place of its own
                    unsafe {
                        std::arch::asm!(
                            "vmovdqa {found}, xmmword ptr [{place}]",
                            found = out(xmm_reg) found,
                            place = in(reg) self.0.get(),
                            options(nostack, preserves_flags),
                        );
                        std::mem::transmute(found)
                    }
                } else {
                    self.update(|value| value)
                }
            }

            #[inline]
            fn store(&self, value: $value, _: Ordering) {
                if std::is_x86_feature_detected!("avx") {
                    // SAFETY: as in `load`; the fence orders the store before what follows
                    unsafe {
                        let value: __m128i = std::mem::transmute(value);
                        std::arch::asm!(
                            "vmovdqa xmmword ptr [{place}], {value}",
                            "mfence",
                            value = in(xmm_reg) value,
                            place = in(reg) self.0.get(),
                            options(nostack, preserves_flags),
                        );
                    }
                } else {
                    self.update(|_| value);
                }
            }

            /// Makes one step of the value that stands, and answers that value.
            #[inline]
            fn update(&self, new: impl Fn($value) -> $value) -> $value {
                // the two halves may not belong together; then the first exchange fails and tells the value
                // SAFETY: aligned halves of a place that lives
                let mut value = unsafe {
                    let halves = self.0.get().cast::<u64>();
                    let low = AtomicU64::from_ptr(halves).load(SeqCst);
                    let high = AtomicU64::from_ptr(halves.add(1)).load(SeqCst);
                    u128::from(high) << 64 | u128::from(low)
                };
                loop {
                    // SAFETY: the place is aligned, lives and is only accessed by atomic steps
                    let found = unsafe { exchange_16(self.0.get().cast(), value, new(value as $value) as u128) };
                    if found == value {
                        return value as $value;
                    }
                    value = found;
                }
            }

            #[inline]
            fn compare_exchange(
                &self,
                old: $value,
                new: $value,
                _: Ordering,
                _: Ordering,
            ) -> Result<$value, $value> {
                // SAFETY: as in `update`
                let found = unsafe { exchange_16(self.0.get().cast(), old as u128, new as u128) } as $value;
                if found == old { Ok(found) } else { Err(found) }
            }

            #[inline]
            fn compare_exchange_weak(
                &self,
                old: $value,
                new: $value,
                success: Ordering,
                failure: Ordering,
            ) -> Result<$value, $value> {
                self.compare_exchange(old, new, success, failure)
            }

            #[inline]
            fn fetch_update(
                &self,
                _: Ordering,
                _: Ordering,
                new: impl Fn($value) -> Option<$value>,
            ) -> Result<$value, $value> {
                Ok(self.update(|value| new(value).unwrap_or(value)))
            }

            wide_calls! { $value
                swap(_value, a) a;
                fetch_add(value, a) value.wrapping_add(a);
                fetch_sub(value, a) value.wrapping_sub(a);
                fetch_and(value, a) value & a;
                fetch_nand(value, a) !(value & a);
                fetch_or(value, a) value | a;
                fetch_xor(value, a) value ^ a;
                fetch_max(value, a) value.max(a);
                fetch_min(value, a) value.min(a);
            }
        }
    };
}

macro_rules! wide_calls {
    ($type:ident $($name:ident($value:ident, $a:ident) $new:expr;)*) => {
        $(
            #[inline]
            fn $name(&self, $a: $type, _: Ordering) -> $type {
                self.update(|$value| $new)
            }
        )*
    };
}

wide!(AtomicU128, u128);
wide!(AtomicI128, i128);

/// The calls on an integer or a pointer; its values are seen as patterns through the unsigned type.
macro_rules! integer_call {
    ($cell:expr, $line:expr, $value:ident, $pattern:ident) => {{
        let (cell, line) = ($cell, $line);
        let a = line.operands[0] as $value;
        let bit = (1 as $value) << (line.operands[0] as u32 % $value::BITS);
        let value = |found: $value| Reply::Value(u128::from(found as $pattern));
        let quiet = |_: $value| Reply::Unit;
        let was_set = |found: $value| Reply::Bit(found & bit != 0);
        let exchanged = |found: Result<$value, $value>| match found {
            Ok(found) => Reply::Done(u128::from(found as $pattern)),
            Err(found) => Reply::Failed(u128::from(found as $pattern)),
        };
        match line.operation {
            Operation::Load => value(cell.load(SeqCst)),
            Operation::Store => {
                cell.store(a, SeqCst);
                Reply::Unit
            }
            Operation::Swap => value(cell.swap(a, SeqCst)),
            Operation::CompareExchange => {
                exchanged(cell.compare_exchange(a, line.operands[1] as $value, SeqCst, SeqCst))
            }
            Operation::CompareExchangeWeak => {
                exchanged(cell.compare_exchange_weak(a, line.operands[1] as $value, SeqCst, SeqCst))
            }
            Operation::FetchAdd | Operation::FetchByteAdd => value(cell.fetch_add(a, SeqCst)),
            Operation::Add => quiet(cell.fetch_add(a, SeqCst)),
            Operation::FetchSub | Operation::FetchByteSub => value(cell.fetch_sub(a, SeqCst)),
            Operation::Sub => quiet(cell.fetch_sub(a, SeqCst)),
            Operation::FetchAnd => value(cell.fetch_and(a, SeqCst)),
            Operation::And => quiet(cell.fetch_and(a, SeqCst)),
            Operation::FetchNand => value(cell.fetch_nand(a, SeqCst)),
            Operation::FetchOr => value(cell.fetch_or(a, SeqCst)),
            Operation::Or => quiet(cell.fetch_or(a, SeqCst)),
            Operation::FetchXor => value(cell.fetch_xor(a, SeqCst)),
            Operation::Xor => quiet(cell.fetch_xor(a, SeqCst)),
            Operation::FetchMax => value(cell.fetch_max(a, SeqCst)),
            Operation::FetchMin => value(cell.fetch_min(a, SeqCst)),
            Operation::FetchNot => value(cell.fetch_xor(!0, SeqCst)),
            Operation::Not => quiet(cell.fetch_xor(!0, SeqCst)),
            Operation::FetchNeg => {
                value(cell.fetch_update(SeqCst, SeqCst, |value| Some(value.wrapping_neg())).unwrap())
            }
            Operation::Neg => quiet(cell.fetch_update(SeqCst, SeqCst, |value| Some(value.wrapping_neg())).unwrap()),
            Operation::BitSet => was_set(cell.fetch_or(bit, SeqCst)),
            Operation::BitClear => was_set(cell.fetch_and(!bit, SeqCst)),
            Operation::BitToggle => was_set(cell.fetch_xor(bit, SeqCst)),
            Operation::AddFetch => value(cell.fetch_add(a, SeqCst).wrapping_add(a)),
            Operation::SubFetch => value(cell.fetch_sub(a, SeqCst).wrapping_sub(a)),
            Operation::AndFetch => value(cell.fetch_and(a, SeqCst) & a),
            Operation::NandFetch => value(!(cell.fetch_nand(a, SeqCst) & a)),
            Operation::OrFetch => value(cell.fetch_or(a, SeqCst) | a),
            Operation::XorFetch => value(cell.fetch_xor(a, SeqCst) ^ a),
        }
    }};
}

fn bool_call(cell: &AtomicBool, line: &Line) -> Reply {
    let a = line.operands[0] != 0;
    let n = line.operands[1] != 0;
    let value = |found: bool| Reply::Value(u128::from(found));
    let quiet = |_: bool| Reply::Unit;
    let exchanged = |found: Result<bool, bool>| match found {
        Ok(found) => Reply::Done(u128::from(found)),
        Err(found) => Reply::Failed(u128::from(found)),
    };
    match line.operation {
        Operation::Load => value(cell.load(SeqCst)),
        Operation::Store => {
            cell.store(a, SeqCst);
            Reply::Unit
        }
        Operation::Swap => value(cell.swap(a, SeqCst)),
        Operation::CompareExchange => exchanged(cell.compare_exchange(a, n, SeqCst, SeqCst)),
        Operation::CompareExchangeWeak => exchanged(cell.compare_exchange_weak(a, n, SeqCst, SeqCst)),
        Operation::FetchAnd => value(cell.fetch_and(a, SeqCst)),
        Operation::And => quiet(cell.fetch_and(a, SeqCst)),
        Operation::FetchNand => value(cell.fetch_nand(a, SeqCst)),
        Operation::FetchOr => value(cell.fetch_or(a, SeqCst)),
        Operation::Or => quiet(cell.fetch_or(a, SeqCst)),
        Operation::FetchXor => value(cell.fetch_xor(a, SeqCst)),
        Operation::Xor => quiet(cell.fetch_xor(a, SeqCst)),
        Operation::FetchNot => value(cell.fetch_xor(true, SeqCst)),
        Operation::Not => quiet(cell.fetch_xor(true, SeqCst)),
        Operation::AndFetch => value(cell.fetch_and(a, SeqCst) & a),
        Operation::NandFetch => value(!(cell.fetch_nand(a, SeqCst) & a)),
        Operation::OrFetch => value(cell.fetch_or(a, SeqCst) | a),
        Operation::XorFetch => value(cell.fetch_xor(a, SeqCst) ^ a),
        _ => unreachable!("the reader lets no other call of a bool through"),
    }
}

macro_rules! cells {
    ($($kind:ident $atomic:ident $value:ident $pattern:ident;)*) => {
        enum Cell {
            Bool(AtomicBool),
            $($kind($atomic),)*
        }

        impl Cell {
            fn of(object: &Object) -> Cell {
                match object.kind {
                    Kind::Bool => Cell::Bool(AtomicBool::new(object.start != 0)),
                    $(Kind::$kind => Cell::$kind($atomic::new(object.start as $value)),)*
                }
            }

            #[inline]
            fn call(&self, line: &Line) -> Reply {
                match self {
                    Cell::Bool(cell) => bool_call(cell, line),
                    $(Cell::$kind(cell) => integer_call!(cell, line, $value, $pattern),)*
                }
            }

            fn load(&self) -> u128 {
                match self {
                    Cell::Bool(cell) => u128::from(cell.load(SeqCst)),
                    $(Cell::$kind(cell) => u128::from(cell.load(SeqCst) as $pattern),)*
                }
            }
        }
    };
}

cells! {
    I8 AtomicI8 i8 u8;
    I16 AtomicI16 i16 u16;
    I32 AtomicI32 i32 u32;
    I64 AtomicI64 i64 u64;
    I128 AtomicI128 i128 u128;
    U8 AtomicU8 u8 u8;
    U16 AtomicU16 u16 u16;
    U32 AtomicU32 u32 u32;
    U64 AtomicU64 u64 u64;
    U128 AtomicU128 u128 u128;
    Ptr AtomicU64 u64 u64;
}

/// Of each object whether its last value is the same in whichever order the threads make their calls: all calls on it
/// are loads and members of one family.
fn fixed(work: &Work) -> Vec<bool> {
    let mut families = vec![LOADS; work.objects.len()];
    for line in work.threads.iter().flat_map(|script| &script.lines) {
        families[line.object as usize] |= WORDS[line.operation as usize].family;
    }
    families.iter().map(|families| families.count_ones() <= 1).collect()
}

/// Makes the calls of a script, in order, and hands on each reply.
#[inline]
fn make(script: &Script, cells: &[Cell], mut told: impl FnMut(Reply)) {
    let mut start = 0;
    for span in &script.spans {
        let lines = &script.lines[start..span.end];
        for _ in 0..span.times {
            for line in lines {
                told(cells[line.object as usize].call(line));
            }
        }
        start = span.end;
    }
}

/// Runs each script on a thread of its own.
fn run(work: &Work, cells: &[Cell]) -> Vec<Vec<Reply>> {
    let mut replies: Vec<_> = work.threads.iter().map(|script| Vec::with_capacity(script.calls)).collect();
    std::thread::scope(|scope| {
        for (script, replies) in work.threads.iter().zip(&mut replies) {
            scope.spawn(move || make(script, cells, |reply| replies.push(reply)));
        }
    });
    replies
}

/// Runs each script on a thread of its own, without its replies.
fn run_untold(work: &Work, cells: &[Cell]) {
    std::thread::scope(|scope| {
        for script in &work.threads {
            scope.spawn(move || make(script, cells, |_| ()));
        }
    });
}

// ---------------------------------------------------------------------------------------------------------------------
// Generated workloads

/// `Lcg128Xsl64` of the crate `rand_pcg`: 128 bits of state, and words of 64.
struct Drawer {
    state: u128,
    increment: u128,
}

impl Drawer {
    /// `seed_from_u64`: eight words of a PCG32 are the seed, its first half the state, its second half the increment.
    fn of(seed: u64) -> Drawer {
        let mut small = seed;
        let mut half = || {
            (0..4).fold(0u128, |half, place| {
                small = small.wrapping_mul(6_364_136_223_846_793_005).wrapping_add(11_634_580_027_462_260_723);
                let word = ((small >> 18 ^ small) >> 27) as u32;
                half | u128::from(word.rotate_right((small >> 59) as u32)) << (32 * place)
            })
        };
        let (state, increment) = (half(), half() | 1);
        let mut drawer = Drawer { state: state.wrapping_add(increment), increment };
        drawer.step();
        drawer
    }

    #[inline]
    fn step(&mut self) {
        self.state = self.state.wrapping_mul(0x2360_ed05_1fc6_5da4_4385_df64_9fcc_f645).wrapping_add(self.increment);
    }

    #[inline]
    fn next(&mut self) -> u64 {
        self.step();
        ((self.state >> 64) as u64 ^ self.state as u64).rotate_right((self.state >> 122) as u32)
    }
}

const DRAWN: [(&str, Kind, u128, Operation); 8] = [
    ("n8", Kind::U8, 0, Operation::FetchAdd),
    ("n16", Kind::I16, 0, Operation::FetchSub),
    ("m32", Kind::U32, 0, Operation::FetchMax),
    ("s32", Kind::I32, 0, Operation::FetchMin),
    ("x64", Kind::U64, 0, Operation::FetchXor),
    ("o8", Kind::U8, 0, Operation::FetchOr),
    ("a16", Kind::U16, 65_535, Operation::FetchAnd),
    ("w128", Kind::U128, 0, Operation::FetchAdd),
];

fn draw_call(drawer: &mut Drawer) -> Line {
    let word = drawer.next();
    let object = (word % 8) as u32;
    let (_, kind, _, operation) = DRAWN[object as usize];
    let operand = u128::from(word / 8) & (u128::MAX >> (128 - kind.width()));
    Line { object, operation, success: Asked::SeqCst, failure: Asked::SeqCst, operands: [operand, 0] }
}

fn draw_work(seed: u64, threads: u32, calls: u32) -> Work {
    let mut drawer = Drawer::of(seed);
    let script = |_| {
        let mut script = Script::default();
        script.lines.extend((0..calls).map(|_| draw_call(&mut drawer)));
        script.close(1);
        script
    };
    let object = |(name, kind, start, _): &(&str, Kind, u128, Operation)| Object {
        name: Padded::of(name.as_bytes()),
        kind: *kind,
        start: *start,
    };
    Work {
        target: "word32".to_string(),
        objects: DRAWN.iter().map(object).collect(),
        threads: (0..threads).map(script).collect(),
    }
}

/// The objects of a generated workload in words of 32 bits: lanes that share words, and two objects of several words,
/// each under a lock of its own, which has 1 while it is held and else its stamp.
struct Words32 {
    words: [AtomicU32; 12],
    locks: [Lock; 2],
}

/// In a cache line of its own.
#[repr(align(64))]
#[derive(Default)]
struct Lock(AtomicU64);

impl Words32 {
    fn new() -> Words32 {
        let words: [AtomicU32; 12] = Default::default();
        words[6].store(65_535 << 16, SeqCst);
        Words32 { words, locks: Default::default() }
    }

    /// Exchanges a lane of 8 or 16 bits until an exchange is made.
    #[inline]
    fn by_loop(&self, word: usize, shift: u32, mask: u32, new: impl Fn(u32) -> u32) -> u32 {
        let cell = &self.words[word];
        let mut found = cell.load(SeqCst);
        loop {
            let value = found >> shift & mask;
            let wanted = found & !(mask << shift) | (new(value) & mask) << shift;
            match cell.compare_exchange(found, wanted, SeqCst, SeqCst) {
                Ok(_) => return value,
                Err(other) => found = other,
            }
            std::hint::spin_loop();
        }
    }

    /// Reads and stores every word of an object under its lock, and moves the stamp on.
    #[inline]
    fn locked(&self, lock: usize, words: std::ops::Range<usize>, new: impl Fn(u128) -> u128) -> u128 {
        let stamp = self.take(&self.locks[lock].0);
        let words = &self.words[words];
        let value = words.iter().rev().fold(0, |value, word| value << 32 | u128::from(word.load(SeqCst)));
        let wanted = new(value);
        for (place, word) in words.iter().enumerate() {
            word.store((wanted >> (32 * place)) as u32, SeqCst);
        }
        self.locks[lock].0.store(stamp + 2, SeqCst);
        value
    }

    /// Swaps 1 into the lock until it had a stamp: pauses longer each time, and then lets other threads go first.
    #[inline]
    fn take(&self, lock: &AtomicU64) -> u64 {
        let mut tries = 0;
        loop {
            let stamp = lock.swap(1, SeqCst);
            if stamp != 1 {
                return stamp;
            }
            if tries <= 6 {
                (0..1 << tries).for_each(|_| std::hint::spin_loop());
                tries += 1;
            } else {
                std::thread::yield_now();
            }
        }
    }

    /// Makes a drawn call: each object has one operation.
    #[inline]
    fn call(&self, line: &Line) -> u128 {
        let a = line.operands[0];
        let low = a as u32;
        match line.object {
            0 => u128::from(self.by_loop(0, 0, 0xff, |value| value.wrapping_add(low))),
            1 => u128::from(self.by_loop(0, 16, 0xffff, |value| value.wrapping_sub(low))),
            2 => u128::from(self.words[1].fetch_max(low, SeqCst)),
            3 => {
                // SAFETY: the word lives, and is only accessed by atomic steps
                let word = unsafe { AtomicI32::from_ptr(self.words[2].as_ptr().cast()) };
                u128::from(word.fetch_min(low as i32, SeqCst) as u32)
            }
            4 => self.locked(0, 4..6, |value| value ^ a),
            5 => u128::from(self.words[6].fetch_or(low, SeqCst) & 0xff),
            6 => u128::from(self.words[6].fetch_and(low << 16 | 0xffff, SeqCst) >> 16),
            _ => self.locked(1, 8..12, |value| value.wrapping_add(a)),
        }
    }

    /// The value of each object.
    fn last(&self) -> Vec<u128> {
        let word = |place: usize| u128::from(self.words[place].load(SeqCst));
        let joined = |first: usize, count: usize| (0..count).map(|place| word(first + place) << (32 * place)).sum();
        let (shared, other) = (word(0), word(6));
        vec![shared & 0xff, shared >> 16, word(1), word(2), joined(4, 2), other & 0xff, other >> 16, joined(8, 4)]
    }

    /// Runs each script on a thread of its own, without its replies.
    fn run(&self, work: &Work) {
        std::thread::scope(|scope| {
            for script in &work.threads {
                scope.spawn(move || {
                    for line in &script.lines {
                        std::hint::black_box(self.call(line));
                    }
                });
            }
        });
    }
}

// ---------------------------------------------------------------------------------------------------------------------
// Printing

const BLOCK: usize = 65_536;
/// The longest line of a report, and what a copy of fixed length may write past it.
const LONGEST: usize = 320;

struct Out {
    file: ManuallyDrop<File>,
    block: Vec<u8>,
    at: usize,
}

const PAIRS: [[u8; 2]; 100] = {
    let mut pairs = [[0; 2]; 100];
    let mut number = 0;
    while number < 100 {
        pairs[number] = [b'0' + (number / 10) as u8, b'0' + (number % 10) as u8];
        number += 1;
    }
    pairs
};

/// Eight digits of a number below 10 to the 8.
#[inline]
fn digits_8(number: u32) -> [u8; 8] {
    let (high, low) = (number / 10_000, number % 10_000);
    let mut digits = [0; 8];
    digits[0..2].copy_from_slice(&PAIRS[(high / 100) as usize]);
    digits[2..4].copy_from_slice(&PAIRS[(high % 100) as usize]);
    digits[4..6].copy_from_slice(&PAIRS[(low / 100) as usize]);
    digits[6..8].copy_from_slice(&PAIRS[(low % 100) as usize]);
    digits
}

/// Twenty digits of a number.
#[inline]
fn digits_20(number: u64) -> [u8; 20] {
    let (high, low) = (number / 10_000_000_000_000_000, number % 10_000_000_000_000_000);
    let mut digits = [0; 20];
    digits[0..4].copy_from_slice(&digits_8(high as u32)[4..]);
    digits[4..12].copy_from_slice(&digits_8((low / 100_000_000) as u32));
    digits[12..20].copy_from_slice(&digits_8((low % 100_000_000) as u32));
    digits
}

/// The quotient and the rest by 10 to the 19, without a division of 128 bits.
#[inline]
fn by_ten_19(number: u128) -> (u128, u64) {
    let quotient = if number < 1 << 83 {
        u128::from((number >> 19) as u64 / (TEN_19 >> 19))
    } else {
        high_half(number, 156_927_543_384_667_019_095_894_735_580_191_660_403) >> 62
    };
    (quotient, (number - quotient * u128::from(TEN_19)) as u64)
}

/// The upper 128 bits of a product.
#[inline]
fn high_half(a: u128, b: u128) -> u128 {
    let (a_low, a_high) = (u128::from(a as u64), a >> 64);
    let (b_low, b_high) = (u128::from(b as u64), b >> 64);
    let carry = (a_low * b_low) >> 64;
    let middle = a_low * b_high + carry;
    let other = a_high * b_low + u128::from(middle as u64);
    a_high * b_high + (middle >> 64) + (other >> 64)
}

impl Out {
    fn new() -> Out {
        // SAFETY: standard output is open, and never closed by this
        let file = ManuallyDrop::new(unsafe { File::from_raw_fd(1) });
        Out { file, block: vec![0; BLOCK], at: 0 }
    }

    fn flush(&mut self) -> io::Result<()> {
        let count = std::mem::take(&mut self.at);
        self.file.write_all(&self.block[..count])
    }

    /// Makes room for a line.
    #[inline]
    fn room(&mut self) -> io::Result<()> {
        if self.at + LONGEST > BLOCK { self.flush() } else { Ok(()) }
    }

    /// Writes `count` bytes of these, by a copy of fixed length.
    #[inline]
    fn fixed<const N: usize>(&mut self, bytes: &[u8; N], count: usize) {
        self.block[self.at..self.at + N].copy_from_slice(bytes);
        self.at += count;
    }

    #[inline]
    fn all<const N: usize>(&mut self, bytes: &[u8; N]) {
        self.fixed(bytes, N);
    }

    #[inline]
    fn number(&mut self, number: u64) {
        if number < 10 {
            return self.all(&[b'0' + number as u8]);
        }
        let mut padded = [0; 40];
        if number < 100_000_000 {
            padded[12..20].copy_from_slice(&digits_8(number as u32));
        } else {
            padded[..20].copy_from_slice(&digits_20(number));
        }
        let first = 19 - number.ilog10() as usize;
        let shown: &[u8; 20] = padded[first..first + 20].try_into().unwrap();
        self.fixed(shown, 20 - first);
    }

    /// Nineteen digits.
    fn nineteen(&mut self, number: u64) {
        let digits = digits_20(number);
        let shown: &[u8; 19] = digits[1..].try_into().unwrap();
        self.all(shown);
    }

    #[inline]
    fn wide_number(&mut self, number: u128) {
        if let Ok(number) = u64::try_from(number) {
            return self.number(number);
        }
        let (head, last) = by_ten_19(number);
        if head < u128::from(TEN_19) {
            self.number(head as u64);
        } else {
            let (first, middle) = by_ten_19(head);
            self.number(first as u64);
            self.nineteen(middle);
        }
        self.nineteen(last);
    }

    fn pointer(&mut self, number: u64) {
        self.all(b"0x");
        let count = (16 - number.leading_zeros() / 4).max(1);
        for place in (0..count).rev() {
            self.all(&[b"0123456789abcdef"[(number >> (4 * place) & 15) as usize]]);
        }
    }

    fn truth(&mut self, value: bool) {
        if value { self.all(b"true") } else { self.all(b"false") }
    }

    #[inline]
    fn value(&mut self, kind: Kind, pattern: u128) {
        match kind {
            Kind::Bool => self.truth(pattern != 0),
            Kind::Ptr => self.pointer(pattern as u64),
            _ if kind.signed() && pattern >> (kind.width() - 1) != 0 => {
                self.all(b"-");
                self.wide_number(pattern.wrapping_neg() & (u128::MAX >> (128 - kind.width())));
            }
            _ => self.wide_number(pattern),
        }
    }

    fn reply(&mut self, kind: Kind, reply: Reply) {
        match reply {
            Reply::Unit => self.all(b"unit"),
            Reply::Value(value) => self.value(kind, value),
            Reply::Bit(bit) => self.truth(bit),
            Reply::Done(value) => {
                self.all(b"ok ");
                self.value(kind, value);
            }
            Reply::Failed(value) => {
                self.all(b"err ");
                self.value(kind, value);
            }
        }
    }

    fn orders(&mut self, line: &Line, exchange: bool) {
        if line.success != Asked::SeqCst || line.failure != Asked::SeqCst {
            self.all(line.success.text());
            if exchange {
                self.all(line.failure.text());
            }
        }
    }

    fn line(&mut self, objects: &[Object], line: &Line, reply: Reply) -> io::Result<()> {
        self.room()?;
        let object = &objects[line.object as usize];
        let word = &WORDS[line.operation as usize];
        self.fixed(&object.name.bytes, object.name.length);
        self.fixed(&word.text.bytes, word.text.length);
        let count = match word.operands {
            Operands::None => 0,
            Operands::One | Operands::Position => 1,
            Operands::Two => 2,
        };
        for operand in &line.operands[..count] {
            self.all(b" ");
            let kind = if word.operands == Operands::Position { Kind::U32 } else { object.kind };
            self.value(kind, *operand);
        }
        self.orders(line, count == 2);
        self.all(b" = ");
        self.reply(object.kind, reply);
        self.all(b"\n");
        Ok(())
    }

    fn report(&mut self, work: &Work, fixed: &[bool], replies: &[Vec<Reply>], last: &[u128]) -> io::Result<()> {
        self.all(b"target ");
        for byte in work.target.bytes() {
            self.all(&[byte]);
        }
        self.all(b"\n");
        for (number, (script, replies)) in (1..).zip(work.threads.iter().zip(replies)) {
            self.room()?;
            self.all(b"thread ");
            self.number(number);
            self.all(b"\n");
            for (line, reply) in script.calls().zip(replies) {
                self.line(&work.objects, line, *reply)?;
            }
        }
        self.all(b"last\n");
        for ((object, value), fixed) in work.objects.iter().zip(last).zip(fixed) {
            self.last(object, *value, *fixed)?;
        }
        self.flush()
    }

    fn last(&mut self, object: &Object, value: u128, fixed: bool) -> io::Result<()> {
        self.room()?;
        self.fixed(&object.name.bytes, object.name.length);
        self.all(b" ");
        self.value(object.kind, value);
        if fixed {
            self.all(b" fixed");
        }
        self.all(b"\n");
        Ok(())
    }

    fn drawn(&mut self, words: &[&str], work: &Work, last: &[u128]) -> io::Result<()> {
        for byte in words.join(" ").bytes() {
            self.all(&[byte]);
        }
        self.all(b"\n");
        for (object, value) in work.objects.iter().zip(last) {
            self.last(object, *value, true)?;
        }
        self.flush()
    }
}

// ---------------------------------------------------------------------------------------------------------------------

/// The text, with zeros after it, and its length; of a longer text one byte more than the most.
fn read_all() -> io::Result<(Vec<u8>, usize)> {
    // SAFETY: standard input is open, and never closed by this
    let mut input = ManuallyDrop::new(unsafe { File::from_raw_fd(0) });
    let mut text = vec![0; MOST_BYTES + 1 + SPARE];
    let mut length = 0;
    while length <= MOST_BYTES {
        match input.read(&mut text[length..=MOST_BYTES])? {
            0 => break,
            count => length += count,
        }
    }
    Ok((text, length))
}

/// The last values of a run on the processor's own atomics.
fn run_on_own(work: &Work) -> Vec<u128> {
    let cells: Vec<Cell> = work.objects.iter().map(Cell::of).collect();
    run_untold(work, &cells);
    cells.iter().map(Cell::load).collect()
}

/// The last values of a run on words of 32 bits.
fn run_on_words(work: &Work) -> Vec<u128> {
    let words = Words32::new();
    words.run(work);
    words.last()
}

/// The command `many` or `many_word32`, with its words.
fn many(words: &[String]) -> io::Result<ExitCode> {
    let number = |place: usize, bits: u32| words.get(place).and_then(|word| read_integer(word.as_bytes(), bits, false).ok());
    let (Some(seed), Some(threads), Some(calls), 4) = (number(1, 64), number(2, 32), number(3, 32), words.len()) else {
        return Ok(ExitCode::from(2));
    };
    let (threads, calls) = (threads as usize, calls as usize);
    if !(1..=MOST_THREADS).contains(&threads) || calls > MOST_LINES || threads * calls > MOST_LINES_IN_ALL {
        return Ok(ExitCode::from(2));
    }
    let work = draw_work(seed as u64, threads as u32, calls as u32);
    let last = if words[0] == "many" { run_on_own(&work) } else { run_on_words(&work) };
    let told = ["many", &words[1], &words[2], &words[3]];
    Out::new().drawn(&told, &work, &last)?;
    Ok(ExitCode::SUCCESS)
}

fn main() -> io::Result<ExitCode> {
    assert!(std::is_x86_feature_detected!("cmpxchg16b"), "the peer needs cmpxchg16b");
    let words: Vec<String> = std::env::args().skip(1).collect();
    if words.first().is_some_and(|word| word == "many" || word == "many_word32") {
        return many(&words);
    }
    assert!(words.is_empty() || words == ["run"], "the peer serves `run` and `many`");
    let (text, length) = read_all()?;
    let work = match read_work(&text, length) {
        Ok(work) => work,
        Err((line, (word, cause))) => {
            println!("line {line} word {word} {cause:?}");
            return Ok(ExitCode::from(1));
        }
    };
    drop(text);
    let cells: Vec<Cell> = work.objects.iter().map(Cell::of).collect();
    let fixed = fixed(&work);
    let replies = run(&work, &cells);
    let last: Vec<u128> = cells.iter().map(Cell::load).collect();
    Out::new().report(&work, &fixed, &replies, &last)?;
    Ok(ExitCode::SUCCESS)
}
