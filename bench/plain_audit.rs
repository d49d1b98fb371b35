//! The audit of a run by a plain program: nothing of it is proved. It reads a trace and behind it a run, and says `legal`, or the
//! first clause that fails and the line of the input at which it does, or the first faulty line. It is written from the formats
//! and the rules of a legal run alone, and shares no line with the proved one, so it serves two ends: the proved one is measured
//! beside it, and a verdict that both give is one on which two readings of the rules agree.
use std::collections::{HashMap, VecDeque};
use std::io::Read;
use std::ops::Range;

const SUPER: u32 = 2_097_152;
const PAGE: u32 = 16_384;
const SYSTEM_PAGE: u32 = 4_096;
const GREATEST: u64 = 33_521_656;
const POISON: u64 = 0xefef_efef_efef_efef;
const TRACE_LINES: u32 = 65_536;
const TRACE_BYTES: usize = 4_194_304;
const INPUT_BYTES: usize = 134_217_728;
const SPARSE: usize = 59;
const DIRECT: usize = 170;
const NONE: u32 = u32::MAX;

/// A line of the report behind its letter: `n` is a number of 32 bits, `N` one of 64.
const REPORT: &str = "n n live N N quarantined N N cached N N root N N committed N reserved N full n active n empty n decommitted n";

/// The size classes, those of version 1 and then those of versions 2 and 3: slot size, partition pages of a span, slots of a span.
const CLASSES: [(u32, u32, u32); DIRECT] = [
    (16, 1, 1024), (32, 1, 512), (48, 1, 341), (64, 1, 256), (80, 1, 204), (96, 1, 170), (112, 1, 146), (128, 1, 128),
    (160, 1, 102), (192, 1, 85), (224, 1, 73), (256, 1, 64), (320, 1, 51), (384, 3, 128), (448, 2, 73), (512, 1, 32),
    (640, 4, 96), (768, 3, 64), (896, 2, 32), (1024, 1, 16), (1280, 4, 48), (1536, 3, 32), (1792, 2, 16), (2048, 1, 8),
    (2560, 4, 24), (3072, 3, 16), (3584, 2, 8), (4096, 1, 4), (5120, 4, 12), (6144, 3, 8), (7168, 2, 4), (8192, 1, 2),
    (10240, 4, 6), (12288, 3, 4), (14336, 2, 2), (16384, 1, 1), (20480, 2, 1), (24576, 2, 1), (28672, 2, 1), (32768, 2, 1),
    (40960, 3, 1), (49152, 3, 1), (57344, 4, 1), (65536, 4, 1), (81920, 5, 1), (98304, 6, 1), (114688, 7, 1), (131072, 8, 1),
    (163840, 10, 1), (196608, 12, 1), (229376, 14, 1), (262144, 16, 1), (327680, 20, 1), (393216, 24, 1), (458752, 28, 1),
    (524288, 32, 1), (655360, 40, 1), (786432, 48, 1), (917504, 56, 1),
    (16, 1, 1024), (32, 1, 512), (48, 1, 341), (64, 1, 256), (80, 1, 204), (96, 1, 170), (112, 1, 146), (128, 1, 128), (144, 2, 199),
    (160, 1, 102), (176, 1, 93), (192, 1, 85), (208, 3, 236), (224, 1, 73), (240, 1, 68), (256, 1, 64), (288, 4, 199), (320, 1, 51),
    (352, 2, 93), (384, 3, 128), (416, 3, 118), (448, 2, 73), (480, 1, 34), (512, 1, 32), (576, 3, 78), (640, 4, 96), (704, 3, 64),
    (768, 3, 64), (832, 3, 59), (896, 2, 32), (960, 1, 17), (1024, 1, 16), (1152, 3, 39), (1280, 4, 48), (1408, 3, 32), (1536, 3, 32),
    (1664, 3, 27), (1792, 2, 16), (1920, 4, 32), (2048, 1, 8), (2304, 1, 7), (2560, 4, 24), (2816, 3, 16), (3072, 3, 16), (3328, 4, 17),
    (3584, 2, 8), (3840, 4, 16), (4096, 1, 4), (4608, 2, 7), (5120, 4, 12), (5632, 3, 8), (6144, 3, 8), (6656, 4, 9), (7168, 2, 4),
    (7680, 4, 8), (8192, 1, 2), (9216, 4, 7), (10240, 4, 6), (11264, 3, 4), (12288, 3, 4), (13312, 2, 2), (14336, 2, 2), (15360, 4, 4),
    (16384, 1, 1), (18432, 2, 1), (20480, 2, 1), (22528, 2, 1), (24576, 2, 1), (26624, 2, 1), (28672, 2, 1), (30720, 2, 1), (32768, 2, 1),
    (36864, 3, 1), (40960, 3, 1), (45056, 3, 1), (49152, 3, 1), (53248, 4, 1), (57344, 4, 1), (61440, 4, 1), (65536, 4, 1), (73728, 5, 1),
    (81920, 5, 1), (90112, 6, 1), (98304, 6, 1), (106496, 7, 1), (114688, 7, 1), (122880, 8, 1), (131072, 8, 1), (147456, 9, 1),
    (163840, 10, 1), (180224, 11, 1), (196608, 12, 1), (212992, 13, 1), (229376, 14, 1), (245760, 15, 1), (262144, 16, 1), (294912, 18, 1),
    (327680, 20, 1), (360448, 22, 1), (393216, 24, 1), (425984, 26, 1), (458752, 28, 1), (491520, 30, 1), (524288, 32, 1), (589824, 36, 1),
    (655360, 40, 1), (720896, 44, 1), (786432, 48, 1), (851968, 52, 1), (917504, 56, 1), (983040, 60, 1),
];

/// How many free slots of a class a thread keeps at most.
fn cache_limit(class: usize) -> usize {
    [64, 32, 16, 0][[128, 1024, 32_768].iter().filter(|most| CLASSES[class].0 > **most).count()]
}

/// How many slots of a class are asked for at once.
fn fill_count(class: usize) -> usize {
    (cache_limit(class) / 8).max(1)
}

/// The version of a trace: its classes, and how many super pages a region has at most.
#[derive(Clone, Copy)]
struct Version {
    first: usize, // of its classes
    behind: usize,
    most_supers: usize,
}

const VERSION_1: Version = Version { first: 0, behind: SPARSE, most_supers: 16 };
const VERSION_2: Version = Version { first: SPARSE, behind: DIRECT, most_supers: 64 };

impl Version {
    /// The class of a request that isn't too large; `DIRECT` where it is a direct map.
    fn class_of(&self, size: u64) -> usize {
        let slots = &CLASSES[self.first..self.behind];
        let at = slots.partition_point(|(slot, _, _)| u64::from(*slot) < size.max(1) + 8);
        if at < slots.len() { self.first + at } else { DIRECT }
    }

    /// The size of the slot that a request gets which isn't too large.
    fn slot_size_for(&self, size: u64) -> u32 {
        CLASSES.get(self.class_of(size)).map_or((size as u32 + 8).next_multiple_of(SYSTEM_PAGE), |(slot, _, _)| *slot)
    }
}

/// How many super pages a direct map has whose slot is so long.
fn supers_for(slot: u32) -> u32 {
    (slot + 2 * PAGE).div_ceil(SUPER)
}

// ---- a trace and a run

#[derive(Clone, Copy)]
enum Op {
    Alloc { partition: usize, size: u64 },
    Copy { to: usize },
    Reset,
    Free,
    Write(u64),
    Read(u64),
    Swap(usize),
    Purge,
}

#[derive(Clone, Copy)]
struct OpLine {
    line: u32,
    phase: u32,
    thread: usize,
    reg: usize, // the register that it names first
    op: Op,
}

struct Trace {
    version: Version,
    region: u32,
    partitions: usize,
    threads: usize,
    plain_from: usize, // the first plain partition
    phases: u32,
    ops: Vec<OpLine>,
    of_line: Vec<u32>, // of each line, by its number, which op it is, or NONE
}

impl Trace {
    fn op_at(&self, line: u32) -> Option<&OpLine> {
        self.ops.get(*self.of_line.get(line as usize)? as usize)
    }
}

#[derive(Clone, Copy, PartialEq, Eq, Hash)]
struct Name {
    start: u32,
    born: u32,
}

fn number(word: u64) -> u64 {
    word >> 24
}

fn refs(word: u64) -> u64 {
    word >> 1 & 0x7f_ffff
}

fn held(word: u64) -> bool {
    word & 1 == 1
}

fn is_free(word: u64) -> bool {
    !held(word) && refs(word) == 0
}

#[rustfmt::skip]
#[derive(Clone, Copy, PartialEq)]
enum Kind {
    Made, Done, Word, Dangling, SecondFree, NotOwner, StaleReset, StaleUse, Nothing, Filled, NotRef, Shared, OutOfRange, TooLarge, Full,
    Swapped, Purged, Uncounted,
}

const KINDS: [(&[u8], Kind); 18] = [
    (b"made", Kind::Made), (b"done", Kind::Done), (b"word", Kind::Word), (b"dangling", Kind::Dangling),
    (b"second-free", Kind::SecondFree), (b"not-owner", Kind::NotOwner), (b"stale-reset", Kind::StaleReset),
    (b"stale-use", Kind::StaleUse), (b"nothing", Kind::Nothing), (b"filled", Kind::Filled), (b"not-ref", Kind::NotRef),
    (b"shared", Kind::Shared), (b"out-of-range", Kind::OutOfRange), (b"too-large", Kind::TooLarge), (b"full", Kind::Full),
    (b"swapped", Kind::Swapped), (b"purged", Kind::Purged), (b"uncounted", Kind::Uncounted),
];

/// A slot, by the index of its name, and the word that was found there.
#[derive(Clone, Copy, PartialEq)]
struct Seen {
    slot: usize,
    found: u64,
}

struct Record {
    line: u32,
    thread: u32,
    kind: Kind,
    seen: Option<Seen>,
    told: u64, // the usable bytes, the value that was read, or the number
}

#[derive(Clone, Copy, PartialEq)]
struct Numbered {
    slot: usize,
    number: u64,
}

#[derive(Clone, Copy, PartialEq)]
enum Act {
    Fill,
    Map,
    Full,
    Give,
    Unmap,
    Purge,
}

/// An entry of a journal; what isn't told of its act is 0 or nothing.
struct RootEntry {
    partition: usize,
    line: u32,
    act: Act,
    class: usize,
    pool: Option<u32>,
    len: u32,
    slots: Range<usize>, // among all that the journals name
}

/// An entry of the pool: super pages are taken, or given back.
struct PoolEntry {
    line: u32,
    partition: u32,
    gives: bool,
    count: u32,
    first: Option<u32>,
}

/// What a register holds; what a cell holds or an exchange gives is a handle or Empty.
#[derive(Clone, Copy, PartialEq)]
enum Reg {
    Empty,
    Own(usize),
    Ref(usize),
    Freed,
    Cleared,
}

impl Reg {
    fn is_handle(self) -> bool {
        matches!(self, Reg::Own(_) | Reg::Ref(_))
    }
}

struct Exchange {
    cell: usize,
    line: u32,
    gave: Reg,
    found: Reg,
}

#[derive(Default)]
struct Run {
    names: Vec<Name>,
    records: Vec<Record>,
    journal: Vec<RootEntry>, // those of partition 0 first
    journals: [u32; 4],      // how many of them each partition has
    named: Vec<Numbered>,
    pool: Vec<PoolEntry>,
    exchanges: Vec<Exchange>, // those of cell 0 first
    cells: Vec<u32>,          // how many of them each cell has
    report: Vec<[u64; 16]>,
}

impl Run {
    fn slots(&self, e: &RootEntry) -> &[Numbered] {
        &self.named[e.slots.clone()]
    }

    /// Where an exchange stands that a record names.
    fn exchange(&self, cell: usize, record: &Record) -> Option<usize> {
        let first: u32 = self.cells[..cell].iter().sum();
        (record.kind == Kind::Swapped && record.told < u64::from(self.cells[cell])).then_some(first as usize + record.told as usize)
    }

    /// Where the entries of the pool begin, behind records and journals; and the exchanges; and the report.
    fn pool_at(&self) -> usize {
        self.records.len() + self.journal.len()
    }

    fn exchanges_at(&self) -> usize {
        self.pool_at() + self.pool.len()
    }

    fn report_at(&self) -> usize {
        self.exchanges_at() + self.exchanges.len()
    }

    /// The exchange before this one in its cell.
    fn before(&self, at: usize) -> Option<&Exchange> {
        self.exchanges[..at].last().filter(|before| before.cell == self.exchanges[at].cell)
    }
}

// ---- the reader

/// A status that isn't 0, and what is told then.
type Refused = (i32, String);

fn bad_line(line: u32) -> Refused {
    (2, format!("bad line {line}"))
}

fn limit(line: u32) -> Refused {
    (3, format!("limit at line {line}"))
}

/// A number: nothing where none is spelled, and nothing within where it has more than 64 bits.
fn digits(word: &[u8]) -> Option<Option<u64>> {
    if word.is_empty() || word[0] == b'0' && word.len() > 1 || !word.iter().all(u8::is_ascii_digit) {
        return None;
    }
    Some(word.iter().try_fold(0u64, |sum, digit| sum.checked_mul(10)?.checked_add(u64::from(digit - b'0'))))
}

fn number64(word: &[u8]) -> Option<u64> {
    digits(word)?
}

fn number32(word: &[u8]) -> Option<u32> {
    digits(word)??.try_into().ok()
}

fn hex(word: &[u8], len: usize) -> Option<u64> {
    let digit = |sum: u64, byte: &u8| match byte {
        b'0'..=b'9' => Some(sum << 4 | u64::from(byte - b'0')),
        b'a'..=b'f' => Some(sum << 4 | u64::from(byte - b'a' + 10)),
        _ => None,
    };
    if word.len() == len { word.iter().try_fold(0, digit) } else { None }
}

struct Reader<'a> {
    text: &'a [u8],
    at: usize,
    line: u32,
    over: bool, // a number on this line passes its limit
    slots: HashMap<Name, usize>,
}

impl<'a> Reader<'a> {
    /// Goes behind the next line, and gives whether it has its LF. Its words are those between spaces.
    fn next_line(&mut self, words: &mut Vec<&'a [u8]>) -> bool {
        let rest = &self.text[self.at..];
        let mut from = 0;
        self.line += 1;
        words.clear();
        for (at, byte) in rest.iter().enumerate() {
            if *byte == b' ' || *byte == b'\n' {
                words.push(&rest[from..at]);
                from = at + 1;
            }
            if *byte == b'\n' {
                self.at += from;
                return true;
            }
        }
        self.at = self.text.len();
        false
    }

    /// A number of the trace, behind this letter, which passes its limit where it isn't in this range.
    fn within(&mut self, word: &[u8], letter: &[u8], least: usize, most: usize) -> Option<usize> {
        let n = digits(word.strip_prefix(letter)?)?.map(|n| n as usize).filter(|n| (least..=most).contains(n));
        self.over |= n.is_none();
        Some(n.unwrap_or(least))
    }

    fn head(&mut self, words: &[&[u8]]) -> Option<Trace> {
        let [b"trace", version, b"region", region, b"partitions", partitions, b"threads", threads, rest @ ..] = words else { return None };
        let (version, plain): (Version, &[u8]) = match (*version, rest) {
            (b"1", []) => (VERSION_1, b"0"),
            (b"2", []) => (VERSION_2, b"0"),
            (b"3", [b"plain", plain]) => (VERSION_2, plain),
            _ => return None,
        };
        let region = self.within(region, b"", 1, version.most_supers)? as u32;
        let (partitions, threads) = (self.within(partitions, b"", 1, 4)?, self.within(threads, b"", 1, 16)?);
        let plain_from = partitions - self.within(plain, b"", 0, partitions)?;
        Some(Trace { version, region, partitions, threads, plain_from, phases: 1, ops: Vec::new(), of_line: vec![NONE; 2] })
    }

    /// An op, and the register that it names first.
    fn op(&mut self, words: &[&[u8]], partitions: usize) -> Option<(usize, Op)> {
        let size = u32::MAX as usize;
        let (reg, op) = match words {
            [b"A", reg, p, n] => {
                let partition = self.within(p, b"p", 0, partitions - 1)?;
                (reg, Op::Alloc { partition, size: self.within(n, b"", 0, size)? as u64 })
            }
            [b"C", reg, to] => (reg, Op::Copy { to: self.within(to, b"r", 0, 63)? }),
            [b"R", reg] => (reg, Op::Reset),
            [b"F", reg] => (reg, Op::Free),
            [b"W", reg, value] => (reg, Op::Write(hex(value, 16)?)),
            [b"D", reg, place] => (reg, Op::Read(self.within(place, b"", 0, size)? as u64)),
            [b"X", cell, reg] => (reg, Op::Swap(self.within(cell, b"c", 0, 63)?)),
            [b"P"] => return Some((0, Op::Purge)),
            _ => return None,
        };
        Some((self.within(reg, b"r", 0, 63)?, op))
    }

    fn trace_line(&mut self, words: &[&[u8]], trace: &mut Trace) -> Option<()> {
        if *words == [b"phase"] {
            trace.phases += 1;
            trace.of_line.push(NONE);
            return Some(());
        }
        let (thread, op) = words.split_first()?;
        let thread = self.within(thread, b"", 0, trace.threads - 1)?;
        let (reg, op) = self.op(op, trace.partitions)?;
        trace.of_line.push(trace.ops.len() as u32);
        trace.ops.push(OpLine { line: self.line, phase: trace.phases, thread, reg, op });
        Some(())
    }

    /// The lines before the first that is `run 1`, and behind that one.
    fn trace(&mut self) -> Result<Trace, Refused> {
        let (mut trace, mut words) = (None, Vec::new());
        while self.at < self.text.len() {
            let whole = self.next_line(&mut words);
            if let Some(trace) = trace.take_if(|_| whole && *words == [&b"run"[..], b"1"]) {
                return Ok(trace);
            }
            if self.line > TRACE_LINES || self.at > TRACE_BYTES {
                return Err(limit(self.line));
            }
            let read = match &mut trace {
                Some(trace) => self.trace_line(&words, trace),
                None => self.head(&words).map(|head| trace = Some(head)),
            };
            if read.is_none() || !whole {
                return Err(bad_line(self.line));
            }
            if self.over {
                return Err(limit(self.line));
            }
        }
        Err(bad_line(self.line + 1))
    }

    fn slot(&mut self, word: &[u8], run: &mut Run) -> Option<usize> {
        let (start, born) = word.split_at_checked(8)?;
        let name = Name { start: hex(start, 8)? as u32, born: number32(born.strip_prefix(b".")?)? };
        Some(*self.slots.entry(name).or_insert_with(|| {
            run.names.push(name);
            run.names.len() - 1
        }))
    }

    fn seen(&mut self, slot: &[u8], found: &[u8], run: &mut Run) -> Option<Option<Seen>> {
        Some(Some(Seen { slot: self.slot(slot, run)?, found: hex(found, 16)? }))
    }

    fn record(&mut self, words: &[&[u8]], run: &mut Run) -> Option<()> {
        use Kind::*;
        let [line, thread, name, rest @ ..] = words else { return None };
        let kind = KINDS.iter().find(|(spelled, _)| spelled == name)?.1;
        let (seen, told) = match (kind, rest) {
            (Made, [slot, usable, found]) => (self.seen(slot, found, run)?, number32(usable)?.into()),
            (Word | Dangling, [slot, found, value]) => (self.seen(slot, found, run)?, hex(value, 16)?),
            (Done | NotOwner | Shared | SecondFree | StaleUse, [slot, found]) => (self.seen(slot, found, run)?, 0),
            (SecondFree | StaleUse | StaleReset | Nothing | Filled | NotRef | OutOfRange | TooLarge | Uncounted, []) => (None, 0),
            (Full | Swapped | Purged, [n]) => (None, number32(n)?.into()),
            _ => return None,
        };
        run.records.push(Record { line: number32(line)?, thread: number32(thread)?, kind, seen, told });
        Some(())
    }

    /// 1 to 16 slots with their numbers.
    fn batch(&mut self, words: &[&[u8]], run: &mut Run) -> Option<()> {
        for word in words {
            let sign = word.iter().position(|byte| *byte == b'@')?;
            let numbered = Numbered { slot: self.slot(&word[..sign], run)?, number: number64(&word[sign + 1..])? };
            run.named.push(numbered);
        }
        (1..=16).contains(&words.len()).then_some(())
    }

    fn root_entry(&mut self, words: &[&[u8]], run: &mut Run) -> Option<()> {
        let [partition, j, line, act @ ..] = words else { return None };
        let partition = number32(partition)? as usize;
        next_of(&mut run.journals, partition, number32(j)?, run.journal.last().map(|last| last.partition))?;
        let from = run.named.len();
        let class_in = |word: &[u8]| number32(word).map(|n| n as usize).filter(|n| *n < DIRECT);
        let pool_in = |word: &[u8]| number32(word).map(Some);
        let (act, class, pool, len, slots) = match act {
            [b"fill", class, b"-", slots @ ..] => (Act::Fill, class_in(class)?, None, 0, slots),
            [b"fill", class, pool, slots @ ..] => (Act::Fill, class_in(class)?, pool_in(pool)?, 0, slots),
            [b"map", pool, slot, len] if slot.ends_with(b"@0") => (Act::Map, DIRECT, pool_in(pool)?, number32(len)?, &act[2..3]),
            [b"full", b"direct", pool] => (Act::Full, DIRECT, pool_in(pool)?, 0, &act[..0]),
            [b"full", class, pool] => (Act::Full, class_in(class)?, pool_in(pool)?, 0, &act[..0]),
            [b"give", slots @ ..] => (Act::Give, 0, None, 0, slots),
            [b"unmap", pool, _] => (Act::Unmap, DIRECT, pool_in(pool)?, 0, &act[2..3]),
            [b"purge"] => (Act::Purge, 0, None, 0, &act[..0]),
            _ => return None,
        };
        if !matches!(act, Act::Full | Act::Purge) {
            self.batch(slots, run)?;
        }
        run.journal.push(RootEntry { partition, line: number32(line)?, act, class, pool, len, slots: from..run.named.len() });
        Some(())
    }

    fn handle(&mut self, word: &[u8], run: &mut Run) -> Option<Reg> {
        match word.split_at_checked(4) {
            Some((b"own:", slot)) => self.slot(slot, run).map(Reg::Own),
            Some((b"ref:", slot)) => self.slot(slot, run).map(Reg::Ref),
            _ => (word == b"-").then_some(Reg::Empty),
        }
    }

    fn exchange(&mut self, words: &[&[u8]], run: &mut Run) -> Option<()> {
        let [cell, j, line, gave, found] = words else { return None };
        let cell = number32(cell)? as usize;
        next_of(&mut run.cells, cell, number32(j)?, run.exchanges.last().map(|last| last.cell))?;
        let exchange = Exchange { cell, line: number32(line)?, gave: self.handle(gave, run)?, found: self.handle(found, run)? };
        run.exchanges.push(exchange);
        Some(())
    }

    /// The lines behind `run 1`. Their kinds stand in one order, and `end` is the last.
    fn run(&mut self) -> Result<Run, Refused> {
        let mut run = Run { cells: vec![0; 64], ..Run::default() };
        let (mut last, mut words) = (0, Vec::new());
        while self.at < self.text.len() {
            let whole = self.next_line(&mut words);
            if self.at > INPUT_BYTES {
                return Err(limit(self.line));
            }
            let read = match *words {
                [b"e", ref rest @ ..] => self.record(rest, &mut run).map(|()| 0),
                [b"r", ref rest @ ..] => self.root_entry(rest, &mut run).map(|()| 1),
                [b"p", ref rest @ ..] => pool_entry(rest, &mut run).map(|()| 2),
                [b"c", ref rest @ ..] => self.exchange(rest, &mut run).map(|()| 3),
                [b"s", ref rest @ ..] => report_line(rest, &mut run).map(|()| 4),
                [b"end"] => Some(5),
                _ => None,
            };
            last = read.filter(|kind| whole && *kind >= last && last < 5).ok_or_else(|| bad_line(self.line))?;
        }
        if last == 5 { Ok(run) } else { Err(bad_line(self.line + 1)) }
    }
}

/// The next entry of a list has this index, and stands behind those of lesser lists.
fn next_of(counts: &mut [u32], list: usize, j: u32, last: Option<usize>) -> Option<()> {
    let next = counts.get_mut(list).filter(|next| **next == j && last.is_none_or(|last| last <= list))?;
    *next += 1;
    Some(())
}

fn pool_entry(words: &[&[u8]], run: &mut Run) -> Option<()> {
    let [j, line, partition, act, count, first] = words else { return None };
    let gives = *act == b"give";
    let found = if !gives && *first == b"none" { None } else { Some(number32(first)?) };
    let in_turn = number32(j)? as usize == run.pool.len() && (gives || *act == b"take");
    run.pool.push(PoolEntry { line: number32(line)?, partition: number32(partition)?, gives, count: number32(count)?, first: found });
    in_turn.then_some(())
}

fn report_line(words: &[&[u8]], run: &mut Run) -> Option<()> {
    let (mut numbers, mut next, mut due) = ([0; 16], 0, REPORT.split(' '));
    for word in words {
        let name = due.next()?;
        if name.len() > 1 {
            (name.as_bytes() == *word).then_some(())?;
        } else {
            numbers[next] = if name == "n" { u64::from(number32(word)?) } else { number64(word)? };
            next += 1;
        }
    }
    run.report.push(numbers);
    due.next().is_none().then_some(())
}

// ---- the clauses on records

/// Where a clause fails: how many lines of the run stand before it, but for the head.
type Place = usize;
type Holds<T = ()> = Result<T, Place>;

fn ask(met: bool, place: Place) -> Holds {
    if met { Ok(()) } else { Err(place) }
}

fn both<'a>(t: &'a Trace, r: &'a Run) -> impl Iterator<Item = (usize, (&'a OpLine, &'a Record))> {
    t.ops.iter().zip(&r.records).enumerate()
}

/// lines: the records are the trace's op lines, in order, each once, with its thread.
fn lines(t: &Trace, r: &Run) -> Holds {
    for (i, record) in r.records.iter().enumerate() {
        ask(t.ops.get(i).is_some_and(|op| op.line == record.line && op.thread == record.thread as usize), i)?;
    }
    ask(r.records.len() == t.ops.len(), r.records.len())
}

/// The lines of entries so far: those of one thread stand in the order of the trace, and those of an earlier phase first.
#[derive(Default)]
struct Order {
    last: [u32; 16],
    phase: u32,
}

impl Order {
    fn fits(&mut self, op: &OpLine) -> bool {
        let fits = self.last[op.thread] <= op.line && self.phase <= op.phase;
        (self.last[op.thread], self.phase) = (op.line, op.phase);
        fits
    }
}

/// cells: each record of an exchange names one of its cell and line; each exchange is of a line of its own, in order, and finds
/// what the one before gave.
fn cells(t: &Trace, r: &Run) -> Holds {
    for (i, (op, record)) in both(t, r) {
        if let Op::Swap(cell) = op.op {
            ask(r.exchange(cell, record).is_some_and(|at| r.exchanges[at].line == op.line), i)?;
        }
    }
    let mut known = vec![false; t.of_line.len()];
    let mut order = Order::default();
    for (at, e) in r.exchanges.iter().enumerate() {
        let before = r.before(at);
        if before.is_none() {
            order = Order::default();
        }
        let op = t.op_at(e.line).filter(|op| matches!(op.op, Op::Swap(cell) if cell == e.cell));
        let fits = op.is_some_and(|op| order.fits(op) && !known[e.line as usize]);
        ask(fits && e.found == before.map_or(Reg::Empty, |before| before.gave), r.exchanges_at() + at)?;
        known[e.line as usize] = true;
    }
    Ok(())
}

/// What the first record says of a slot that made it: how many of its bytes are usable, and whether its partition is plain.
#[derive(Clone, Copy, Default)]
struct Made {
    usable: u64,
    plain: bool,
}

/// That of each slot, by its name.
fn first_made(t: &Trace, r: &Run) -> Vec<Made> {
    let mut made: Vec<Option<Made>> = vec![None; r.names.len()];
    for (_, (op, record)) in both(t, r) {
        if let (Kind::Made, Some(seen)) = (record.kind, record.seen) {
            let plain = matches!(op.op, Op::Alloc { partition, .. } if partition >= t.plain_from);
            made[seen.slot].get_or_insert(Made { usable: record.told, plain });
        }
    }
    made.into_iter().map(Option::unwrap_or_default).collect()
}

/// The answer is the one of the op, by what its register holds; `regs` are those of its thread.
fn answer_fits(v: Version, r: &Run, made: &[Made], regs: &[Reg], op: &OpLine, record: &Record) -> bool {
    let (Reg::Own(slot) | Reg::Ref(slot)) = regs[op.reg] else { return empty_fits(v, r, regs[op.reg], op, record) };
    let owns = regs[op.reg] == Reg::Own(slot);
    let its = record.seen.is_some_and(|seen| seen.slot == slot);
    let found = record.seen.map_or(0, |seen| seen.found);
    match (op.op, record.kind) {
        (Op::Alloc { .. }, kind) => kind == Kind::Filled,
        (Op::Copy { to }, kind) if regs[to].is_handle() => kind == Kind::Filled,
        (Op::Copy { .. }, kind) if owns && made[slot].plain => kind == Kind::Uncounted,
        (Op::Reset, kind) if owns => kind == Kind::NotRef,
        (Op::Copy { .. } | Op::Reset, kind) => its && kind == Kind::Done,
        (Op::Free, Kind::Done) => its && owns,
        (Op::Write(_), Kind::Done) => its && owns && refs(found) == 0,
        (Op::Write(_), Kind::Shared) => its && owns && refs(found) > 0,
        (Op::Free | Op::Write(_), Kind::NotOwner) => its && !owns && held(found),
        (Op::Free, Kind::SecondFree) | (Op::Write(_), Kind::StaleUse) => its && !owns && !held(found),
        (Op::Read(place), kind) if 8 * place >= made[slot].usable => kind == Kind::OutOfRange,
        (Op::Read(_), Kind::Word) => its && held(found),
        (Op::Read(_), Kind::Dangling) => its && !held(found),
        (Op::Swap(cell), _) => r.exchange(cell, record).is_some_and(|at| r.exchanges[at].gave == regs[op.reg]),
        (Op::Purge, kind) => kind == Kind::Purged,
        _ => false,
    }
}

/// The same where the register holds no handle.
fn empty_fits(v: Version, r: &Run, holds: Reg, op: &OpLine, record: &Record) -> bool {
    let is_bare = |kind| record.kind == kind && record.seen.is_none();
    match (op.op, holds) {
        (Op::Alloc { size, .. }, _) if size > GREATEST => is_bare(Kind::TooLarge),
        (Op::Alloc { size, .. }, _) if record.kind == Kind::Made => record.told == u64::from(v.slot_size_for(size) - 8),
        (Op::Alloc { .. }, _) => is_bare(Kind::Full),
        (Op::Swap(cell), _) => r.exchange(cell, record).is_some_and(|at| r.exchanges[at].gave == Reg::Empty),
        (Op::Purge, _) => is_bare(Kind::Purged),
        (_, Reg::Empty) => is_bare(Kind::Nothing),
        (Op::Reset, Reg::Freed) => is_bare(Kind::NotRef),
        (Op::Reset, _) => is_bare(Kind::StaleReset),
        (Op::Free, Reg::Freed) => is_bare(Kind::SecondFree),
        _ => is_bare(Kind::StaleUse),
    }
}

/// The register that an op changes, and what it holds then.
fn change(r: &Run, op: &OpLine, record: &Record) -> Option<(usize, Reg)> {
    match (op.op, record.kind, record.seen) {
        (Op::Alloc { .. }, Kind::Made, Some(seen)) => Some((op.reg, Reg::Own(seen.slot))),
        (Op::Copy { to }, Kind::Done, Some(seen)) => Some((to, Reg::Ref(seen.slot))),
        (Op::Reset, Kind::Done, _) => Some((op.reg, Reg::Cleared)),
        (Op::Free, Kind::Done, _) => Some((op.reg, Reg::Freed)),
        (Op::Swap(cell), ..) => Some((op.reg, r.exchanges[r.exchange(cell, record)?].found)),
        _ => None,
    }
}

/// registers: each answer is the one of its op by what the register holds; what an exchange gave is what the register held. Gives
/// which records went through a raw_ptr.
fn registers(t: &Trace, r: &Run) -> Holds<Vec<bool>> {
    let made = first_made(t, r);
    let mut all = vec![[Reg::Empty; 64]; t.threads];
    let mut through = vec![false; t.ops.len()];
    for (i, (op, record)) in both(t, r) {
        let regs = &mut all[op.thread];
        ask(answer_fits(t.version, r, &made, regs, op, record), i)?;
        through[i] = matches!(regs[op.reg], Reg::Ref(_));
        if let Some((reg, holds)) = change(r, op, record) {
            regs[reg] = holds;
        }
    }
    Ok(through)
}

#[derive(Clone, Copy, PartialEq)]
enum Step {
    Issue,
    Copy,
    Reset,
    Free,
    Write(u64),
}

/// The step that a record made.
fn step_of(op: &OpLine, record: &Record) -> Option<(Seen, Step)> {
    let step = match (op.op, record.kind) {
        (_, Kind::Made) => Step::Issue,
        (Op::Copy { .. }, Kind::Done) => Step::Copy,
        (Op::Reset, Kind::Done) => Step::Reset,
        (Op::Free, Kind::Done) => Step::Free,
        (Op::Write(value), Kind::Done) => Step::Write(value),
        _ => return None,
    };
    record.seen.map(|seen| (seen, step))
}

/// The word that a step leaves, where it is enabled.
fn apply(word: u64, step: Step) -> Option<u64> {
    let (enabled, changed) = match step {
        Step::Issue => (is_free(word), word | 1),
        Step::Copy => (!is_free(word) && refs(word) < (1 << 23) - 1, word.wrapping_add(2)),
        Step::Reset => (refs(word) > 0, word.wrapping_sub(2)),
        Step::Free => (held(word), word & !1),
        Step::Write(_) => (held(word) && refs(word) == 0, word),
    };
    (enabled && number(word) < (1 << 40) - 1).then(|| changed + (1 << 24))
}

/// A word of a slot's run; which record stepped on from it; the slot's content there; and the first free there or behind it.
struct Turn {
    word: u64,
    by: u32,
    content: u64,
    free: u32,
}

/// The runs of all slots, one behind the other.
struct Turns {
    firsts: Vec<usize>,
    turns: Vec<Turn>,
}

impl Turns {
    fn place(&self, slot: usize, number: u64) -> Option<usize> {
        let run = self.firsts[slot]..self.firsts[slot + 1];
        (number < run.len() as u64).then(|| run.start + number as usize)
    }

    fn at(&self, seen: Seen) -> Option<&Turn> {
        self.place(seen.slot, number(seen.found)).map(|place| &self.turns[place])
    }

    /// Appends a slot's run: its steps stand in the order of the words that they found, and those of one word in the order of lines.
    fn push_run(&mut self, steps: &[(u64, u32, Step)]) {
        let (mut word, mut content, mut rest) = (0, 0, steps.iter().peekable());
        loop {
            while rest.next_if(|(found, ..)| *found < word).is_some() {}
            let next = rest.next_if(|(found, ..)| *found == word);
            let Some((left, by, step)) = next.and_then(|(_, by, step)| Some((apply(word, *step)?, *by, *step))) else { break };
            self.turns.push(Turn { word, by, content, free: if step == Step::Free { by } else { NONE } });
            word = left;
            match step {
                Step::Issue => content = 0,
                Step::Write(value) => content = value,
                _ => {}
            }
        }
        self.turns.push(Turn { word, by: NONE, content, free: NONE });
        for at in (self.firsts[self.firsts.len() - 1] + 1..self.turns.len()).rev() {
            if self.turns[at - 1].free == NONE {
                self.turns[at - 1].free = self.turns[at].free;
            }
        }
        self.firsts.push(self.turns.len());
    }
}

/// The indices of each key, in their order: where each key's part begins, and all parts as one list.
fn grouped(keys: usize, of: &[usize]) -> (Vec<usize>, Vec<u32>) {
    let mut firsts = vec![0; keys + 2];
    of.iter().for_each(|key| firsts[*key + 2] += 1);
    (2..keys + 2).for_each(|key| firsts[key] += firsts[key - 1]);
    let mut list = vec![0; of.len()];
    for (i, key) in of.iter().enumerate() {
        list[firsts[*key + 1]] = i as u32;
        firsts[*key + 1] += 1;
    }
    (firsts, list)
}

/// slots: the steps of each slot are one run from the word 0, and each look found a word of it. Gives the runs.
fn slots(t: &Trace, r: &Run) -> Holds<Turns> {
    let steps: Vec<_> = both(t, r).map(|(_, (op, record))| step_of(op, record)).collect();
    let keys: Vec<_> = steps.iter().map(|step| step.map_or(r.names.len(), |(seen, _)| seen.slot)).collect();
    let (firsts, list) = grouped(r.names.len() + 1, &keys);
    let mut all = Turns { firsts: vec![0], turns: Vec::with_capacity(list.len() + r.names.len()) };
    let mut own = Vec::new();
    for slot in 0..r.names.len() {
        own.clear();
        let of_slot = list[firsts[slot]..firsts[slot + 1]].iter();
        own.extend(of_slot.filter_map(|i| steps[*i as usize].map(|(seen, step)| (seen.found, *i, step))));
        own.sort_by_key(|(found, ..)| *found);
        all.push_run(&own);
    }
    for (i, record) in r.records.iter().enumerate() {
        let Some(seen) = record.seen else { continue };
        let turn = all.at(seen).filter(|turn| turn.word == seen.found);
        ask(turn.is_some_and(|turn| steps[i].is_none() || turn.by == i as u32), i)?;
    }
    Ok(all)
}

/// contents: a read gives the content, poison where the slot was freed, and through a raw_ptr maybe poison where the slot's next
/// free is another thread's of the same phase.
fn contents(t: &Trace, r: &Run, through: &[bool], turns: &Turns) -> Holds {
    for (i, (op, record)) in both(t, r) {
        let Some(seen) = record.seen.filter(|_| matches!(record.kind, Kind::Word | Kind::Dangling)) else { continue };
        let turn = turns.at(seen).filter(|_| held(seen.found));
        let free = turn.and_then(|turn| t.ops.get(turn.free as usize)).filter(|_| through[i]);
        let may_be_poison = turn.is_none() || free.is_some_and(|free| free.thread != op.thread && free.phase == op.phase);
        ask(turn.is_some_and(|turn| record.told == turn.content) || record.told == POISON && may_be_poison, i)?;
    }
    Ok(())
}

// ---- the clauses on pool and roots

/// Which entry took each super page of the region.
type Taken = [Option<usize>];

fn lowest(taken: &Taken, count: usize) -> Option<u32> {
    taken.windows(count).position(|run| run.iter().all(Option::is_none)).map(|first| first as u32)
}

/// The entry of the pool is one that is due. Then it is played.
fn pool_fits(entries: &[PoolEntry], j: usize, taken: &mut Taken) -> bool {
    let e = &entries[j];
    let due = if e.gives {
        let taker = e.first.and_then(|first| *taken.get(first as usize)?).map(|taker| &entries[taker]);
        taker.is_some_and(|take| take.first == e.first && take.count == e.count && take.partition == e.partition)
    } else {
        e.count > 0 && e.first == lowest(taken, e.count as usize)
    };
    if let (true, Some(first)) = (due, e.first) {
        taken[first as usize..(first + e.count) as usize].fill((!e.gives).then_some(j));
    }
    due
}

/// pool: each entry takes the lowest run of free super pages or gives one back; just one entry of a journal names it, of its
/// partition and line; and they stand in order.
fn pool(t: &Trace, r: &Run) -> Holds {
    let mut namers = vec![(0, 0); r.pool.len()];
    for (i, e) in r.journal.iter().enumerate() {
        if let Some(namer) = e.pool.and_then(|j| namers.get_mut(j as usize)) {
            *namer = (namer.0 + 1, i);
        }
    }
    let mut taken = vec![None; t.region as usize];
    let mut order = Order::default();
    for (j, e) in r.pool.iter().enumerate() {
        let (times, by) = namers[j];
        let named = times == 1 && r.journal[by].partition == e.partition as usize && r.journal[by].line == e.line;
        let in_order = t.op_at(e.line).is_none_or(|op| order.fits(op));
        ask(named && in_order && pool_fits(&r.pool, j, &mut taken), r.pool_at() + j)?;
    }
    Ok(())
}

#[derive(Clone, Copy, PartialEq, Default)]
struct Tally {
    slots: u64,
    bytes: u64,
}

impl Tally {
    fn add(&mut self, slots: u64, len: u32) {
        self.slots += slots;
        self.bytes += slots * u64::from(len);
    }

    fn less(&mut self, slots: u64, len: u32) {
        self.slots -= slots;
        self.bytes -= slots * u64::from(len);
    }
}

/// What a root has: its free slots, bytes, and spans by state.
#[derive(Clone, Copy, Default)]
struct Census {
    root: Tally,
    committed: u64,
    reserved: u64,
    states: [u64; 4],
}

#[derive(Clone, Copy, PartialEq)]
enum State {
    Full,
    Active,
    Empty,
    Decommitted,
    New,
}

struct Span {
    name: Name, // of its first slot
    class: usize,
    state: State,
    turn: u64,
    out: u32,
    provisioned: u32,
    pages: u32,
    made: u32,
    free: Vec<u32>, // numbers, the front last
}

/// Spans with the turns in which they came, the last one last; some have left since.
type Came = VecDeque<(u64, usize)>;

#[derive(Default)]
struct Root {
    current: Option<Name>, // its last super page
    page: u32,
    turn: u64,
    spans: Vec<Span>,
    lists: [Vec<Came>; 3], // active, empty and decommitted ones of each class
    empty: Came,
    census: Census,
}

impl Root {
    fn is_there(&self, (turn, at): (u64, usize), state: State) -> bool {
        self.spans[at].state == state && self.spans[at].turn == turn
    }

    /// The span of the class that a take uses, where it needs no new one.
    fn listed(&mut self, class: usize) -> Option<usize> {
        for (list, state) in [State::Active, State::Empty, State::Decommitted].into_iter().enumerate() {
            while let Some(came) = self.lists[list][class].back().copied() {
                if self.is_there(came, state) {
                    return Some(came.1);
                }
                self.lists[list][class].pop_back();
            }
        }
        None
    }

    /// A take of the class finds a slot without the pool.
    fn serves(&mut self, class: usize) -> bool {
        self.listed(class).is_some() || self.current.is_some() && self.page + CLASSES[class].1 <= 127
    }

    fn open(&mut self, super_page: u32, born: u32) {
        self.current = Some(Name { start: super_page * SUPER, born });
        self.page = 1;
        self.census.reserved += u64::from(SUPER);
    }

    fn new_span(&mut self, class: usize) -> Option<usize> {
        let Name { start, born } = self.current.filter(|_| self.page + CLASSES[class].1 <= 127)?;
        let name = Name { start: start + self.page * PAGE, born };
        self.page += CLASSES[class].1;
        self.spans.push(Span { name, class, state: State::New, turn: 0, out: 0, provisioned: 0, pages: 0, made: 0, free: Vec::new() });
        Some(self.spans.len() - 1)
    }

    fn enter(&mut self, at: usize, state: State) {
        let span = &mut self.spans[at];
        if span.state == state {
            return;
        }
        if span.state != State::New {
            self.census.states[span.state as usize] -= 1;
        }
        self.census.states[state as usize] += 1;
        (span.state, span.turn) = (state, self.turn);
        if state != State::Full {
            self.lists[state as usize - 1][span.class].push_back((self.turn, at));
        }
        if state == State::Empty {
            self.empty.push_back((self.turn, at));
        }
        self.turn += 1;
    }

    fn provision(&mut self, at: usize) {
        let span = &mut self.spans[at];
        let (size, _, most) = CLASSES[span.class];
        let pages = (span.pages + 1).max((size * (span.provisioned + 1)).div_ceil(SYSTEM_PAGE));
        let slots = (SYSTEM_PAGE * pages / size).min(most);
        span.free.extend((span.provisioned..slots).rev());
        self.census.committed += u64::from(SYSTEM_PAGE * (pages - span.pages));
        self.census.root.add(u64::from(slots.saturating_sub(span.made)), size);
        (span.pages, span.provisioned, span.made) = (pages, slots, slots.max(span.made));
    }

    /// Takes a slot out of the span, and gives its name and its number there.
    fn take(&mut self, at: usize) -> (Name, u32) {
        if self.spans[at].free.is_empty() {
            self.provision(at);
        }
        let span = &mut self.spans[at];
        let (size, _, most) = CLASSES[span.class];
        let number = span.free.pop().unwrap();
        let name = Name { start: span.name.start + number * size, born: span.name.born };
        span.out += 1;
        let state = if span.out == most { State::Full } else { State::Active };
        self.census.root.less(1, size);
        self.enter(at, state);
        (name, number)
    }

    fn put_back(&mut self, at: usize, number: u32) {
        let span = &mut self.spans[at];
        span.free.push(number);
        span.out -= 1;
        let state = if span.out == 0 { State::Empty } else { State::Active };
        self.census.root.add(1, CLASSES[span.class].0);
        self.enter(at, state);
        self.keep_empty(16);
    }

    /// Decommits the oldest empty spans while there are more than so many.
    fn keep_empty(&mut self, most: u64) {
        while self.census.states[State::Empty as usize] > most {
            let Some(came) = self.empty.pop_front() else { return };
            if self.is_there(came, State::Empty) {
                let span = &mut self.spans[came.1];
                self.census.committed -= u64::from(SYSTEM_PAGE * span.pages);
                span.free.clear();
                (span.provisioned, span.pages) = (0, 0);
                self.enter(came.1, State::Decommitted);
            }
        }
    }
}

/// Where a slot is at home.
#[derive(Clone, Copy)]
struct Home {
    partition: usize,
    class: usize,
    len: u32,
    span: usize,
    number: u32, // in its span
    out: bool,
}

struct Placement<'a> {
    version: Version,
    run: &'a Run,
    roots: Vec<Root>,
    homes: Vec<Option<Home>>,
}

impl Placement<'_> {
    /// The entry fits its root after the entries before it, and its op makes it. Then it is played.
    fn fits(&mut self, op: &OpLine, e: &RootEntry) -> bool {
        let size = match op.op {
            Op::Alloc { partition, size } if partition == e.partition && size <= GREATEST && self.version.class_of(size) == e.class => {
                Some(size)
            }
            _ => None,
        };
        match (e.act, op.op) {
            (Act::Fill, _) => size.is_some() && self.fill(e),
            (Act::Map, _) => size.is_some_and(|size| self.version.slot_size_for(size) == e.len) && self.map(e),
            (Act::Full, _) => size.is_some_and(|size| self.full(e, size)),
            (Act::Give, Op::Free | Op::Reset | Op::Purge) => self.run.slots(e).iter().all(|s| self.gives(e.partition, s.slot)),
            (Act::Unmap, Op::Free | Op::Reset) => self.unmap(e),
            (Act::Purge, Op::Purge) => {
                self.roots[e.partition].keep_empty(0);
                true
            }
            _ => false,
        }
    }

    /// What the pool's entry has that an entry names: whether it gives, its count and its first.
    fn asked(&self, e: &RootEntry) -> Option<(bool, u32, Option<u32>)> {
        self.run.pool.get(e.pool? as usize).map(|e| (e.gives, e.count, e.first))
    }

    fn fill(&mut self, e: &RootEntry) -> bool {
        let (asked, slots) = (self.asked(e), self.run.slots(e));
        let root = &mut self.roots[e.partition];
        match (root.serves(e.class), e.pool, asked) {
            (true, None, _) => {}
            (false, Some(j), Some((false, 1, Some(first)))) => root.open(first, j),
            _ => return false,
        }
        for s in slots {
            let Some(span) = root.listed(e.class).or_else(|| root.new_span(e.class)) else { return false };
            let (name, number) = root.take(span);
            if self.run.names[s.slot] != name {
                return false;
            }
            self.homes[s.slot] = Some(Home { partition: e.partition, class: e.class, len: CLASSES[e.class].0, span, number, out: true });
        }
        let wanted = fill_count(e.class);
        slots.len() == wanted || slots.len() < wanted && !root.serves(e.class)
    }

    fn map(&mut self, e: &RootEntry) -> bool {
        let (Some((false, count, Some(first))), Some(born)) = (self.asked(e), e.pool) else { return false };
        let census = &mut self.roots[e.partition].census;
        census.committed += u64::from(e.len);
        census.reserved += u64::from(count) * u64::from(SUPER);
        let slot = self.run.slots(e)[0].slot;
        self.homes[slot] = Some(Home { partition: e.partition, class: DIRECT, len: e.len, span: 0, number: 0, out: true });
        count == supers_for(e.len) && self.run.names[slot] == Name { start: first * SUPER + PAGE, born }
    }

    fn full(&mut self, e: &RootEntry, size: u64) -> bool {
        let count = if e.class == DIRECT { supers_for(self.version.slot_size_for(size)) } else { 1 };
        let served = e.class != DIRECT && self.roots[e.partition].serves(e.class);
        !served && self.asked(e) == Some((false, count, None))
    }

    /// The home of a slot that is out of this root, which comes back.
    fn comes_back(&mut self, partition: usize, slot: usize) -> Option<Home> {
        let home = self.homes[slot].as_mut().filter(|home| home.out && home.partition == partition)?;
        home.out = false;
        Some(*home)
    }

    fn gives(&mut self, partition: usize, slot: usize) -> bool {
        let home = self.comes_back(partition, slot).filter(|home| home.class != DIRECT);
        home.map(|home| self.roots[partition].put_back(home.span, home.number)).is_some()
    }

    fn unmap(&mut self, e: &RootEntry) -> bool {
        let slot = self.run.slots(e)[0].slot;
        let Some(home) = self.comes_back(e.partition, slot).filter(|home| home.class == DIRECT) else { return false };
        let (count, first) = (supers_for(home.len), self.run.names[slot].start / SUPER);
        let census = &mut self.roots[e.partition].census;
        census.committed -= u64::from(home.len);
        census.reserved -= u64::from(count) * u64::from(SUPER);
        self.asked(e) == Some((true, count, Some(first)))
    }
}

/// What each root has at the end of each phase in which it has entries.
type Censuses = Vec<Vec<(u32, Census)>>;

/// roots: a record that is full names a Full of its line. Each entry of a journal is made by its line's op and fits the root after
/// those before it; they name later and later entries of the pool, and stand in order. Gives the homes of slots, and the censuses.
fn roots(t: &Trace, r: &Run) -> Holds<(Vec<Option<Home>>, Censuses)> {
    for (i, (op, record)) in both(t, r) {
        if let (Op::Alloc { partition, .. }, Kind::Full) = (op.op, record.kind) {
            let first: u32 = r.journals[..partition].iter().sum();
            let there = record.told < u64::from(r.journals[partition]);
            let is_its = |e: &RootEntry| e.act == Act::Full && e.line == op.line;
            ask(there && is_its(&r.journal[first as usize + record.told as usize]), i)?;
        }
    }
    let root = || Root { lists: std::array::from_fn(|_| vec![Came::new(); DIRECT]), ..Root::default() };
    let roots = (0..t.partitions).map(|_| root()).collect();
    let mut all = Placement { version: t.version, run: r, roots, homes: vec![None; r.names.len()] };
    let mut censuses = vec![Vec::new(); t.partitions];
    let (mut order, mut next, mut partition) = (Order::default(), 0, 0);
    for (i, e) in r.journal.iter().enumerate() {
        if e.partition > partition {
            (order, next, partition) = (Order::default(), 0, e.partition);
        }
        let rises = e.pool.is_none_or(|j| j >= next);
        next = e.pool.map_or(next, |j| j.saturating_add(1));
        let op = t.op_at(e.line).filter(|op| e.partition < t.partitions && rises && order.fits(op) && all.fits(op, e));
        let phase = op.ok_or(r.records.len() + i)?.phase;
        let told: &mut Vec<(u32, Census)> = &mut censuses[e.partition];
        told.pop_if(|(of, _)| *of == phase);
        told.push((phase, all.roots[e.partition].census));
    }
    Ok((all.homes, censuses))
}

// ---- the clauses on who has a slot

const ROOT: u8 = 16;
const NOBODY: u8 = 17;

/// Who has each slot at each of its numbers at first, where it is free there: the root, or the thread whose step returned it.
fn first_holders(t: &Trace, turns: &Turns) -> Vec<u8> {
    let returned_by = |at: usize| t.ops[turns.turns[at - 1].by as usize].thread as u8;
    let first = |(at, turn): (usize, &Turn)| match turn.word {
        0 => ROOT,
        word if is_free(word) => returned_by(at),
        _ => NOBODY,
    };
    turns.turns.iter().enumerate().map(first).collect()
}

/// holders: each entry of a journal has the holder that it needs of each slot, who made a slot was its holder, and after a direct
/// map went back nothing uses it. An entry makes its holder whether or not it fits.
fn holders(t: &Trace, r: &Run, turns: &Turns) -> Holds {
    let mut holders = first_holders(t, turns);
    let mut gone = vec![u64::MAX; r.names.len()];
    let mut misfit = Ok(());
    for (i, e) in r.journal.iter().enumerate() {
        let Some(thread) = t.op_at(e.line).map(|op| op.thread as u8) else { continue };
        let (needs, makes) = if matches!(e.act, Act::Fill | Act::Map) { (ROOT, thread) } else { (thread, ROOT) };
        for s in r.slots(e) {
            let holder = turns.place(s.slot, s.number).map(|at| &mut holders[at]).filter(|holder| **holder != NOBODY);
            let has = holder.is_some_and(|holder| std::mem::replace(holder, makes) == needs);
            misfit = misfit.and(ask(has && gone[s.slot] == u64::MAX, r.records.len() + i));
            if e.act == Act::Unmap {
                gone[s.slot] = gone[s.slot].min(s.number);
            }
        }
    }
    for (i, (op, record)) in both(t, r) {
        let Some(seen) = record.seen else { continue };
        let holder = turns.place(seen.slot, number(seen.found)).map(|at| usize::from(holders[at]));
        let has = record.kind != Kind::Made || holder == Some(op.thread);
        ask(has && number(seen.found) < gone[seen.slot], i)?;
    }
    misfit
}

/// The entries of one line that aren't accounted for yet.
struct Acts<'a> {
    run: &'a Run,
    rest: &'a [u32],
}

impl<'a> Acts<'a> {
    /// What the next entry names, which is of this partition's journal and does this.
    fn next(&mut self, partition: usize, act: Act) -> Option<&'a [Numbered]> {
        let (first, rest) = self.rest.split_first()?;
        let e = &self.run.journal[*first as usize];
        self.rest = rest;
        (e.partition == partition && e.act == act).then(|| self.run.slots(e))
    }

    /// The next entries give these slots back, the last of them first, 16 each and the rest in the last.
    fn gives(&mut self, partition: usize, slots: &[Numbered]) -> Option<()> {
        let mut is_next = |batch: &[Numbered]| self.next(partition, Act::Give).is_some_and(|given| given.iter().eq(batch.iter().rev()));
        slots.rchunks(16).all(&mut is_next).then_some(())
    }
}

/// The lists of free slots of all threads, by partition and class, each with its front last; and how much they hold.
struct Caches<'a> {
    version: Version,
    homes: &'a [Option<Home>],
    lists: Vec<Vec<Numbered>>,
    partitions: usize,
    tallies: [Tally; 4],
}

impl Caches<'_> {
    fn list(&mut self, thread: usize, partition: usize, class: usize) -> &mut Vec<Numbered> {
        let Version { first, behind, .. } = self.version;
        &mut self.lists[(thread * self.partitions + partition) * (behind - first) + class - first]
    }

    fn made(&mut self, thread: usize, partition: usize, class: usize, seen: Seen, acts: &mut Acts) -> Option<()> {
        if class == DIRECT {
            return (acts.next(partition, Act::Map)?[0].slot == seen.slot).then_some(());
        }
        if self.list(thread, partition, class).is_empty() {
            let slots = acts.next(partition, Act::Fill)?;
            self.list(thread, partition, class).extend(slots.iter().rev());
            self.tallies[partition].add(slots.len() as u64, CLASSES[class].0);
        }
        self.tallies[partition].less(1, CLASSES[class].0);
        let front = self.list(thread, partition, class).pop()?;
        (front == Numbered { slot: seen.slot, number: number(seen.found) }).then_some(())
    }

    fn returned(&mut self, thread: usize, seen: Seen, acts: &mut Acts) -> Option<()> {
        let Home { partition, class, len, .. } = self.homes[seen.slot]?;
        if class == DIRECT {
            return (acts.next(partition, Act::Unmap)?[0].slot == seen.slot).then_some(());
        }
        let list = self.list(thread, partition, class);
        list.push(Numbered { slot: seen.slot, number: number(seen.found) + 1 });
        let over = if list.len() > cache_limit(class) { list.len() - cache_limit(class) / 2 } else { 0 };
        acts.gives(partition, &list[..over])?;
        list.drain(..over);
        self.tallies[partition].add(1, len);
        self.tallies[partition].less(over as u64, len);
        Some(())
    }

    fn purged(&mut self, thread: usize, given: u64, acts: &mut Acts) -> Option<()> {
        let mut count = 0;
        for partition in 0..self.partitions {
            for class in self.version.first..self.version.behind {
                let slots = std::mem::take(self.list(thread, partition, class));
                acts.gives(partition, &slots)?;
                self.tallies[partition].less(slots.len() as u64, CLASSES[class].0);
                count += slots.len() as u64;
            }
            acts.next(partition, Act::Purge)?;
        }
        (count == given).then_some(())
    }

    fn row(&mut self, op: &OpLine, record: &Record, acts: &mut Acts) -> Option<()> {
        match (op.op, record.kind) {
            (Op::Alloc { partition, size }, Kind::Made) => {
                let class = self.version.class_of(size);
                self.made(op.thread, partition, class, record.seen?, acts)?
            }
            (Op::Alloc { partition, size }, Kind::Full) => {
                acts.next(partition, Act::Full)?;
                let class = self.version.class_of(size);
                (class == DIRECT || self.list(op.thread, partition, class).is_empty()).then_some(())?;
            }
            (Op::Purge, _) => self.purged(op.thread, record.told, acts)?,
            _ => {
                let returned = step_of(op, record).filter(|(seen, step)| apply(seen.found, *step).is_some_and(is_free));
                returned.map_or(Some(()), |(seen, _)| self.returned(op.thread, seen, acts))?;
            }
        }
        acts.rest.is_empty().then_some(())
    }
}

/// caches: each answer takes from its thread's lists, or brings back, what it should, and its line's entries are those that it asks
/// for. Gives how much the lists of each partition hold at the end of each phase.
fn caches(t: &Trace, r: &Run, homes: &[Option<Home>]) -> Holds<Vec<[Tally; 4]>> {
    let of: Vec<_> = r.journal.iter().map(|e| t.of_line[e.line as usize] as usize).collect();
    let (firsts, list) = grouped(t.ops.len(), &of);
    let lists = vec![Vec::new(); t.threads * t.partitions * (t.version.behind - t.version.first)];
    let mut all = Caches { version: t.version, homes, lists, partitions: t.partitions, tallies: [Tally::default(); 4] };
    let mut told = Vec::new();
    for (i, (op, record)) in both(t, r) {
        told.resize(op.phase as usize - 1, all.tallies);
        let mut acts = Acts { run: r, rest: &list[firsts[i]..firsts[i + 1]] };
        ask(all.row(op, record, &mut acts).is_some(), i)?;
    }
    told.resize(t.phases as usize, all.tallies);
    Ok(told)
}

// ---- the clauses on order and on the report

/// What is right before a record, its thread's record before and the one that handed over what it found in a cell, or NONE; and
/// which slot it left at which number, or no slot.
struct Link {
    before: [u32; 2],
    slot: u32,
    left: u64,
}

fn links(t: &Trace, r: &Run) -> Vec<Link> {
    let mut last = [NONE; 16];
    let mut links = Vec::with_capacity(t.ops.len());
    for (i, (op, record)) in both(t, r) {
        let exchange = if let Op::Swap(cell) = op.op { r.exchange(cell, record) } else { None };
        let giver = exchange.and_then(|at| r.before(at)).filter(|giver| giver.gave != Reg::Empty);
        let before = [last[op.thread], giver.map_or(NONE, |giver| t.of_line[giver.line as usize])];
        let left = record.seen.map_or(0, |seen| number(seen.found) + u64::from(step_of(op, record).is_some()));
        links.push(Link { before, slot: record.seen.map_or(NONE, |seen| seen.slot as u32), left });
        last[op.thread] = i as u32;
    }
    links
}

/// What a walk along one thread has found to be before its present record.
struct Past<'a> {
    links: &'a [Link],
    marked: Vec<bool>,
    top: Vec<u64>, // of each slot, the greatest number that a record of it left
}

impl Past<'_> {
    /// Whether it wasn't marked before.
    fn mark(&mut self, i: usize) -> bool {
        let slot = self.links[i].slot as usize;
        if let Some(top) = self.top.get_mut(slot) {
            *top = self.links[i].left.max(*top);
        }
        !std::mem::replace(&mut self.marked[i], true)
    }

    /// Marks what is before a record by links.
    fn mark_before(&mut self, i: usize, stack: &mut Vec<u32>) {
        stack.extend(self.links[i].before);
        while let Some(x) = stack.pop() {
            if x != NONE && self.mark(x as usize) {
                stack.extend(self.links[x as usize].before);
            }
        }
    }
}

/// The first of a thread's records that is before itself, or finds a lower number of a slot than one before it left. Its records are
/// walked with all that is before the present one: what stands before its links, and all of earlier phases.
fn first_unseen(t: &Trace, r: &Run, links: &[Link], records: &[u32]) -> Option<usize> {
    let mut past = Past { links, marked: vec![false; links.len()], top: vec![0; r.names.len()] };
    let (mut floor, mut stack) = (0, Vec::new());
    for i in records.iter().map(|i| *i as usize) {
        while t.ops[floor].phase < t.ops[i].phase {
            past.mark(floor);
            floor += 1;
        }
        past.mark_before(i, &mut stack);
        if past.marked[i] || r.records[i].seen.is_some_and(|seen| number(seen.found) < past.top[seen.slot]) {
            return Some(i);
        }
    }
    None
}

/// seen: no record is before itself, and none finds a lower number of a slot than one before it left.
fn seen(t: &Trace, r: &Run) -> Holds {
    let links = links(t, r);
    let (firsts, list) = grouped(t.threads, &t.ops.iter().map(|op| op.thread).collect::<Vec<_>>());
    let fails = (0..t.threads).filter_map(|thread| first_unseen(t, r, &links, &list[firsts[thread]..firsts[thread + 1]]));
    fails.min().map_or(Ok(()), Err)
}

/// Moves a slot from the tallies of its live or quarantined state to those of the next.
fn count_step(home: Home, from: u64, to: u64, live: &mut [Tally; 4], quarantined: &mut [Tally; 4]) {
    for (word, comes) in [(from, false), (to, true)] {
        let tally = if held(word) { &mut live[home.partition] } else { &mut quarantined[home.partition] };
        match comes {
            _ if is_free(word) => {}
            true => tally.add(1, home.len),
            false => tally.less(1, home.len),
        }
    }
}

/// report: its lines are those of the run, for each phase and partition.
fn report(t: &Trace, r: &Run, turns: &Turns, homes: &[Option<Home>], censuses: &Censuses, cached: &[[Tally; 4]]) -> Holds {
    let (mut live, mut quarantined) = ([Tally::default(); 4], [Tally::default(); 4]);
    let mut reached = turns.firsts.clone();
    let mut told: Vec<_> = censuses.iter().map(|told| told.iter().peekable()).collect();
    let mut census = [Census::default(); 4];
    let mut records = both(t, r).map(|(_, both)| both).peekable();
    let mut at = 0;
    for phase in 1..=t.phases {
        while let Some((op, record)) = records.next_if(|(op, _)| op.phase == phase) {
            let Some((seen, home)) = step_of(op, record).and_then(|(seen, _)| Some((seen, homes[seen.slot]?))) else { continue };
            let turn = reached[seen.slot];
            count_step(home, turns.turns[turn].word, turns.turns[turn + 1].word, &mut live, &mut quarantined);
            reached[seen.slot] += 1;
        }
        for p in 0..t.partitions {
            if let Some((_, at_end)) = told[p].next_if(|(of, _)| *of == phase) {
                census[p] = *at_end;
            }
            let due = due_line(phase, p, [live[p], quarantined[p], cached[phase as usize - 1][p]], &census[p]);
            ask(r.report.get(at) == Some(&due), r.report_at() + at)?;
            at += 1;
        }
    }
    ask(r.report.len() == at, r.report_at() + at)
}

/// The numbers of a line of the report in their order.
fn due_line(phase: u32, partition: usize, tallies: [Tally; 3], census: &Census) -> [u64; 16] {
    let places = tallies.into_iter().chain([census.root]).flat_map(|tally| [tally.slots, tally.bytes]);
    let rest = [census.committed, census.reserved].into_iter().chain(census.states);
    let mut numbers = [u64::from(phase), partition as u64].into_iter().chain(places).chain(rest);
    std::array::from_fn(|_| numbers.next().unwrap_or(0))
}

/// The first clause that fails, and where.
fn verdict(t: &Trace, r: &Run) -> Result<(), (&'static str, Place)> {
    let of = |clause| move |place| (clause, place);
    lines(t, r).map_err(of("lines"))?;
    cells(t, r).map_err(of("cells"))?;
    let through = registers(t, r).map_err(of("registers"))?;
    let turns = slots(t, r).map_err(of("slots"))?;
    contents(t, r, &through, &turns).map_err(of("contents"))?;
    pool(t, r).map_err(of("pool"))?;
    let (homes, censuses) = roots(t, r).map_err(of("roots"))?;
    holders(t, r, &turns).map_err(of("holders"))?;
    let cached = caches(t, r, &homes).map_err(of("caches"))?;
    seen(t, r).map_err(of("seen"))?;
    report(t, r, &turns, &homes, &censuses, &cached).map_err(of("report"))
}

fn audit(text: &[u8]) -> Result<(), Refused> {
    let mut reader = Reader { text, at: 0, line: 0, over: false, slots: HashMap::new() };
    let trace = reader.trace()?;
    let first = reader.line as usize + 1;
    let run = reader.run()?;
    verdict(&trace, &run).map_err(|(clause, place)| (7, format!("not legal: {clause} at line {}", first + place)))
}

fn main() {
    let mut text = Vec::new();
    let most = INPUT_BYTES as u64 + 1;
    let read = std::io::stdin().take(most).read_to_end(&mut text).map_err(|_| (4, "read fault".to_string()));
    match read.and_then(|_| audit(&text)) {
        Ok(()) => println!("legal"),
        Err((status, told)) => {
            eprintln!("{told}");
            std::process::exit(status)
        }
    }
}
