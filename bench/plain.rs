//! The run of a trace in the order of its lines, by a plain program: nothing of it is proved. It is written from the formats and
//! the rules of the heap alone, and shares no line with the proved one, so it serves two ends: `bench/run` measures the proved
//! program beside it, and a text that both print is one that two readings of the rules agree on.
use std::collections::VecDeque;
use std::io::{Read, Write};

const SUPER: u32 = 2_097_152;
const PAGE: u32 = 16_384;
const GREATEST: u64 = 33_521_656;
const POISON: u64 = 0xefef_efef_efef_efef;
const DIRECT: u8 = 255;

#[derive(Clone, Copy)]
struct Class {
    slot: u32,
    pages: u32,
    slots: u32,
    limit: usize,
    fill: u32,
}

/// The span shape of a slot size: the first pages that leave at most 64 bytes over, or else the first of those that leave the least part
/// of themselves over.
fn shape_of(slot: u32) -> (u32, u32, u32) {
    if slot > PAGE {
        let system = slot.div_ceil(4096);
        return (system.div_ceil(4), system, 1);
    }
    let over = |system: u32| (4096 * system) % slot;
    let mut best = (1, 4);
    for pages in 1..=4 {
        for system in (4 * pages - pages / 2..=4 * pages).rev() {
            if over(system) <= 64 {
                return (pages, system, 4096 * system / slot);
            }
            if over(system) * best.1 < over(best.1) * system {
                best = (pages, system);
            }
        }
    }
    (best.0, best.1, 4096 * best.1 / slot)
}

/// The classes of a version: four steps to each doubling in version 1, and eight in versions 2 and 3.
fn classes(version: u64) -> Vec<Class> {
    let (steps, count) = if version == 1 { (4, 59) } else { (8, 111) };
    let mut sizes: Vec<u32> = (1..=8).map(|n| 16 * n).collect();
    let mut step = 128 / steps;
    while sizes.len() < count {
        for _ in 0..steps {
            if sizes.len() < count {
                sizes.push(sizes[sizes.len() - 1] + step);
            }
        }
        step *= 2;
    }
    let row = |slot: &u32| {
        let (pages, _, slots) = shape_of(*slot);
        let limit = [64, 32, 16, 0][(*slot > 128) as usize + (*slot > 1024) as usize + (*slot > 32_768) as usize];
        Class { slot: *slot, pages, slots, limit, fill: (limit as u32 / 8).max(1) }
    };
    sizes.iter().map(row).collect()
}

#[derive(Clone, Copy, PartialEq)]
enum State {
    New,
    Active,
    Empty,
    Decommitted,
    Full,
}

struct Span {
    place: u32,
    born: u32,
    class: u8,
    state: State,
    turn: u64,
    first: u32, // the index of its slot 0 among all slots
    out: u32,
    provisioned: u32,
    committed: u32,
    made: u32,
    free: Vec<u32>, // numbers, the front last
}

struct Slot {
    start: u32,
    born: u32,
    len: u32,
    partition: u8,
    class: u8,
    span: u32,
    word: u64,
    content: u64,
}

impl Slot {
    fn number(&self) -> u64 {
        self.word >> 24
    }
    fn refs(&self) -> u64 {
        self.word >> 1 & 0x7f_ffff
    }
    fn held(&self) -> bool {
        self.word & 1 == 1
    }
}

#[derive(Default)]
struct Root {
    supers: Vec<(u32, u32)>,
    page: u32,
    turn: u64,
    spans: Vec<Span>,
    active: Vec<Vec<u32>>,
    decommitted: Vec<Vec<u32>>,
    empty: VecDeque<u32>,
    entries: u32,
    journal: Vec<u8>,
    made: (u64, u64), // slots and bytes that were made and stand
    out: (u64, u64),
    map_bytes: u64,
    map_supers: u64,
    committed: u64,
    states: [u32; 5],
}

struct Pool {
    taken: Vec<Option<u32>>, // of each super page, the first of its run
    entries: u32,
    text: Vec<u8>,
}

#[derive(Clone, Copy, PartialEq)]
enum Reg {
    Empty,
    Own(u32),
    Ref(u32),
    Freed,
    Cleared,
}

struct Cell {
    holds: Reg,
    entries: u32,
    text: Vec<u8>,
}

struct Player {
    classes: Vec<Class>,
    named: usize, // the number by which the text names the first of them
    partitions: usize,
    plain_from: usize, // the first plain partition
    slots: Vec<Slot>,
    roots: Vec<Root>,
    pool: Pool,
    regs: Vec<Reg>,
    caches: Vec<Vec<u32>>, // by thread, partition and class, the front last
    cells: Vec<Cell>,
    records: Vec<u8>,
    report: Vec<u8>,
    live: Vec<(u64, u64)>,
    quarantined: Vec<(u64, u64)>,
    cached: Vec<(u64, u64)>,
}

fn number(out: &mut Vec<u8>, mut n: u64) {
    let mut digits = [0u8; 20];
    let mut at = 20;
    loop {
        at -= 1;
        digits[at] = b'0' + (n % 10) as u8;
        n /= 10;
        if n == 0 {
            break;
        }
    }
    out.extend_from_slice(&digits[at..]);
}

fn hex(out: &mut Vec<u8>, n: u64, digits: u32) {
    for at in (0..digits).rev() {
        out.push(b"0123456789abcdef"[(n >> (4 * at) & 15) as usize]);
    }
}

fn spaced(out: &mut Vec<u8>, n: u64) {
    out.push(b' ');
    number(out, n);
}

fn name(out: &mut Vec<u8>, s: &Slot) {
    hex(out, u64::from(s.start), 8);
    out.push(b'.');
    number(out, u64::from(s.born));
}

fn numbered(out: &mut Vec<u8>, s: &Slot) {
    out.push(b' ');
    name(out, s);
    out.push(b'@');
    number(out, s.number());
}

fn add(sum: &mut (u64, u64), len: u32) {
    sum.0 += 1;
    sum.1 += u64::from(len);
}

fn less(sum: &mut (u64, u64), len: u32) {
    sum.0 -= 1;
    sum.1 -= u64::from(len);
}

impl Pool {
    fn head(&mut self, line: u32, partition: usize) -> u32 {
        self.text.extend_from_slice(b"p ");
        number(&mut self.text, u64::from(self.entries));
        spaced(&mut self.text, u64::from(line));
        spaced(&mut self.text, partition as u64);
        self.entries += 1;
        self.entries - 1
    }

    fn take(&mut self, line: u32, partition: usize, count: u32) -> (u32, Option<u32>) {
        let n = count as usize;
        let found = (0..=self.taken.len().saturating_sub(n)).find(|f| f + n <= self.taken.len() && self.taken[*f..f + n].iter().all(Option::is_none));
        let entry = self.head(line, partition);
        self.text.extend_from_slice(b" take");
        spaced(&mut self.text, u64::from(count));
        match found {
            Some(first) => {
                self.taken[first..first + n].fill(Some(first as u32));
                spaced(&mut self.text, first as u64);
            }
            None => self.text.extend_from_slice(b" none"),
        }
        self.text.push(b'\n');
        (entry, found.map(|f| f as u32))
    }

    fn give(&mut self, line: u32, partition: usize, first: u32, count: u32) -> u32 {
        let entry = self.head(line, partition);
        self.text.extend_from_slice(b" give");
        spaced(&mut self.text, u64::from(count));
        spaced(&mut self.text, u64::from(first));
        self.text.push(b'\n');
        self.taken[first as usize..(first + count) as usize].fill(None);
        entry
    }
}

impl Root {
    fn head(&mut self, partition: usize, line: u32) -> u32 {
        self.journal.extend_from_slice(b"r ");
        number(&mut self.journal, partition as u64);
        spaced(&mut self.journal, u64::from(self.entries));
        spaced(&mut self.journal, u64::from(line));
        self.entries += 1;
        self.entries - 1
    }

    fn enter(&mut self, at: u32, to: State) {
        let span = &mut self.spans[at as usize];
        if span.state == to {
            return;
        }
        self.states[span.state as usize] -= 1;
        self.states[to as usize] += 1;
        let class = span.class as usize;
        let from = span.state;
        span.state = to;
        span.turn = self.turn;
        self.turn += 1;
        match from {
            State::Active => {
                if let Some(i) = self.active[class].iter().rposition(|s| *s == at) {
                    self.active[class].remove(i);
                }
            }
            State::Decommitted => {
                self.decommitted[class].pop();
            }
            State::Empty => {
                if let Some(i) = self.empty.iter().rposition(|s| *s == at) {
                    self.empty.remove(i);
                }
            }
            State::New | State::Full => {}
        }
        match to {
            State::Active => self.active[class].push(at),
            State::Decommitted => self.decommitted[class].push(at),
            State::Empty => self.empty.push_back(at),
            State::New | State::Full => {}
        }
    }

    fn listed(&self, class: usize) -> Option<u32> {
        self.active[class]
            .last()
            .copied()
            .or_else(|| self.empty.iter().rev().copied().find(|s| self.spans[*s as usize].class as usize == class))
            .or_else(|| self.decommitted[class].last().copied())
    }

    fn has_room(&self, shape: &Class) -> bool {
        !self.supers.is_empty() && self.page + shape.pages <= 127
    }

    /// The span from which a slot of the class is taken, without asking the pool.
    fn span_for(&mut self, class: usize, shape: &Class, partition: usize, slots: &mut Vec<Slot>) -> Option<u32> {
        if let Some(at) = self.listed(class) {
            return Some(at);
        }
        if !self.has_room(shape) {
            return None;
        }
        let (super_page, born) = *self.supers.last()?;
        let place = super_page * SUPER + self.page * PAGE;
        self.page += shape.pages;
        let at = self.spans.len() as u32;
        let first = slots.len() as u32;
        for n in 0..shape.slots {
            slots.push(Slot { start: place + n * shape.slot, born, len: shape.slot, partition: partition as u8, class: class as u8, span: at, word: 0, content: 0 });
        }
        self.states[State::New as usize] += 1;
        self.spans.push(Span { place, born, class: class as u8, state: State::New, turn: 0, first, out: 0, provisioned: 0, committed: 0, made: 0, free: Vec::new() });
        Some(at)
    }

    fn take_from(&mut self, at: u32, shape: &Class) -> u32 {
        let span = &mut self.spans[at as usize];
        debug_assert!(span.place > 0 && span.born < u32::MAX);
        if span.free.is_empty() {
            let pages = (span.committed + 1).max((shape.slot * (span.provisioned + 1)).div_ceil(4096));
            let slots = (4096 * pages / shape.slot).min(shape.slots);
            self.committed += 4096 * u64::from(pages - span.committed);
            span.free.extend((span.provisioned..slots).rev());
            span.committed = pages;
            span.provisioned = slots;
            if slots > span.made {
                self.made.0 += u64::from(slots - span.made);
                self.made.1 += u64::from(slots - span.made) * u64::from(shape.slot);
                span.made = slots;
            }
        }
        let number = span.free.pop().unwrap();
        span.out += 1;
        let slot = span.first + number;
        let to = if span.out == shape.slots { State::Full } else { State::Active };
        add(&mut self.out, shape.slot);
        self.enter(at, to);
        slot
    }

    fn decommit_oldest(&mut self) {
        if let Some(at) = self.empty.front().copied() {
            let span = &mut self.spans[at as usize];
            self.committed -= 4096 * u64::from(span.committed);
            span.free.clear();
            span.provisioned = 0;
            span.committed = 0;
            self.enter(at, State::Decommitted);
        }
    }

    fn put_back(&mut self, slot: u32, slots: &[Slot]) {
        let at = slots[slot as usize].span;
        let span = &mut self.spans[at as usize];
        span.free.push(slot - span.first);
        span.out -= 1;
        less(&mut self.out, slots[slot as usize].len);
        let to = if span.out == 0 { State::Empty } else { State::Active };
        self.enter(at, to);
        if self.empty.len() > 16 {
            self.decommit_oldest();
        }
    }

    fn give(&mut self, partition: usize, line: u32, given: &[u32], slots: &[Slot]) {
        for batch in given.chunks(16) {
            self.head(partition, line);
            self.journal.extend_from_slice(b" give");
            for s in batch {
                numbered(&mut self.journal, &slots[*s as usize]);
            }
            self.journal.push(b'\n');
            for s in batch {
                self.put_back(*s, slots);
            }
        }
    }
}

enum Got {
    Slots(Vec<u32>),
    Full(u32),
}

impl Player {
    fn new(version: u64, region: usize, partitions: usize, threads: usize, plain: usize) -> Player {
        let classes = classes(version);
        let lists = vec![Vec::new(); classes.len()];
        let root = || Root { active: lists.clone(), decommitted: lists.clone(), ..Root::default() };
        Player {
            named: if version == 1 { 0 } else { 59 },
            partitions,
            plain_from: partitions - plain,
            slots: Vec::new(),
            roots: (0..partitions).map(|_| root()).collect(),
            pool: Pool { taken: vec![None; region], entries: 0, text: Vec::new() },
            regs: vec![Reg::Empty; 64 * threads],
            caches: vec![Vec::new(); threads * partitions * classes.len()],
            classes,
            cells: (0..64).map(|_| Cell { holds: Reg::Empty, entries: 0, text: Vec::new() }).collect(),
            records: b"run 1\n".to_vec(),
            report: Vec::new(),
            live: vec![(0, 0); partitions],
            quarantined: vec![(0, 0); partitions],
            cached: vec![(0, 0); partitions],
        }
    }

    fn fill(&mut self, line: u32, partition: usize, class: usize) -> Got {
        let shape = self.classes[class];
        let root = &mut self.roots[partition];
        let mut asked = None;
        let mut at = root.span_for(class, &shape, partition, &mut self.slots);
        if at.is_none() {
            let (entry, found) = self.pool.take(line, partition, 1);
            asked = Some(entry);
            if let Some(first) = found {
                root.supers.push((first, entry));
                root.page = 1;
                at = root.span_for(class, &shape, partition, &mut self.slots);
            }
        }
        let journal_at = root.head(partition, line);
        let Some(at) = at else {
            root.journal.extend_from_slice(b" full");
            spaced(&mut root.journal, (self.named + class) as u64);
            spaced(&mut root.journal, u64::from(asked.unwrap()));
            root.journal.push(b'\n');
            return Got::Full(journal_at);
        };
        let mut got = vec![root.take_from(at, &shape)];
        while got.len() < shape.fill as usize {
            match root.span_for(class, &shape, partition, &mut self.slots) {
                Some(at) => got.push(root.take_from(at, &shape)),
                None => break,
            }
        }
        root.journal.extend_from_slice(b" fill");
        spaced(&mut root.journal, (self.named + class) as u64);
        match asked {
            Some(entry) => spaced(&mut root.journal, u64::from(entry)),
            None => root.journal.extend_from_slice(b" -"),
        }
        for s in &got {
            numbered(&mut root.journal, &self.slots[*s as usize]);
        }
        root.journal.push(b'\n');
        Got::Slots(got)
    }

    fn map(&mut self, line: u32, partition: usize, size: u64) -> Got {
        let len = ((size + 8).div_ceil(4096) * 4096) as u32;
        let count = (len + 32_768).div_ceil(SUPER);
        let (entry, found) = self.pool.take(line, partition, count);
        let root = &mut self.roots[partition];
        let at = root.head(partition, line);
        let Some(first) = found else {
            root.journal.extend_from_slice(b" full direct");
            spaced(&mut root.journal, u64::from(entry));
            root.journal.push(b'\n');
            return Got::Full(at);
        };
        let slot = Slot { start: first * SUPER + PAGE, born: entry, len, partition: partition as u8, class: DIRECT, span: 0, word: 0, content: 0 };
        root.journal.extend_from_slice(b" map");
        spaced(&mut root.journal, u64::from(entry));
        numbered(&mut root.journal, &slot);
        spaced(&mut root.journal, u64::from(len));
        root.journal.push(b'\n');
        root.map_bytes += u64::from(len);
        root.map_supers += u64::from(count);
        self.slots.push(slot);
        Got::Slots(vec![self.slots.len() as u32 - 1])
    }

    fn unmap(&mut self, line: u32, slot: u32) {
        let s = &self.slots[slot as usize];
        let partition = s.partition as usize;
        let count = (s.len + 32_768).div_ceil(SUPER);
        let entry = self.pool.give(line, partition, s.start / SUPER, count);
        let root = &mut self.roots[partition];
        root.head(partition, line);
        root.journal.extend_from_slice(b" unmap");
        spaced(&mut root.journal, u64::from(entry));
        numbered(&mut root.journal, s);
        root.journal.push(b'\n');
        root.map_bytes -= u64::from(s.len);
        root.map_supers -= u64::from(count);
    }

    fn cache(&mut self, thread: usize, partition: usize, class: usize) -> usize {
        (thread * self.partitions + partition) * self.classes.len() + class
    }

    /// A slot came back by the last step on it.
    fn returned(&mut self, line: u32, thread: usize, slot: u32) {
        let (partition, class, len) = {
            let s = &self.slots[slot as usize];
            (s.partition as usize, s.class, s.len)
        };
        if class == DIRECT {
            return self.unmap(line, slot);
        }
        let limit = self.classes[class as usize].limit;
        let at = self.cache(thread, partition, class as usize);
        self.caches[at].push(slot);
        add(&mut self.cached[partition], len);
        if self.caches[at].len() > limit {
            let keep = limit / 2;
            let go = self.caches[at].len() - keep;
            let spilled: Vec<u32> = self.caches[at].drain(..go).rev().collect();
            for _ in &spilled {
                less(&mut self.cached[partition], len);
            }
            self.roots[partition].give(partition, line, &spilled, &self.slots);
        }
    }

    fn answer(&mut self, line: u32, thread: usize, word: &[u8]) {
        self.records.extend_from_slice(b"e ");
        number(&mut self.records, u64::from(line));
        spaced(&mut self.records, thread as u64);
        self.records.push(b' ');
        self.records.extend_from_slice(word);
    }

    fn bare(&mut self, line: u32, thread: usize, word: &[u8]) {
        self.answer(line, thread, word);
        self.records.push(b'\n');
    }

    fn told(&mut self, line: u32, thread: usize, word: &[u8], slot: u32) {
        self.answer(line, thread, word);
        self.records.push(b' ');
        let s = &self.slots[slot as usize];
        name(&mut self.records, s);
        self.records.push(b' ');
        hex(&mut self.records, s.word, 16);
    }

    fn looked(&mut self, line: u32, thread: usize, word: &[u8], slot: u32) {
        self.told(line, thread, word, slot);
        self.records.push(b'\n');
    }

    fn alloc(&mut self, line: u32, thread: usize, reg: usize, partition: usize, size: u64) {
        if matches!(self.regs[reg], Reg::Own(_) | Reg::Ref(_)) {
            return self.bare(line, thread, b"filled");
        }
        if size > GREATEST {
            return self.bare(line, thread, b"too-large");
        }
        let raw = size.max(1) + 8;
        let class = self.classes.partition_point(|c| u64::from(c.slot) < raw);
        let slot = if class == self.classes.len() {
            match self.map(line, partition, size) {
                Got::Slots(got) => got[0],
                Got::Full(j) => return self.full(line, thread, j),
            }
        } else {
            let at = self.cache(thread, partition, class);
            let len = self.classes[class].slot;
            if self.caches[at].is_empty() {
                match self.fill(line, partition, class) {
                    Got::Slots(got) => {
                        for _ in &got {
                            add(&mut self.cached[partition], len);
                        }
                        self.caches[at].extend(got.iter().rev());
                    }
                    Got::Full(j) => return self.full(line, thread, j),
                }
            }
            less(&mut self.cached[partition], len);
            self.caches[at].pop().unwrap()
        };
        self.answer(line, thread, b"made ");
        let s = &mut self.slots[slot as usize];
        name(&mut self.records, s);
        spaced(&mut self.records, u64::from(s.len - 8));
        self.records.push(b' ');
        hex(&mut self.records, s.word, 16);
        self.records.push(b'\n');
        s.content = 0;
        s.word += (1 << 24) + 1;
        add(&mut self.live[partition], s.len);
        self.regs[reg] = Reg::Own(slot);
    }

    fn full(&mut self, line: u32, thread: usize, j: u32) {
        self.answer(line, thread, b"full");
        spaced(&mut self.records, u64::from(j));
        self.records.push(b'\n');
    }

    fn copy(&mut self, line: u32, thread: usize, from: usize, to: usize) {
        let slot = match self.regs[from] {
            Reg::Empty => return self.bare(line, thread, b"nothing"),
            Reg::Freed | Reg::Cleared => return self.bare(line, thread, b"stale-use"),
            Reg::Own(slot) | Reg::Ref(slot) => slot,
        };
        if matches!(self.regs[to], Reg::Own(_) | Reg::Ref(_)) {
            return self.bare(line, thread, b"filled");
        }
        if matches!(self.regs[from], Reg::Own(_)) && usize::from(self.slots[slot as usize].partition) >= self.plain_from {
            return self.bare(line, thread, b"uncounted");
        }
        self.looked(line, thread, b"done", slot);
        self.slots[slot as usize].word += (1 << 24) + 2;
        self.regs[to] = Reg::Ref(slot);
    }

    fn reset(&mut self, line: u32, thread: usize, reg: usize) {
        let slot = match self.regs[reg] {
            Reg::Empty => return self.bare(line, thread, b"nothing"),
            Reg::Own(_) | Reg::Freed => return self.bare(line, thread, b"not-ref"),
            Reg::Cleared => return self.bare(line, thread, b"stale-reset"),
            Reg::Ref(slot) => slot,
        };
        self.looked(line, thread, b"done", slot);
        self.regs[reg] = Reg::Cleared;
        let s = &mut self.slots[slot as usize];
        s.word += (1 << 24) - 2;
        if s.refs() == 0 && !s.held() {
            let (partition, len) = (s.partition as usize, s.len);
            less(&mut self.quarantined[partition], len);
            self.returned(line, thread, slot);
        }
    }

    fn free(&mut self, line: u32, thread: usize, reg: usize) {
        let slot = match self.regs[reg] {
            Reg::Empty => return self.bare(line, thread, b"nothing"),
            Reg::Freed => return self.bare(line, thread, b"second-free"),
            Reg::Cleared => return self.bare(line, thread, b"stale-use"),
            Reg::Ref(slot) => {
                let word: &[u8] = if self.slots[slot as usize].held() { b"not-owner" } else { b"second-free" };
                return self.looked(line, thread, word, slot);
            }
            Reg::Own(slot) => slot,
        };
        self.looked(line, thread, b"done", slot);
        self.regs[reg] = Reg::Freed;
        let s = &mut self.slots[slot as usize];
        s.content = POISON;
        s.word += (1 << 24) - 1;
        let (partition, len, refs) = (s.partition as usize, s.len, s.refs());
        less(&mut self.live[partition], len);
        if refs == 0 {
            self.returned(line, thread, slot);
        } else {
            add(&mut self.quarantined[partition], len);
        }
    }

    fn write(&mut self, line: u32, thread: usize, reg: usize, value: u64) {
        let slot = match self.regs[reg] {
            Reg::Empty => return self.bare(line, thread, b"nothing"),
            Reg::Freed | Reg::Cleared => return self.bare(line, thread, b"stale-use"),
            Reg::Ref(slot) => {
                let word: &[u8] = if self.slots[slot as usize].held() { b"not-owner" } else { b"stale-use" };
                return self.looked(line, thread, word, slot);
            }
            Reg::Own(slot) => slot,
        };
        if self.slots[slot as usize].refs() > 0 {
            return self.looked(line, thread, b"shared", slot);
        }
        self.looked(line, thread, b"done", slot);
        let s = &mut self.slots[slot as usize];
        s.content = value;
        s.word += 1 << 24;
    }

    fn read(&mut self, line: u32, thread: usize, reg: usize, place: u64) {
        let slot = match self.regs[reg] {
            Reg::Empty => return self.bare(line, thread, b"nothing"),
            Reg::Freed | Reg::Cleared => return self.bare(line, thread, b"stale-use"),
            Reg::Own(slot) | Reg::Ref(slot) => slot,
        };
        let s = &self.slots[slot as usize];
        if place >= u64::from(s.len - 8) / 8 {
            return self.bare(line, thread, b"out-of-range");
        }
        let word: &[u8] = if s.held() { b"word" } else { b"dangling" };
        let value = s.content;
        self.told(line, thread, word, slot);
        self.records.push(b' ');
        hex(&mut self.records, value, 16);
        self.records.push(b'\n');
    }

    fn handle(out: &mut Vec<u8>, reg: Reg, slots: &[Slot]) {
        match reg {
            Reg::Own(slot) => {
                out.extend_from_slice(b" own:");
                name(out, &slots[slot as usize]);
            }
            Reg::Ref(slot) => {
                out.extend_from_slice(b" ref:");
                name(out, &slots[slot as usize]);
            }
            Reg::Empty | Reg::Freed | Reg::Cleared => out.extend_from_slice(b" -"),
        }
    }

    fn exchange(&mut self, line: u32, thread: usize, k: usize, reg: usize) {
        let cell = &mut self.cells[k];
        let j = cell.entries;
        cell.entries += 1;
        let gave = self.regs[reg];
        cell.text.extend_from_slice(b"c ");
        number(&mut cell.text, k as u64);
        spaced(&mut cell.text, u64::from(j));
        spaced(&mut cell.text, u64::from(line));
        Player::handle(&mut cell.text, gave, &self.slots);
        Player::handle(&mut cell.text, cell.holds, &self.slots);
        cell.text.push(b'\n');
        self.regs[reg] = cell.holds;
        cell.holds = if matches!(gave, Reg::Own(_) | Reg::Ref(_)) { gave } else { Reg::Empty };
        self.answer(line, thread, b"swapped");
        spaced(&mut self.records, u64::from(j));
        self.records.push(b'\n');
    }

    fn purge(&mut self, line: u32, thread: usize) {
        let mut given = 0;
        for partition in 0..self.partitions {
            for class in 0..self.classes.len() {
                let at = self.cache(thread, partition, class);
                let slots: Vec<u32> = self.caches[at].drain(..).rev().collect();
                for s in &slots {
                    less(&mut self.cached[partition], self.slots[*s as usize].len);
                }
                given += slots.len() as u64;
                self.roots[partition].give(partition, line, &slots, &self.slots);
            }
            let root = &mut self.roots[partition];
            root.head(partition, line);
            root.journal.extend_from_slice(b" purge\n");
            while !root.empty.is_empty() {
                root.decommit_oldest();
            }
        }
        self.answer(line, thread, b"purged");
        spaced(&mut self.records, given);
        self.records.push(b'\n');
    }

    fn phase_ends(&mut self, phase: u64) {
        for partition in 0..self.partitions {
            let root = &self.roots[partition];
            let out = &mut self.report;
            out.extend_from_slice(b"s ");
            number(out, phase);
            spaced(out, partition as u64);
            let held = (root.made.0 - root.out.0, root.made.1 - root.out.1);
            let tallies: [(&[u8], (u64, u64)); 4] =
                [(b" live", self.live[partition]), (b" quarantined", self.quarantined[partition]), (b" cached", self.cached[partition]), (b" root", held)];
            for (word, tally) in tallies {
                out.extend_from_slice(word);
                spaced(out, tally.0);
                spaced(out, tally.1);
            }
            out.extend_from_slice(b" committed");
            spaced(out, root.committed + root.map_bytes);
            out.extend_from_slice(b" reserved");
            spaced(out, u64::from(SUPER) * (root.supers.len() as u64 + root.map_supers));
            let states: [(&[u8], State); 4] =
                [(b" full", State::Full), (b" active", State::Active), (b" empty", State::Empty), (b" decommitted", State::Decommitted)];
            for (word, state) in states {
                out.extend_from_slice(word);
                spaced(out, u64::from(root.states[state as usize]));
            }
            out.push(b'\n');
        }
    }

    fn line(&mut self, n: u32, words: &[&[u8]]) {
        let thread = plain(words[0], 0) as usize;
        let reg = |w: &[u8]| thread * 64 + plain(w, 1) as usize;
        match words[1] {
            b"A" => self.alloc(n, thread, reg(words[2]), plain(words[3], 1) as usize, plain(words[4], 0)),
            b"C" => self.copy(n, thread, reg(words[2]), reg(words[3])),
            b"R" => self.reset(n, thread, reg(words[2])),
            b"F" => self.free(n, thread, reg(words[2])),
            b"W" => self.write(n, thread, reg(words[2]), u64::from_str_radix(std::str::from_utf8(words[3]).unwrap(), 16).unwrap()),
            b"D" => self.read(n, thread, reg(words[2]), plain(words[3], 0)),
            b"X" => self.exchange(n, thread, plain(words[2], 1) as usize, reg(words[3])),
            b"P" => self.purge(n, thread),
            _ => panic!("line {n} is no op"),
        }
    }
}

/// The number behind so many letters.
fn plain(word: &[u8], letters: usize) -> u64 {
    word[letters..].iter().fold(0, |n, digit| n * 10 + u64::from(digit - b'0'))
}

fn main() {
    let mut text = Vec::new();
    std::io::stdin().read_to_end(&mut text).unwrap();
    let mut lines = text.strip_suffix(b"\n").unwrap_or(&text).split(|b| *b == b'\n');
    let head: Vec<&[u8]> = lines.next().unwrap().split(|b| *b == b' ').collect();
    let count = |word: usize| plain(head[word], 0) as usize;
    let plain_count = if head.len() > 9 { count(9) } else { 0 };
    let mut player = Player::new(plain(head[1], 0), count(3), count(5), count(7), plain_count);
    let mut phase = 1;
    let mut words: Vec<&[u8]> = Vec::with_capacity(8);
    for (i, line) in lines.enumerate() {
        if line == b"phase" {
            player.phase_ends(phase);
            phase += 1;
            continue;
        }
        words.clear();
        words.extend(line.split(|b| *b == b' '));
        player.line(i as u32 + 2, &words);
    }
    player.phase_ends(phase);
    let mut out = player.records;
    for root in &player.roots {
        out.extend_from_slice(&root.journal);
    }
    out.extend_from_slice(&player.pool.text);
    for cell in &player.cells {
        out.extend_from_slice(&cell.text);
    }
    out.extend_from_slice(&player.report);
    out.extend_from_slice(b"end\n");
    std::io::stdout().write_all(&out).unwrap();
}
