//! What is measured of a store, in phases.

use crate::keys::{present_and_absent, Chance, Kind};
use crate::stores::{Put, Store};
use crate::Outcome;
use std::fs;
use std::hint::black_box;
use std::time::{Duration, Instant};

/// Nanoseconds a call, or bytes a key, each with its name.
pub type Figures = Vec<(&'static str, f64)>;

// A store of fewer keys is filled and asked again, until enough calls are measured of each kind.
const LEAST_CALLS: usize = 100_000;

const RANGES: usize = 1_000;
const ROWS_OF_RANGE: u16 = 100;
const ROWS_OF_COUNT: usize = 100;
const KEYS_AT_ONCE: usize = 64;
const CHANGES_AT_ONCE: usize = 100;

// How long calls of one kind took.
struct Phase {
    name: &'static str,
    took: Duration,
    calls: usize,
}

impl Phase {
    fn new(name: &'static str) -> Phase {
        Phase {
            name,
            took: Duration::ZERO,
            calls: 0,
        }
    }

    // Makes a call of each item.
    fn measure<T>(&mut self, items: &[T], mut call: impl FnMut(&T) -> Outcome<()>) -> Outcome<()> {
        let begun = Instant::now();
        for item in items {
            call(item)?;
        }
        self.took += begun.elapsed();
        self.calls += items.len();
        Ok(())
    }

    fn figure(&self) -> (&'static str, f64) {
        (self.name, self.took.as_nanos() as f64 / self.calls as f64)
    }
}

// Bytes of memory that the process has.
fn resident() -> Outcome<f64> {
    let status = fs::read_to_string("/proc/self/status")?;
    let line = status.lines().find_map(|line| line.strip_prefix("VmRSS:"));
    let kilobytes = line.ok_or("the system has no VmRSS")?.trim();
    Ok(kilobytes.trim_end_matches(" kB").parse::<f64>()? * 1024.0)
}

fn expect(holds: bool, what: &str) -> Outcome<()> {
    if holds {
        Ok(())
    } else {
        Err(format!("a wrong answer of {what}").into())
    }
}

// A range of keys, and how many rows it has.
struct Span {
    start: Vec<u8>,
    end: Vec<u8>,
    rows: usize,
}

// What is asked, all made beforehand.
struct Plan {
    new: Vec<Put>,
    over: Vec<Put>,
    absent: Vec<Vec<u8>>,
    // Some of the keys, in lists of KEYS_AT_ONCE.
    lists: Vec<Vec<Vec<u8>>>,
    starts: Vec<Vec<u8>>,
    spans: Vec<Span>,
}

fn puts_of(keys: Vec<Vec<u8>>, chance: &mut Chance) -> Vec<Put> {
    keys.into_iter()
        .map(|key| (key, chance.number().to_be_bytes()))
        .collect()
}

// Ranges of ROWS_OF_COUNT rows each; of one fewer than all if there are no more.
fn spans_of(mut keys: Vec<Vec<u8>>, chance: &mut Chance) -> Vec<Span> {
    keys.sort();
    let rows = ROWS_OF_COUNT.min(keys.len().saturating_sub(1));
    let firsts: Vec<usize> = (0..keys.len() - rows).collect();
    let firsts = chance.shuffled(&firsts).into_iter().take(RANGES);
    firsts
        .map(|first| Span {
            start: keys[first].clone(),
            end: keys[first + rows].clone(),
            rows,
        })
        .collect()
}

// Lists of keys by chance, at most RANGES.
fn lists_of(keys: &[Vec<u8>], chance: &mut Chance) -> Vec<Vec<Vec<u8>>> {
    let shuffled = chance.shuffled(keys);
    let lists = shuffled.chunks_exact(KEYS_AT_ONCE.min(keys.len()).max(1));
    lists.take(RANGES).map(<[_]>::to_vec).collect()
}

fn plan(kind: Kind, count: usize) -> Plan {
    let (keys, absent) = present_and_absent(kind, count);
    let mut chance = Chance::new(7);
    let shuffled = chance.shuffled(&keys);
    let lists = lists_of(&keys, &mut Chance::new(13));
    let starts = chance.shuffled(&keys).into_iter().take(RANGES).collect();
    let spans = spans_of(keys.clone(), &mut Chance::new(11));
    Plan {
        new: puts_of(keys, &mut chance),
        over: puts_of(shuffled, &mut chance),
        absent,
        lists,
        starts,
        spans,
    }
}

/// Measures a store that is filled with `count` keys.
pub fn all_phases<S: Store>(kind: Kind, count: usize, views: usize) -> Outcome<Figures> {
    let plan = plan(kind, count);
    let rounds = LEAST_CALLS.div_ceil(count.max(1));
    if views > 0 {
        return with_views::<S>(&plan, rounds, views);
    }
    without_views::<S>(&plan, rounds)
}

// The reads: gets of keys that are there and of keys that aren't, of many keys, ranges both ways, and counts.
fn measure_reads<S: Store>(store: &S, plan: &Plan, reads: &mut [Phase; 7]) -> Outcome<()> {
    let [get, absent, each, many, range, back, counts] = reads;
    get.measure(&plan.over, |(key, _)| {
        expect(black_box(store.get(key)?).is_some(), "a get")
    })?;
    absent.measure(&plan.absent, |key| {
        expect(black_box(store.get(key)?).is_none(), "a get")
    })?;
    each.measure(&plan.lists, |keys| {
        let rows = black_box(store.get_each(keys)?);
        expect(rows.iter().all(Option::is_some), "gets")
    })?;
    many.measure(&plan.lists, |keys| {
        let rows = black_box(store.get_many(keys)?);
        expect(rows.iter().all(Option::is_some), "gets at once")
    })?;
    range.measure(&plan.starts, |key| {
        let rows = black_box(store.range(key, ROWS_OF_RANGE)?);
        expect(!rows.is_empty(), "a range")
    })?;
    back.measure(&plan.starts, |key| {
        let _rows = black_box(store.range_back(key, ROWS_OF_RANGE)?);
        Ok(())
    })?;
    counts.measure(&plan.spans, |span| {
        let count = black_box(store.count(&span.start, &span.end)?);
        expect(count == span.rows, "a count")
    })
}

// Puts over rows, some at a time: one after the other, as one change, and as one change if no row has changed before.
fn measure_batches<S: Store>(store: &S, plan: &Plan, puts: &mut [Phase; 3]) -> Outcome<()> {
    let [each, all, tested] = puts;
    let most = RANGES * CHANGES_AT_ONCE;
    let lists: Vec<&[Put]> = plan.over[..plan.over.len().min(most)]
        .chunks(CHANGES_AT_ONCE)
        .collect();
    each.measure(&lists, |puts| store.put_each(puts))?;
    all.measure(&lists, |puts| expect(store.put_all(&[], puts)?, "a batch"))?;
    let mut conditions = Vec::new();
    for puts in &lists {
        let of_list = puts.iter().map(|(key, _)| store.condition(key));
        conditions.push((of_list.collect::<Outcome<Vec<_>>>()?, *puts));
    }
    tested.measure(&conditions, |(conditions, puts)| {
        expect(store.put_all(conditions, puts)?, "a batch")
    })
}

fn without_views<S: Store>(plan: &Plan, rounds: usize) -> Outcome<Figures> {
    let [mut new, mut over, mut remove] = ["put new", "put over", "remove"].map(Phase::new);
    let mut reads = [
        "get",
        "get absent",
        "64 gets",
        "get_many of 64",
        "range of 100",
        "range back of 100",
        "count of 100",
    ]
    .map(Phase::new);
    let mut batches = ["100 puts", "batch of 100", "batch of 100 if"].map(Phase::new);
    let mut bytes = None;
    for _ in 0..rounds {
        let before = resident()?;
        let store = S::open(0)?;
        new.measure(&plan.new, |(key, value)| store.put(key, value))?;
        bytes.get_or_insert((resident()? - before) / plan.new.len() as f64);
        over.measure(&plan.over, |(key, value)| store.put(key, value))?;
        measure_reads(&store, plan, &mut reads)?;
        measure_batches(&store, plan, &mut batches)?;
        remove.measure(&plan.over, |(key, _)| {
            expect(store.remove(key)?, "a remove")
        })?;
    }
    let writes = batches.into_iter().chain([remove]);
    let phases = [new, over].into_iter().chain(reads).chain(writes);
    let mut figures: Figures = phases.map(|phase| phase.figure()).collect();
    figures.push(("bytes a key", bytes.unwrap_or(0.0)));
    Ok(figures)
}

// The count and the sum of all rows, after the puts over others.
fn totals(plan: &Plan) -> (u64, u128) {
    let amounts = plan
        .over
        .iter()
        .map(|(_, value)| u64::from_be_bytes(*value));
    (plan.over.len() as u64, amounts.map(u128::from).sum())
}

fn with_views<S: Store>(plan: &Plan, rounds: usize, views: usize) -> Outcome<Figures> {
    let [mut new, mut over] = ["put new, views", "put over, views"].map(Phase::new);
    for _ in 0..rounds {
        let store = S::open(views)?;
        new.measure(&plan.new, |(key, value)| store.put(key, value))?;
        over.measure(&plan.over, |(key, value)| store.put(key, value))?;
        // the first view is of all rows
        expect(store.shown()?.first() == Some(&totals(plan)), "a view")?;
    }
    Ok(vec![new.figure(), over.figure()])
}
