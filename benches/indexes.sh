#!/bin/sh
# Times the free pages, the indexes, the work queue and the walk of a log, each at three sizes:
#
#     sh benches/indexes.sh [ROUNDS]
#
# Of ROUNDS trials (3 where none is given) the one that took least counts.
. "$(dirname "$0")/common.sh"
begin_bench pm_device pm_layout log_entry page_alloc dedupe_queue dn_model file_index inode_log log_walk anyhow

cat >src/main.rt <<'END'
//! Times the structures in ordinary memory, and the walk of a log.
#![tactic(auto)]

mod indexes;
mod logs;
mod pages;
mod queue;
mod trials;

use anyhow::Result;
use std::time::{CpuClock, Duration};
use trials::rounds;

// What is timed.
#[derive(Clone, Copy)]
enum Operation {
    GiveBack,
    Take,
    SetUp,
    SetDown,
    GetPlace,
    Cut,
    PutSorted,
    PutShuffled,
    GetName,
    Names,
    Push,
    Pop,
    Walk,
}

use Operation::{
    Cut, GetName, GetPlace, GiveBack, Names, Pop, Push, PutShuffled, PutSorted, SetDown, SetUp,
    Take, Walk,
};

const PAGES: [u64; 3] = [16384, 32768, 65536];

const ENTRIES: [u64; 3] = [1024, 2048, 4096];

const WORK: [u64; 3] = [250_000, 500_000, 1_000_000];

const ITEMS: [u64; 3] = [63, 630, 6300];

// An operation, its name, and how many things it goes over.
type Row = (Operation, &'static str, [u64; 3]);

const ROWS: [Row; 13] = [
    (GiveBack, "FreeSet give_back of all", PAGES),
    (Take, "FreeSet take of all", PAGES),
    (SetUp, "PageMap set, places rising", ENTRIES),
    (SetDown, "PageMap set, places falling", ENTRIES),
    (GetPlace, "PageMap get of all", ENTRIES),
    (Cut, "PageMap cut to nothing", ENTRIES),
    (PutSorted, "NameMap put, names in order", ENTRIES),
    (PutShuffled, "NameMap put, names shuffled", ENTRIES),
    (GetName, "NameMap get of all", ENTRIES),
    (Names, "NameMap names", ENTRIES),
    (Push, "WorkQueue push", WORK),
    (Pop, "WorkQueue pop of all", WORK),
    (Walk, "walk of a log", ITEMS),
];

// The processor time since a reading of it.
pub(crate) fn since(rt: &impl CpuClock, start: Duration) -> Result<Duration> {
    Ok(rt.thread_cpu_time()?.saturating_sub(start))
}

// The processor time of one operation over so many things.
fn trial<R: CpuClock + AllocGlobal>(rt: &R, operation: Operation, n: u64) -> Result<Duration> {
    match operation {
        GiveBack => pages::give_back(rt, n),
        Take => pages::take(rt, n),
        SetUp => indexes::set_places(rt, n, false),
        SetDown => indexes::set_places(rt, n, true),
        GetPlace => indexes::get_places(rt, n),
        Cut => indexes::cut(rt, n),
        PutSorted => indexes::put_names(rt, n, false),
        PutShuffled => indexes::put_names(rt, n, true),
        GetName => indexes::get_names(rt, n),
        Names => indexes::list_names(rt, n),
        Push => queue::push(rt, n),
        Pop => queue::pop(rt, n),
        Walk => logs::walk_items(rt, n),
    }
}

// The least time of some rounds.
fn least<R: CpuClock + AllocGlobal>(
    rt: &R,
    operation: Operation,
    n: u64,
    rounds: u64,
) -> Result<Duration> {
    let mut least = trial(rt, operation, n)?;
    for _ in 1..rounds {
        least = least.min(trial(rt, operation, n)?);
    }
    Ok(least)
}

// Times the operation at each of its sizes, and prints a line of the table for each.
fn time_sizes<R: CpuClock + Print + AllocGlobal>(rt: &R, row: Row, rounds: u64) -> Result<()> {
    let (operation, name, sizes) = row;
    let mut first = None;
    for n in sizes {
        let nanos = least(rt, operation, n, rounds)?.as_nanos() as u64;
        // picoseconds for each, and those at the first size
        let each = nanos * 1000 / n;
        let base = first.unwrap_or(each).max(1);
        first = Some(base);
        let growth = each * 100 / base;
        println!(rt;
            "{:<28} {:>9} {:>12} {:>9} {:>4}.{:02}",
            name,
            n,
            nanos / 1000,
            nanos / n,
            growth / 100,
            growth % 100
        )?;
    }
    Ok(())
}

fn main(rt: HostRuntime) -> Result<()> {
    let rounds = rounds(&rt)?;
    println!(rt;
        "{:<28} {:>9} {:>12} {:>9} {:>7}",
        "operation", "n", "microseconds", "ns each", "growth"
    )?;
    for row in ROWS {
        time_sizes(&rt, row, rounds)?;
    }
    Ok(())
}
END

cat >src/pages.rt <<'END'
// The free pages of an image.
use crate::since;
use anyhow::{Result, ensure};
use page_alloc::FreeSet;
use std::alloc::{AllocError, Global};
use std::time::{CpuClock, Duration};

// A set in which all pages are free.
fn full(alloc: Global, pages: u64) -> Result<FreeSet, AllocError> {
    let mut set = FreeSet::none(alloc, pages)?;
    for page in 0..pages {
        set.give_back(page);
    }
    Ok(set)
}

pub(crate) fn give_back<R: CpuClock + AllocGlobal>(rt: &R, pages: u64) -> Result<Duration> {
    let mut set = FreeSet::none(rt.alloc(), pages)?;
    let start = rt.thread_cpu_time()?;
    for page in 0..pages {
        set.give_back(page);
    }
    let spent = since(rt, start)?;
    ensure!(set.count() == pages, "pages are lost");
    Ok(spent)
}

pub(crate) fn take<R: CpuClock + AllocGlobal>(rt: &R, pages: u64) -> Result<Duration> {
    let mut set = full(rt.alloc(), pages)?;
    let mut next = 0;
    let start = rt.thread_cpu_time()?;
    while set.take() == Some(next) {
        next += 1;
    }
    let spent = since(rt, start)?;
    ensure!(next == pages, "pages are taken out of order");
    Ok(spent)
}
END

cat >src/indexes.rt <<'END'
// Where the pages of a file are, and which inode each name leads to.
use crate::since;
use anyhow::{Result, ensure};
use file_index::{Mapping, NameMap, PageMap};
use log_entry::{Name, NameFault};
use std::alloc::{AllocError, Global};
use std::time::{CpuClock, Duration};

fn mapping_of(place: u64) -> Mapping {
    Mapping {
        block: 1000 + place,
        slot: 64 * place,
        bit: 0,
    }
}

// Maps the places below `count`, from 0 up or from the last down. Room for each is made when it comes.
fn set_all(map: &mut PageMap, count: u64, falling: bool) -> Result<(), AllocError> {
    for k in 0..count {
        let place = if falling { count - 1 - k } else { k };
        map.reserve(1)?;
        map.set(place, mapping_of(place));
    }
    Ok(())
}

fn mapped(alloc: Global, count: u64) -> Result<PageMap, AllocError> {
    let mut map = PageMap::new(alloc);
    set_all(&mut map, count, false)?;
    Ok(map)
}

pub(crate) fn set_places<R: CpuClock + AllocGlobal>(
    rt: &R,
    count: u64,
    falling: bool,
) -> Result<Duration> {
    let mut map = PageMap::new(rt.alloc());
    let start = rt.thread_cpu_time()?;
    set_all(&mut map, count, falling)?;
    let spent = since(rt, start)?;
    ensure!(map.last_below(count) == Some(count - 1), "places are lost");
    Ok(spent)
}

pub(crate) fn get_places<R: CpuClock + AllocGlobal>(rt: &R, count: u64) -> Result<Duration> {
    let map = mapped(rt.alloc(), count)?;
    let mut found = 0;
    let start = rt.thread_cpu_time()?;
    for place in 0..count {
        if map.get(place) == Some(mapping_of(place)) {
            found += 1;
        }
    }
    let spent = since(rt, start)?;
    ensure!(found == count, "places are lost");
    Ok(spent)
}

pub(crate) fn cut<R: CpuClock + AllocGlobal>(rt: &R, count: u64) -> Result<Duration> {
    let mut map = mapped(rt.alloc(), count)?;
    let start = rt.thread_cpu_time()?;
    map.cut(0);
    let spent = since(rt, start)?;
    ensure!(map.last_below(count).is_none(), "places are left");
    Ok(spent)
}

// Names of seven bytes in the order of their bytes.
fn names_in_order(alloc: Global, count: u64) -> Result<Vec<Name>, NameFault> {
    let mut names = Vec::new(alloc);
    for k in 0..count {
        let mut bytes = *b"n000000";
        let mut left = k;
        for digit in (1..7usize).rev() {
            bytes[digit] = b'0' + (left % 10) as u8;
            left /= 10;
        }
        names
            .push(Name::of(alloc, &bytes)?)
            .map_err(|_| NameFault::NoMemory)?;
    }
    Ok(names)
}

// Puts the names into another order, always the same (Fisher and Yates, over numbers of a linear rule).
fn shuffle(names: &mut Vec<Name>) {
    let mut state: u64 = 1;
    for last in (1..names.len()).rev() {
        state = state
            .wrapping_mul(6364136223846793005)
            .wrapping_add(1442695040888963407);
        let other = (state >> 33) as usize % (last + 1);
        names.swap(last, other);
    }
}

fn make_names(alloc: Global, count: u64, shuffled: bool) -> Result<Vec<Name>, NameFault> {
    let mut names = names_in_order(alloc, count)?;
    if shuffled {
        shuffle(&mut names);
    }
    Ok(names)
}

fn put_all(map: &mut NameMap, names: Vec<Name>) -> Result<(), AllocError> {
    for name in names {
        map.reserve(1)?;
        map.put(name, 1);
    }
    Ok(())
}

fn named(alloc: Global, count: u64) -> Result<NameMap> {
    let mut map = NameMap::new(alloc);
    put_all(&mut map, make_names(alloc, count, false)?)?;
    Ok(map)
}

pub(crate) fn put_names<R: CpuClock + AllocGlobal>(
    rt: &R,
    count: u64,
    shuffled: bool,
) -> Result<Duration> {
    let names = make_names(rt.alloc(), count, shuffled)?;
    let mut map = NameMap::new(rt.alloc());
    let start = rt.thread_cpu_time()?;
    put_all(&mut map, names)?;
    let spent = since(rt, start)?;
    ensure!(
        map.names(rt.alloc())?.names().len() as u64 == count,
        "names are lost"
    );
    Ok(spent)
}

pub(crate) fn get_names<R: CpuClock + AllocGlobal>(rt: &R, count: u64) -> Result<Duration> {
    let map = named(rt.alloc(), count)?;
    let names = make_names(rt.alloc(), count, true)?;
    let mut found = 0;
    let start = rt.thread_cpu_time()?;
    for name in &names {
        if map.get(name) == Some(1) {
            found += 1;
        }
    }
    let spent = since(rt, start)?;
    ensure!(found == count, "names are lost");
    Ok(spent)
}

pub(crate) fn list_names<R: CpuClock + AllocGlobal>(rt: &R, count: u64) -> Result<Duration> {
    let map = named(rt.alloc(), count)?;
    let start = rt.thread_cpu_time()?;
    let list = map.names(rt.alloc())?;
    let spent = since(rt, start)?;
    ensure!(list.names().len() as u64 == count, "names are lost");
    Ok(spent)
}
END

cat >src/queue.rt <<'END'
// The work of the daemon.
use crate::since;
use anyhow::{Result, ensure};
use dedupe_queue::{Work, WorkQueue};
use std::alloc::{AllocError, Global};
use std::time::{CpuClock, Duration};

// Pushes so much work, for each of which room is made when it comes.
fn push_all(queue: &mut WorkQueue, count: u64) -> Result<(), AllocError> {
    for slot in 0..count {
        queue.reserve(1)?;
        queue.push(Work {
            ino: 1,
            round: 0,
            slot,
        });
    }
    Ok(())
}

fn filled(alloc: Global, count: u64) -> Result<WorkQueue, AllocError> {
    let mut queue = WorkQueue::new(alloc);
    push_all(&mut queue, count)?;
    Ok(queue)
}

pub(crate) fn push<R: CpuClock + AllocGlobal>(rt: &R, count: u64) -> Result<Duration> {
    let mut queue = WorkQueue::new(rt.alloc());
    let start = rt.thread_cpu_time()?;
    push_all(&mut queue, count)?;
    let spent = since(rt, start)?;
    ensure!(queue.len() == count, "work is lost");
    Ok(spent)
}

pub(crate) fn pop<R: CpuClock + AllocGlobal>(rt: &R, count: u64) -> Result<Duration> {
    let mut queue = filled(rt.alloc(), count)?;
    let mut sum = 0;
    let start = rt.thread_cpu_time()?;
    while let Some(work) = queue.pop() {
        sum += work.slot;
    }
    let spent = since(rt, start)?;
    ensure!(sum == count * (count - 1) / 2, "work is lost");
    Ok(spent)
}
END

cat >src/logs.rt <<'END'
// The walk of a log.
use crate::since;
use anyhow::{Result, ensure};
use inode_log::log::commit_log;
use inode_log::prepare::{PREPARE_UNITS, prepare};
use log_entry::write::write_item;
use log_entry::{Flag, LogItem};
use log_walk::walk;
use pm_device::{MemPm, Pm};
use pm_layout::Geometry;
use std::alloc::{AllocError, Global};
use std::time::{CpuClock, Duration};

// The pages and the inodes of the image. It has room for logs of 6,300 items.
const IMAGE_PAGES: u64 = 256;

const INODES: u64 = 64;

// Spellings of so many Writes of one page.
fn writes(alloc: Global, g: &Geometry, count: u64) -> Result<Vec<[u64; 8]>, AllocError> {
    let mut slots = Vec::new(alloc);
    for k in 0..count {
        let first = k % 4096;
        let item = LogItem::Write {
            first,
            count: 1,
            block: g.pages - 1,
            size: 4096 * (first + 1),
            flag: Flag::Needed,
            mask: 0,
        };
        write_item(&item, &mut slots)?;
    }
    Ok(slots)
}

// The pages of the data area that just hold so many slots.
fn log_pages(alloc: Global, g: &Geometry, slots: u64) -> Result<Vec<u64>, AllocError> {
    let mut pages = Vec::new(alloc);
    for k in 0..slots.div_ceil(63) {
        pages.push(g.first_data() + k)?;
    }
    Ok(pages)
}

// An image in which the log of inode 1 has so many items.
fn image(alloc: Global, g: &Geometry, count: u64) -> Result<MemPm> {
    let words = vec![in alloc; 0u64; 512 * g.pages as usize]?;
    let mut device = MemPm::of_words(alloc, words, Vec::new(alloc))?;
    let slots = writes(alloc, g, count)?;
    let fresh = log_pages(alloc, g, count)?;
    device.ready(PREPARE_UNITS * (slots.len() + fresh.len()) as u64 + 4)?;
    let tail = prepare(&mut device, g, 0, 1, &slots, &fresh);
    commit_log(&mut device, g, 0, 1, tail)?;
    Ok(device)
}

pub(crate) fn walk_items<R: CpuClock + AllocGlobal>(rt: &R, count: u64) -> Result<Duration> {
    let g = Geometry::of(IMAGE_PAGES, INODES)?;
    let device = image(rt.alloc(), &g, count)?;
    let start = rt.thread_cpu_time()?;
    let items = walk(rt.alloc(), &device, &g, 1)?;
    let spent = since(rt, start)?;
    ensure!(items.len() as u64 == count, "items are lost");
    Ok(spent)
}
END

run_bench 'growth: the time for each over that at the first size; 1.00 is linear'
