#!/bin/sh
# Times the calls of the table of fingerprints, each on images of three sizes:
#
#     sh benches/table.sh [ROUNDS]
#
# There are three kinds of images: without rows; with a row for each page of the data area, whose prefixes are spread;
# and, smaller, with as many rows of one prefix, so that one chain holds them. The rows that are looked up and changed
# are taken from all over the table. Of ROUNDS trials (3 where none is given) the one that took least counts. The device
# is a list of words whose fences do nothing, so the times are those of the table's own steps.
. "$(dirname "$0")/common.sh"
begin_bench anyhow byteorder pm_device pm_layout pm_snapshot log_entry fingerprint page_alloc fact_slot fact_direct \
    fact_chain delete_pointer dn_model law_write law_table law_unique fact_scan fact_table fact_counts fact_rows \
    fact_changes

cat >src/main.rt <<'END'
//! Times the calls of the table of fingerprints.
#![tactic(auto)]

mod changes;
mod empty;
mod image;
mod looks;
mod trials;

use anyhow::Result;
use image::{Image, Prints};
use std::time::{CpuClock, Duration};
use trials::rounds;

// What images hold.
#[derive(Clone, Copy)]
enum Kind {
    NoRow,
    Rows(Prints),
}

use Kind::{NoRow, Rows};

const EMPTY_CALLS: [&str; 4] = [
    "load, for each page",
    "clear_stale of all, for each page",
    "take_slot, in order",
    "take_slot twice, far apart",
];

const CALLS: [&str; 10] = [
    "insert",
    "load, for each page",
    "find",
    "find of no row's",
    "by_page",
    "row_at",
    "clear_stale of none, for each page",
    "raise",
    "settle_down",
    "remove_zero",
];

// What the images hold, in words, and how many pages they have.
type Group = (Kind, &'static str, [u64; 3]);

const SIZES: [u64; 3] = [16384, 32768, 65536];

const GROUPS: [Group; 3] = [
    (NoRow, "no row", SIZES),
    (Rows(Prints::Spread), "spread", SIZES),
    (Rows(Prints::OnePrefix), "one chain", [512, 1024, 2048]),
];

// The nanoseconds of processor time for each of so many calls, since a reading of the clock.
pub(crate) fn each(rt: &impl CpuClock, start: Duration, calls: u64) -> Result<u64> {
    let spent = rt.thread_cpu_time()?.saturating_sub(start);
    Ok(spent.as_nanos() as u64 / calls)
}

fn names(kind: Kind) -> &'static [&'static str] {
    match kind {
        NoRow => &EMPTY_CALLS,
        Rows(_) => &CALLS,
    }
}

// The times of the calls on an image without rows, in the order of their names.
fn time_empty<R: CpuClock + AllocGlobal>(rt: &R, pages: u64) -> Result<Vec<u64>> {
    let mut image = Image::stale(rt.alloc(), pages)?;
    let mut times = Vec::new(rt.alloc());
    times.push(looks::load(rt, &image)?)?;
    times.push(changes::clear_all(rt, &mut image)?)?;
    times.push(empty::take_in_order(rt, &mut image)?)?;
    times.push(empty::take_far(rt, &mut image)?)?;
    Ok(times)
}

// The times of the calls on an image with rows, in the order of their names.
fn time_rows<R: CpuClock + AllocGlobal>(rt: &R, prints: Prints, pages: u64) -> Result<Vec<u64>> {
    let mut image = Image::empty(rt.alloc(), prints, pages)?;
    let mut times = Vec::new(rt.alloc());
    times.push(changes::insert_all(rt, &mut image)?)?;
    times.push(looks::load(rt, &image)?)?;
    times.push(looks::find(rt, &image)?)?;
    times.push(looks::find_none(rt, &image)?)?;
    times.push(looks::by_page(rt, &image)?)?;
    times.push(looks::row_at(rt, &image)?)?;
    times.push(changes::clear_none(rt, &mut image)?)?;
    times.push(changes::raise_some(rt, &mut image)?)?;
    times.push(changes::settle_some(rt, &mut image)?)?;
    times.push(changes::remove_some(rt, &mut image)?)?;
    Ok(times)
}

fn trial<R: CpuClock + AllocGlobal>(rt: &R, kind: Kind, pages: u64) -> Result<Vec<u64>> {
    match kind {
        NoRow => time_empty(rt, pages),
        Rows(prints) => time_rows(rt, prints, pages),
    }
}

// The least times of some trials.
fn least<R: CpuClock + AllocGlobal>(
    rt: &R,
    kind: Kind,
    pages: u64,
    rounds: u64,
) -> Result<Vec<u64>> {
    let mut least = trial(rt, kind, pages)?;
    for _ in 1..rounds {
        let times = trial(rt, kind, pages)?;
        for k in 0..least.len() {
            least[k] = least[k].min(times[k]);
        }
    }
    Ok(least)
}

// Times the calls at each size, and prints a line for each.
fn time_sizes<R: CpuClock + Print + AllocGlobal>(rt: &R, group: Group, rounds: u64) -> Result<()> {
    let (kind, rows, [n, double, fourfold]) = group;
    let first = least(rt, kind, n, rounds)?;
    let second = least(rt, kind, double, rounds)?;
    let third = least(rt, kind, fourfold, rounds)?;
    for (k, name) in names(kind).iter().enumerate() {
        let growth = third[k] * 100 / first[k].max(1);
        println!(rt;
            "{:<9} {:<34} {:>6} {:>8} {:>8} {:>8} {:>4}.{:02}",
            rows,
            *name,
            n,
            first[k],
            second[k],
            third[k],
            growth / 100,
            growth % 100
        )?;
    }
    Ok(())
}

fn main(rt: HostRuntime) -> Result<()> {
    let rounds = rounds(&rt)?;
    println!(rt;
        "{:<9} {:<34} {:>6} {:>8} {:>8} {:>8} {:>7}",
        "rows", "call", "n", "ns at n", "at 2n", "at 4n", "growth"
    )?;
    for group in GROUPS {
        time_sizes(&rt, group, rounds)?;
    }
    Ok(())
}
END

cat >src/image.rt <<'END'
// Images of which nothing but the table is there.
use anyhow::Result;
use byteorder::{BigEndian, ByteOrder};
use fact_rows::put::INSERT_UNITS;
use fact_table::Fact;
use pm_device::Pm;
use pm_layout::Geometry;
use pm_snapshot::SnapshotPm;
use std::alloc::{AllocError, Global};

const INODES: u64 = 8;

// The actor that makes the calls.
pub(crate) const WHO: u32 = 1;

// Which fingerprints the rows have.
#[derive(Clone, Copy)]
pub(crate) enum Prints {
    Spread,
    OnePrefix,
}

// A number whose bits look unlike those of the numbers beside it (the last steps of splitmix64).
fn mixed(k: u64) -> u64 {
    let z = k.wrapping_add(1).wrapping_mul(0x9E37_79B9_7F4A_7C15);
    let z = (z ^ (z >> 30)).wrapping_mul(0xBF58_476D_1CE4_E5B9);
    let z = (z ^ (z >> 27)).wrapping_mul(0x94D0_49BB_1331_11EB);
    z ^ (z >> 31)
}

// The fingerprint of this number.
pub(crate) fn print_of(prints: Prints, k: u64) -> [u8; 20] {
    let first = match prints {
        Prints::Spread => mixed(k),
        Prints::OnePrefix => 0,
    };
    let mut print = [0; 20];
    BigEndian::write_u64(&mut print[..8], first);
    BigEndian::write_u64(&mut print[8..16], k);
    print
}

// A table on its device, and the slots of its rows in the order in which they came.
#[derive(Drop)]
pub(crate) struct Image {
    pub g: Geometry,
    pub prints: Prints,
    pub device: SnapshotPm,
    pub fact: Fact,
    pub slots: Vec<u64>,
}

fn zeros(alloc: Global, g: &Geometry) -> Result<Vec<u64>, AllocError> {
    vec![in alloc; 0u64; 512 * g.pages as usize]
}

impl Image {
    fn of_words(alloc: Global, g: Geometry, prints: Prints, words: Vec<u64>) -> Result<Image> {
        let device = SnapshotPm::of_words(words);
        let fact = Fact::load(alloc, &device, &g)?;
        Ok(Image {
            g,
            prints,
            device,
            fact,
            slots: Vec::new(alloc),
        })
    }

    // An image of so many pages without rows, in which each page's pointer leads to a slot.
    pub fn stale(alloc: Global, pages: u64) -> Result<Image> {
        let g = Geometry::of(pages, INODES)?;
        let mut words = zeros(alloc, &g)?;
        for page in 0..pages {
            words[g.pointer_word(page) as usize] = page + 1;
        }
        Image::of_words(alloc, g, Prints::Spread, words)
    }

    // An image of so many pages without rows, with room for a row of each page.
    pub fn empty(alloc: Global, prints: Prints, pages: u64) -> Result<Image> {
        let g = Geometry::of(pages, INODES)?;
        let mut image = Image::of_words(alloc, g, prints, zeros(alloc, &g)?)?;
        image.slots.reserve(pages as usize)?;
        image.device.ready(INSERT_UNITS * pages)?;
        Ok(image)
    }

    // How many pages the data area has, and so how many rows come.
    pub fn count(&self) -> u64 {
        self.g.pages - self.g.first_data()
    }

    // How many rows are looked up or changed.
    pub fn sample(&self) -> u64 {
        let most = match self.prints {
            Prints::Spread => 4096,
            Prints::OnePrefix => 64,
        };
        self.count().min(most)
    }

    // The number of such a row, among all rows.
    pub fn number(&self, k: u64) -> u64 {
        k * self.count() / self.sample()
    }

    // The slot of such a row.
    pub fn slot(&self, k: u64) -> u64 {
        self.slots[self.number(k) as usize]
    }
}
END

cat >src/looks.rt <<'END'
// A table is loaded, and rows are looked up.
use crate::each;
use crate::image::{Image, print_of};
use anyhow::{Result, ensure};
use fact_slot::Steps;
use fact_table::Fact;
use std::marker::Brand;
use std::sync::ledger::{Blank, Ledger};
use std::time::CpuClock;

pub(crate) fn load<R: CpuClock + AllocGlobal>(rt: &R, image: &Image) -> Result<u64> {
    let last = image.g.pages - 1;
    let start = rt.thread_cpu_time()?;
    let fact = Fact::load(rt.alloc(), &image.device, &image.g)?;
    let nanos = each(rt, start, image.g.pages)?;
    let same = fact.by_page(&image.device, last) == image.fact.by_page(&image.device, last);
    ensure!(same, "rows are lost");
    Ok(nanos)
}

// How many of the fingerprints have rows, each so much behind the number of a row.
fn found<L: Ledger>(image: &Image, behind: u64, blank: Blank) -> u64 {
    let mut steps = Steps::<L>::new(blank);
    let mut found = 0;
    for k in 0..image.sample() {
        let print = print_of(image.prints, image.number(k) + behind);
        if image.fact.find(&image.device, &print, &mut steps).is_some() {
            found += 1;
        }
    }
    found
}

pub(crate) fn find(rt: &impl CpuClock, image: &Image) -> Result<u64> {
    let start = rt.thread_cpu_time()?;
    let found = found::<Brand>(image, 0, Blank::new(1));
    let nanos = each(rt, start, image.sample())?;
    ensure!(found == image.sample(), "rows are lost");
    Ok(nanos)
}

pub(crate) fn find_none(rt: &impl CpuClock, image: &Image) -> Result<u64> {
    let start = rt.thread_cpu_time()?;
    let found = found::<Brand>(image, image.count(), Blank::new(1));
    let nanos = each(rt, start, image.sample())?;
    ensure!(found == 0, "rows are made up");
    Ok(nanos)
}

pub(crate) fn by_page(rt: &impl CpuClock, image: &Image) -> Result<u64> {
    let first = image.g.first_data();
    let mut found = 0;
    let start = rt.thread_cpu_time()?;
    for k in 0..image.sample() {
        let page = first + image.number(k);
        if image.fact.by_page(&image.device, page).is_some() {
            found += 1;
        }
    }
    let nanos = each(rt, start, image.sample())?;
    ensure!(found == image.sample(), "rows are lost");
    Ok(nanos)
}

pub(crate) fn row_at(rt: &impl CpuClock, image: &Image) -> Result<u64> {
    let mut found = 0;
    let start = rt.thread_cpu_time()?;
    for k in 0..image.sample() {
        if image.fact.row_at(&image.device, image.slot(k)).is_some() {
            found += 1;
        }
    }
    let nanos = each(rt, start, image.sample())?;
    ensure!(found == image.sample(), "rows are lost");
    Ok(nanos)
}
END

cat >src/changes.rt <<'END'
// Rows come and go, their counts become others, and stale pointers are cleared.
use crate::each;
use crate::image::{Image, WHO, print_of};
use anyhow::{Result, ensure};
use fact_changes::stale::STALE_UNITS;
use fact_changes::{clear_stale, insert, remove_zero};
use fact_counts::{raise, recount, settle_down};
use fingerprint::CountWord;
use pm_device::Pm;
use std::time::CpuClock;

// Puts a row in for each page of the data area.
pub(crate) fn insert_all(rt: &impl CpuClock, image: &mut Image) -> Result<u64> {
    let first = image.g.first_data();
    let count = image.count();
    let start = rt.thread_cpu_time()?;
    for k in 0..count {
        let print = print_of(image.prints, k);
        let slot = insert(&mut image.fact, &mut image.device, WHO, &print, first + k)?;
        image.slots.push(slot)?;
    }
    each(rt, start, count)
}

// Whether the row that came first has these counts.
fn has_counts(image: &Image, rfc: u32, uc: u32) -> bool {
    match image.fact.row_at(&image.device, image.slot(0)) {
        Some(row) => row.count == CountWord { rfc, uc },
        None => false,
    }
}

// The rows have one reference before.
pub(crate) fn raise_some(rt: &impl CpuClock, image: &mut Image) -> Result<u64> {
    for k in 0..image.sample() {
        let slot = image.slot(k);
        recount(&image.fact, &mut image.device, WHO, slot, 1)?;
    }
    let start = rt.thread_cpu_time()?;
    for k in 0..image.sample() {
        let slot = image.slot(k);
        raise(&image.fact, &mut image.device, WHO, slot)?;
    }
    let nanos = each(rt, start, image.sample())?;
    ensure!(has_counts(image, 1, 1), "counts are wrong");
    Ok(nanos)
}

pub(crate) fn settle_some(rt: &impl CpuClock, image: &mut Image) -> Result<u64> {
    let start = rt.thread_cpu_time()?;
    for k in 0..image.sample() {
        let slot = image.slot(k);
        settle_down(&image.fact, &mut image.device, WHO, slot)?;
    }
    let nanos = each(rt, start, image.sample())?;
    ensure!(has_counts(image, 0, 0), "counts are wrong");
    Ok(nanos)
}

pub(crate) fn remove_some(rt: &impl CpuClock, image: &mut Image) -> Result<u64> {
    let start = rt.thread_cpu_time()?;
    for k in 0..image.sample() {
        let slot = image.slot(k);
        remove_zero(&mut image.fact, &mut image.device, WHO, slot)?;
    }
    let nanos = each(rt, start, image.sample())?;
    let first = image.fact.by_page(&image.device, image.g.first_data());
    ensure!(first.is_none(), "rows are left");
    Ok(nanos)
}

// The time for each page.
fn clear_pages(rt: &impl CpuClock, image: &mut Image) -> Result<u64> {
    image.device.ready(STALE_UNITS * image.g.pages)?;
    let start = rt.thread_cpu_time()?;
    clear_stale(&image.fact, &mut image.device, WHO)?;
    each(rt, start, image.g.pages)
}

// The pointer of the last page.
fn last_pointer(image: &Image) -> u64 {
    image.device.load(image.g.pointer_word(image.g.pages - 1))
}

pub(crate) fn clear_none(rt: &impl CpuClock, image: &mut Image) -> Result<u64> {
    let nanos = clear_pages(rt, image)?;
    ensure!(last_pointer(image) != 0, "pointers are lost");
    Ok(nanos)
}

pub(crate) fn clear_all(rt: &impl CpuClock, image: &mut Image) -> Result<u64> {
    ensure!(last_pointer(image) != 0, "no pointer is stale");
    let nanos = clear_pages(rt, image)?;
    ensure!(last_pointer(image) == 0, "stale pointers are left");
    Ok(nanos)
}
END

cat >src/empty.rt <<'END'
// Indirect slots are taken, as for new rows.
use crate::each;
use crate::image::Image;
use anyhow::{Result, ensure};
use std::time::CpuClock;

// How often the two slots are taken.
const TURNS: u64 = 1000;

// Takes all indirect slots.
pub(crate) fn take_in_order(rt: &impl CpuClock, image: &mut Image) -> Result<u64> {
    let mut count = 0;
    let start = rt.thread_cpu_time()?;
    while image.fact.take_slot().is_some() {
        count += 1;
    }
    let nanos = each(rt, start, image.g.pages)?;
    ensure!(count == image.g.pages, "slots are lost");
    Ok(nanos)
}

// The first and the last slot are given back and taken again, while all between them are taken.
pub(crate) fn take_far(rt: &impl CpuClock, image: &mut Image) -> Result<u64> {
    let first = image.g.directs();
    let last = image.g.slots() - 1;
    let start = rt.thread_cpu_time()?;
    for _ in 0..TURNS {
        image.fact.give_back_slot(last);
        image.fact.give_back_slot(first);
        let taken = (image.fact.take_slot(), image.fact.take_slot());
        ensure!(taken == (Some(first), Some(last)), "slots are out of order");
    }
    each(rt, start, TURNS)
}
END

run_bench 'n: the pages of the first image; ns: nanoseconds for each call' \
    'growth: the time at 4n over that at n; 1.00 does not grow with n, 4.00 is linear in n'
