#!/bin/sh
# Times a whole volume, on images of three sizes:
#
#     sh benches/volume.sh [ROUNDS]
#
# Files are created and filled by writes of 16 pages, of which three in four are equal to other ones; then all work is
# drained, and the image is mounted again. Of ROUNDS trials (3 where none is given) the one that took least counts. The
# device is a list of words whose fences do nothing, so the times are those of the volume's own steps and of hashing.
. "$(dirname "$0")/common.sh"
begin_bench anyhow pm_layout pm_snapshot fingerprint sha1 dn_model recovery dn_volume dn_mount dn_core job_runs

cat >src/main.rt <<'END'
//! Times a whole volume.
#![tactic(auto)]

mod trials;
mod volume;

use anyhow::Result;
use std::time::{CpuClock, Duration};
use trials::rounds;
use volume::trial;

const NAMES: [&str; 4] = ["hash twice", "write", "drain", "mount"];

const SIZES: [u64; 3] = [1024, 2048, 4096];

// The nanoseconds of processor time for each of so many pages, since a reading of the clock.
pub(crate) fn each(rt: &impl CpuClock, start: Duration, pages: u64) -> Result<u64> {
    let spent = rt.thread_cpu_time()?.saturating_sub(start);
    Ok(spent.as_nanos() as u64 / pages)
}

// The least times of some trials.
fn least<R: CpuClock + AllocGlobal>(rt: &R, pages: u64, rounds: u64) -> Result<Vec<u64>> {
    let mut least = trial(rt, pages)?;
    for _ in 1..rounds {
        let times = trial(rt, pages)?;
        for k in 0..least.len() {
            least[k] = least[k].min(times[k]);
        }
    }
    Ok(least)
}

fn main(rt: HostRuntime) -> Result<()> {
    let rounds = rounds(&rt)?;
    let first = least(&rt, SIZES[0], rounds)?;
    let second = least(&rt, SIZES[1], rounds)?;
    let third = least(&rt, SIZES[2], rounds)?;
    println!(&rt; "{:<12} {:>8} {:>8} {:>8}", "ns a page", SIZES[0], SIZES[1], SIZES[2])?;
    for (k, name) in NAMES.iter().enumerate() {
        println!(&rt; "{:<12} {:>8} {:>8} {:>8}", *name, first[k], second[k], third[k])?;
    }
    Ok(())
}
END

cat >src/volume.rt <<'END'
// A volume that is filled, drained and mounted again.
use crate::each;
use anyhow::{Result, bail, ensure};
use dn_core::drain;
use dn_model::{ByteText, Op};
use dn_mount::mount::mount;
use dn_volume::Volume;
use fingerprint::{Fingerprint, Sha1Print};
use pm_layout::Geometry;
use pm_snapshot::SnapshotPm;
use recovery::format;
use std::alloc::Global;
use std::time::CpuClock;
use job_runs::run_script;

const INODES: u64 = 64;

// A file's pages, and the pages of a write.
const FILE: u64 = 256;
const WRITE: u64 = 16;

fn name(alloc: Global, k: u64) -> Result<ByteText> {
    let mut bytes = Vec::new(alloc);
    bytes.push(b'f')?;
    bytes.push(b'a' + (k / 16) as u8)?;
    bytes.push(b'a' + (k % 16) as u8)?;
    Ok(ByteText::of(bytes))
}

// The bytes of 16 pages from this one on: of four pages three are equal to many others.
fn text(alloc: Global, from: u64) -> Result<ByteText> {
    let mut bytes = Vec::new(alloc);
    for page in from..from + WRITE {
        let kind = if page % 4 == 0 { 1000 + page } else { page % 4 };
        for at in 0..4096u64 {
            let byte = if at < 8 { kind >> (8 * at) } else { at };
            bytes.push((byte % 256) as u8)?;
        }
    }
    Ok(ByteText::of(bytes))
}

fn script(alloc: Global, files: u64) -> Result<Vec<Op>> {
    let mut ops = Vec::new(alloc);
    for k in 0..files {
        ops.push(Op::Create { name: name(alloc, k)? })?;
        for j in 0..FILE / WRITE {
            ops.push(Op::Write {
                name: name(alloc, k)?,
                at: 4096 * WRITE * j,
                bytes: text(alloc, k * FILE + j * WRITE)?,
            })?;
        }
    }
    Ok(ops)
}

// Hashes so many pages twice.
fn hash<R: CpuClock + AllocGlobal>(rt: &R, pages: u64) -> Result<u64> {
    let text = text(rt.alloc(), 0)?;
    let start = rt.thread_cpu_time()?;
    let mut sum = 0u64;
    for k in 0..2 * pages {
        let at = 4096 * (k % WRITE) as usize;
        let print = Sha1Print.of(&text.bytes()[at..at + 4096]);
        sum = sum.wrapping_add(print[0] as u64);
    }
    let nanos = each(rt, start, pages)?;
    ensure!(sum != 1, "no sum");
    Ok(nanos)
}

fn open(alloc: Global, device: SnapshotPm) -> Result<Volume<SnapshotPm, Sha1Print>> {
    match mount(alloc, device, Sha1Print) {
        Ok(v) => Ok(v),
        Err(_) => bail!("not mounted"),
    }
}

// The times of one trial on an image of so many pages, a page each, in the order of their names.
pub(crate) fn trial<R: CpuClock + AllocGlobal>(rt: &R, pages: u64) -> Result<Vec<u64>> {
    let alloc = rt.alloc();
    let files = pages * 3 / 4 / FILE;
    let data = files * FILE;
    let g = Geometry::of(pages, INODES)?;
    let mut device = SnapshotPm::of_words(vec![in alloc; 0u64; 512 * pages as usize]?);
    format(&mut device, g)?;
    let mut v = open(alloc, device)?;
    let ops = script(alloc, files)?;
    let mut times = Vec::new(alloc);
    times.push(hash(rt, data)?)?;
    let start = rt.thread_cpu_time()?;
    run_script(alloc, &mut v, 1, &ops)?;
    times.push(each(rt, start, data)?)?;
    let start = rt.thread_cpu_time()?;
    drain(alloc, &mut v)?;
    times.push(each(rt, start, data)?)?;
    let device = v.into_device();
    let start = rt.thread_cpu_time()?;
    let v = open(alloc, device)?;
    times.push(each(rt, start, pages)?)?;
    ensure!(v.free_pages() > pages / 2, "pages aren't shared");
    Ok(times)
}
END
run_bench "ns a page of data: hashing two pages; writing; draining (hash, look up, share). mount: ns a page of the image."
