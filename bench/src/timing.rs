//! Times both sides on the same input, turn and turn about in one run. A time is the least of many
//! batches, each short, so that some are left alone by all else that the machine does. Both sides
//! clear what they need of the store before a search and all of it after; a run includes the loading
//! of the dump.

use crate::compare::{plain_advance, plain_run};
use crate::device::word;
use crate::orders::SM;
use crate::proved::Proved;
use crate::random::{self, Random};
use crate::validator::{validate, Verdict, STORE};
use std::hint::black_box;
use std::time::{Duration, Instant};

const ROUNDS: usize = 300;
const BATCH: Duration = Duration::from_micros(300);
const STEPS: usize = 40_000;

/// The least time of one call, in ns, for the plain side and the proved one.
fn race(mut plain: impl FnMut(), mut proved: Option<impl FnMut()>) -> (f64, Option<f64>) {
    let calls = calls_in_a_batch(&mut plain);
    let (mut best_plain, mut best_proved) = (f64::INFINITY, f64::INFINITY);
    for _ in 0..ROUNDS {
        best_plain = best_plain.min(batch(&mut plain, calls));
        if let Some(proved) = &mut proved {
            best_proved = best_proved.min(batch(proved, calls));
        }
    }
    (best_plain, proved.map(|_| best_proved))
}

fn calls_in_a_batch(call: &mut impl FnMut()) -> u32 {
    let mut calls = 1;
    loop {
        let start = Instant::now();
        (0..calls).for_each(|_| call());
        if start.elapsed() >= BATCH {
            return calls;
        }
        calls *= 2;
    }
}

fn batch(call: &mut impl FnMut(), calls: u32) -> f64 {
    let start = Instant::now();
    (0..calls).for_each(|_| call());
    start.elapsed().as_nanos() as f64 / f64::from(calls)
}

/// Prints a line and gives its ratio, 0 without the proved side.
fn line(name: &str, count: usize, (plain, proved): (f64, Option<f64>)) -> f64 {
    let each = |ns: f64| ns / count as f64;
    match proved {
        Some(proved) => println!(
            "{name:<34}{count:>8}{plain:>12.0}{proved:>12.0}{:>10.2}{:>10.2}{:>8.2}",
            each(plain),
            each(proved),
            proved / plain
        ),
        None => println!("{name:<34}{count:>8}{plain:>12.0}{:>12}{:>10.2}{:>10}{:>8}", "-", each(plain), "-", "-"),
    }
    proved.map_or(0.0, |proved| proved / plain)
}

fn heading(what: &str, each: &str) {
    println!(
        "\n{what:<34}{:>8}{:>12}{:>12}{:>10}{:>10}{:>8}",
        each, "plain ns", "proved ns", "plain", "proved", "ratio"
    );
    println!("{:<34}{:>8}{:>12}{:>12}{:>10}{:>10}", "", "", "a call", "a call", "ns each", "ns each");
}

pub fn all(proved: Option<&Proved>) {
    if let Some(machine) = machine() {
        println!("\nmachine: {machine}");
    }
    let (validation, advance, run) = (validations(proved), advances(proved), runs(proved));
    if proved.is_some() {
        println!(
            "\nlargest ratio: {validation:.2} for a validated image, {advance:.2} for advancing, {run:.2} with the list"
        );
    }
}

fn machine() -> Option<String> {
    let cpu = std::fs::read_to_string("/proc/cpuinfo").ok()?;
    let name = cpu.lines().find(|line| line.starts_with("model name"))?;
    Some(name.split_once(':')?.1.trim().to_owned())
}

/// A program that fills the buffer: one order, data up to the end, a transfer to the start.
fn filled(size: usize, code: u8, data: &[u8]) -> Vec<u8> {
    let mut image = vec![SM, code];
    image.extend(data.iter().cycle().take((size - 6) / 4 * 4));
    image.extend([SM, 0xFF, 0, 0]);
    image
}

fn vectors(size: usize) -> Vec<u8> {
    filled(
        size,
        0x02,
        &[0x03, 0x20, 0x03, 0x20, 0x09, 0x60, 0x03, 0x20, 0x49, 0x60, 0x09, 0x60, 0x03, 0x20, 0x09, 0x60],
    )
}

fn increments(size: usize) -> Vec<u8> {
    filled(size, 0x05, &[0x29, 0xB0, 0xD9, 0x50, 0x7F, 0x01, 0x83, 0xFE])
}

fn text(size: usize) -> Vec<u8> {
    filled(size, 0x40, &[0xC2, 0xD6, 0xE7, 0x40, 0xD5, 0xC1, 0xD4, 0xC5, 0x40, 0x00, 0xC1, 0x15])
}

fn validations(proved: Option<&Proved>) -> f64 {
    let mut random = Random::new(7);
    let shapes: Vec<(&str, u32, Vec<Vec<u8>>)> = vec![
        ("line of idle words, 4096", 4096, vec![vec![0; 4096]]),
        ("line of idle words, 8192", 8192, vec![vec![0; 8192]]),
        ("vectors, 8192", 8192, vec![vectors(8192)]),
        ("increments, 8192", 8192, vec![increments(8192)]),
        ("text, 8192", 8192, vec![text(8192)]),
        ("dense transfers, 8192", 8192, vec![random::dense_transfers(&mut random, 2048, 8192)]),
        ("mixed programs, up to 8192", 8192, (0..64).map(|_| random::program(&mut random, 8000, 8192)).collect()),
        ("tiny images", 4096, vec![vec![SM, 0xFF, 0, 0], vec![], vec![0; 6], vec![SM, 0x02, 0, 0, SM, 0x81]]),
    ];
    heading("validated image", "places");
    let mut largest = 0.0f64;
    for (name, size, images) in shapes {
        let (mut plain_store, mut proved_store) = (vec![0; STORE], vec![0; STORE]);
        let places: usize = images.iter().map(|image| places(validate(image, size, 0, &mut plain_store))).sum();
        let mut turn = 0;
        let plain = || {
            turn = (turn + 1) % images.len();
            black_box(validate(black_box(&images[turn]), size, 0, &mut plain_store));
        };
        let mut other_turn = 0;
        let proved = proved.map(|proved| {
            let (images, proved_store) = (&images, &mut proved_store);
            move || {
                other_turn = (other_turn + 1) % images.len();
                black_box(proved.validate(black_box(&images[other_turn]), size, 0, proved_store));
            }
        });
        largest = largest.max(line(name, (places / images.len()).max(1), race(plain, proved)));
    }
    largest
}

/// The places that a validation goes through; of a fault only the steps are known.
fn places(verdict: Verdict) -> usize {
    match verdict {
        Verdict::Passed { places } => places as usize,
        Verdict::Fault { after, .. } => after as usize + 1,
        Verdict::Refused(_) => 0,
    }
}

/// A program to be run, by name: its size and the dump of the unit that it is loaded into.
fn programs() -> Vec<(&'static str, u32, Vec<u16>)> {
    let mut random = Random::new(8);
    let images: Vec<(&str, u32, Vec<u8>)> = vec![
        ("line of idle words, 8192", 8192, vec![0; 8192]),
        ("vectors, 8192", 8192, vectors(8192)),
        ("increments, 8192", 8192, increments(8192)),
        ("text, 8192", 8192, text(8192)),
        ("dense transfers, 8192", 8192, random::dense_transfers(&mut random, 2048, 8192)),
        ("one transfer to itself", 4096, vec![SM, 0xFF, 0, 0]),
    ];
    let word_at = |image: &[u8], i: usize| image.get(i).map_or(word::FRESH, |&byte| word::stored(byte, false, true));
    images
        .into_iter()
        .map(|(name, size, image)| (name, size, (0..size as usize).map(|i| word_at(&image, i)).collect()))
        .collect()
}

fn advances(proved: Option<&Proved>) -> f64 {
    heading("advancing a loaded unit", "steps");
    let mut largest = 0.0f64;
    for (name, size, dump) in programs() {
        let sights = vec![0; STEPS];
        let advanced = plain_advance(&dump, size, 0, false, &sights).expect("not refused").advanced;
        assert_eq!(advanced.steps, STEPS, "{name} stops early");
        let plain = || {
            black_box(plain_advance(black_box(&dump), size, 0, false, &sights)).expect("not refused");
        };
        let proved = proved.map(|proved| {
            let (dump, sights) = (&dump, &sights);
            move || {
                black_box(proved.advance(black_box(dump), size, 0, false, sights)).expect("not refused");
            }
        });
        largest = largest.max(line(name, advanced.steps, race(plain, proved)));
    }
    largest
}

fn runs(proved: Option<&Proved>) -> f64 {
    heading("the same with the list", "steps");
    let mut largest = 0.0f64;
    for (name, size, dump) in programs() {
        let sights = vec![0; STEPS];
        let (mut plain_list, mut proved_list) = (vec![[0; 8]; 4 * STEPS], vec![[0; 8]; 4 * STEPS]);
        let ran = plain_run(&dump, size, 0, false, &sights, &mut plain_list).expect("not refused");
        assert_eq!(ran.steps, STEPS, "{name} stops early");
        let plain = || {
            black_box(plain_run(black_box(&dump), size, 0, false, &sights, &mut plain_list)).expect("not refused");
        };
        let proved = proved.map(|proved| {
            let (dump, sights, proved_list) = (&dump, &sights, &mut proved_list);
            move || {
                black_box(proved.run(black_box(dump), size, 0, false, sights, proved_list)).expect("not refused");
            }
        });
        largest = largest.max(line(name, ran.steps, race(plain, proved)));
    }
    largest
}
