//! The times of the library and of the plain program: same input, same run, in turns; the best of several rounds each.
use crate::cases::{RULES, fields};
use crate::library::{self, Fields};
use crate::random::Random;
use crate::reference::clock::Clock;
use crate::reference::engine::Engine;
use crate::reference::image::{event_cell, put};
use crate::reference::look::Tables;
use crate::reference::summer::Rule;
use std::hint::black_box;
use std::time::Instant;

const ROUNDS: usize = 25;

/// The compiler must take a result as used.
fn keep<T>(result: T) {
    black_box(result);
}

/// Nanoseconds of each, for one of the `n` things that a call does.
fn race(what: &str, n: usize, mut library: impl FnMut(), mut plain: impl FnMut()) {
    let mut best = [f64::MAX; 2];
    for _ in 0..ROUNDS {
        let begun = Instant::now();
        library();
        let half = Instant::now();
        plain();
        let times = [half - begun, half.elapsed()];
        for (best, time) in best.iter_mut().zip(times) {
            *best = best.min(time.as_nanos() as f64 / n as f64);
        }
    }
    println!(
        "{what:<58} {:>9.1} {:>9.1} {:>7.2}",
        best[0],
        best[1],
        best[0] / best[1]
    );
}

pub fn measure(seed: u64) {
    let mut random = Random(seed ^ 0xbe7c);
    println!(
        "{:<58} {:>9} {:>9} {:>7}",
        "nanoseconds for one of each", "library", "plain", "ratio"
    );
    let mut images: Vec<Vec<u8>> = (0..64).map(|_| random.clean_image()).collect();
    let seconds: Vec<u32> = (0..20_000).map(|_| random.next() as u32).collect();
    let ordered: Vec<u32> = (0..20_000).map(|i| 1_700_000_000 + 60 * i).collect();
    let mut out = vec![Fields::default(); seconds.len()];
    let mut out_plain = out.clone();
    for (k, rule) in RULES.into_iter().enumerate() {
        for (kind, seconds) in [
            ("any seconds", &seconds),
            ("a second each minute", &ordered),
        ] {
            let image = &mut images[0].clone();
            let plain_image = image.clone();
            race(
                &format!("look, tables open, {rule:?}, {kind}"),
                seconds.len(),
                || keep(library::looks(image, k as u8, seconds, &mut out)),
                || {
                    let tables = Tables::open(black_box(&plain_image));
                    for (second, out) in seconds.iter().zip(&mut out_plain) {
                        *out = fields(tables.look(rule, *second));
                    }
                },
            );
            assert!(out == out_plain);
        }
    }
    let plain_images = images.clone();
    race(
        "image opened, no look",
        images.len(),
        || {
            images
                .iter_mut()
                .for_each(|image| keep(library::looks(image, 1, &[], &mut [])))
        },
        || {
            plain_images
                .iter()
                .for_each(|image| keep(Tables::open(image)))
        },
    );
    race(
        "image opened and one look, Europe",
        images.len(),
        || {
            images
                .iter_mut()
                .zip(&seconds)
                .for_each(|(image, s)| keep(library::look(image, 1, *s)))
        },
        || {
            plain_images
                .iter()
                .zip(&seconds)
                .for_each(|(image, s)| keep(Tables::open(image).look(Rule::Europe, *s)))
        },
    );
    for (what, puts) in [("1 Put", 1), ("16 Puts", 16), ("64 Puts", 64)] {
        orders(what, puts, &mut random);
    }
}

/// A clean image in which every event counts and starts in a minute of its own.
fn full_image(random: &mut Random) -> Vec<u8> {
    let mut image = random.clean_image();
    for plan in 1..=16 {
        for event in 1..=12 {
            let at = event_cell(plan, event);
            put(&mut image, at, 2 * (event as u32 - 1));
            put(&mut image, at + 1, plan as u32);
            put(&mut image, at + 2, 5);
        }
    }
    image
}

/// Orders of so many Puts with Check and Commit, each on a copy of a clean image.
fn orders(what: &str, puts: u16, random: &mut Random) {
    let mut order = vec![0x01];
    for k in 0..puts {
        // Tariffs of events 1 to 4 of the plans, in range and other than 0.
        let cell = 132 + 36 * (k % 16) + 3 * (k / 16);
        order.extend([0x10, (cell >> 8) as u8, cell as u8, 0, 0, 0, 7]);
    }
    order.extend([0x20, 0x30]);
    let images: Vec<Vec<u8>> = (0..64).map(|_| full_image(random)).collect();
    assert!(
        images
            .iter()
            .all(|image| library::run(&mut image.clone(), &order).refusal == 0)
    );
    let (mut ours, mut theirs) = (images.clone(), images.clone());
    race(
        &format!("whole order: {what}, Check, Commit"),
        images.len(),
        || {
            for (image, fresh) in ours.iter_mut().zip(&images) {
                image.copy_from_slice(fresh);
                black_box(library::run(image, &order));
            }
        },
        || {
            for (image, fresh) in theirs.iter_mut().zip(&images) {
                image.copy_from_slice(fresh);
                let mut engine = Engine::new(Clock::counter(), image, Rule::Never);
                black_box(engine.run(&order).is_ok());
            }
        },
    );
    assert!(ours == theirs);
}
