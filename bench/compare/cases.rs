//! The comparison. The first difference ends it, with the input that shows it.
use crate::library::{self, Fields, Outcome, Step, Told};
use crate::random::Random;
use crate::reference::calendar;
use crate::reference::clock::Clock;
use crate::reference::engine::{Engine, Refusal};
use crate::reference::look::{Look, Tables};
use crate::reference::summer::Rule;
use std::collections::BTreeMap;

pub const RULES: [Rule; 3] = [Rule::Never, Rule::Europe, Rule::America];

pub fn fields(look: Look) -> Fields {
    Fields {
        local_time: look.local_time,
        last_second: look.last_second,
        row: look.row,
        plan: look.plan,
        event_plan: look.event_plan,
        event: look.event,
        days_back: look.days_back,
        tariff: look.tariff,
    }
}

pub fn outcome(place: usize, why: Refusal) -> Outcome {
    Outcome {
        place,
        cell: why.cell,
        refusal: why.number,
        rule: why.rule,
    }
}

fn same<T: PartialEq + std::fmt::Debug>(what: impl Fn() -> String, library: T, plain: T) {
    if library != plain {
        println!(
            "DIFFERENCE: {}\n  library {library:?}\n  plain   {plain:?}",
            what()
        );
        std::process::exit(1);
    }
}

pub fn compare(many: u64, seed: u64) -> u64 {
    let mut random = Random(seed);
    let mut all = 0;
    let mut say = |what: &str, n: u64| {
        println!("{n:>12} {what}");
        all += n;
    };
    say("looks of the image in docs/BY-HAND.md", by_hand());
    say(
        "days and dates, all from -40,000 to 60,000 and 1900 to 2200",
        dates(),
    );
    say(
        "answers of the rules and their next changes",
        rules(many, &mut random),
    );
    say(
        "looks, of images whole, cut and wild",
        looks(many, &mut random),
    );
    say(
        "seconds held to the definition of a boundary",
        boundaries(many / 100, &mut random),
    );
    say(
        "work orders, with every byte of the image after",
        orders(many * 10, &mut random),
    );
    say("calls in random lives", lives(many, &mut random));
    all
}

/// The image and the look that docs/BY-HAND.md works out, and two looks about the start of a summer.
fn by_hand() -> u64 {
    let mut image = vec![0; 837];
    image[..13].copy_from_slice(b"\x00\x00\xb6\xd0\x01\x1f\xfe\xfe\xff\xff\xff\xfe\x01");
    image[13..21].copy_from_slice(b"\x10\x00\xfe\x02\x00\x00\x00\x02");
    image[261..267].copy_from_slice(b"\x06\x00\x01\x16\x00\x02");
    image[297..300].copy_from_slice(b"\x00\x00\x03");
    let look = |local_time,
                [row, plan, event_plan, event, days_back, tariff]: [u8; 6],
                last_second| Fields {
        local_time,
        last_second,
        row,
        plan,
        event_plan,
        event,
        days_back,
        tariff,
    };
    let known = [
        (1735167600, look(1735171200, [1, 1, 2, 1, 1, 3], 1735189199)),
        (1711846799, look(1711850399, [1, 1, 1, 2, 1, 2], 1711846799)),
        (1711846800, look(1711854000, [1, 1, 1, 2, 1, 2], 1711857599)),
    ];
    for (second, look) in known {
        let plain = fields(Tables::open(&image).look(Rule::Europe, second));
        same(|| format!("by hand, plain, {second}"), plain, look);
        let library = library::look(&mut image, 1, second);
        same(|| format!("by hand, library, {second}"), library, look);
    }
    known.len() as u64
}

fn dates() -> u64 {
    let mut n = 0;
    for day in -40_000..60_000 {
        let got = library::date_of(day);
        let date = (got.refusal == 0).then_some((
            i32::from(got.year),
            i32::from(got.month),
            i32::from(got.day),
        ));
        same(|| format!("date of {day}"), date, calendar::date_of(day));
        same(
            || format!("refusal of {day}"),
            got.refusal,
            if date.is_none() { 11 } else { 0 },
        );
        n += 1;
    }
    for year in 1900..2200 {
        for month in 0..20 {
            for day in 0..40 {
                let plain = calendar::day_of(i32::from(year), i32::from(month), i32::from(day));
                same(
                    || format!("day of {year}-{month}-{day}"),
                    library::day_of(year, month, day),
                    plain,
                );
                n += 1;
            }
        }
    }
    n
}

fn rules(many: u64, random: &mut Random) -> u64 {
    let mut n = 0;
    for (k, rule) in RULES.into_iter().enumerate() {
        let k = k as u8;
        for _ in 0..many / 20 {
            let offset = match random.below(5) {
                0 => random.pick(&[
                    -43_201,
                    -43_200,
                    43_200,
                    43_201,
                    0,
                    i32::MIN,
                    i32::MAX,
                    -18_000,
                ]),
                1 => random.next() as i32,
                _ => random.below(86_401) as i32 - 43_200,
            };
            let mut second = random.second();
            // Each change from here on, with the seconds about it.
            for _ in 0..4 {
                let plain = rule.next_change(i64::from(offset), second);
                let what = || format!("{rule:?} at offset {offset}, second {second}");
                same(what, library::next_change(k, offset, second), plain);
                let Some(change) = plain else { break };
                for about in [change - 1, change, change.saturating_add(1), second] {
                    let plain = rule.in_force(i64::from(offset), about);
                    let what = || format!("{rule:?} at offset {offset}, second {about}");
                    same(what, library::in_force(k, offset, about), plain);
                    n += 1;
                }
                n += 1;
                second = change - u32::from(random.one_in(2));
            }
        }
    }
    n
}

fn looks(many: u64, random: &mut Random) -> u64 {
    let mut n = 0;
    let mut back = [0u64; 8];
    let mut no_event = 0;
    for _ in 0..many {
        let mut image = random.image();
        let before = image.clone();
        let tables = Tables::open(&image);
        let k = random.below(3) as u8;
        let rule = RULES[k as usize];
        let mut seconds = Vec::new();
        for _ in 0..12 {
            // A second, the last one of its look, and some of those after.
            let mut second = random.second();
            for _ in 0..4 {
                let last = tables.look(rule, second).last_second;
                seconds.extend([second, last]);
                match last.checked_add(1) {
                    Some(next) => second = next,
                    None => break,
                }
            }
        }
        let mut got = vec![Fields::default(); seconds.len()];
        same(
            || "count".into(),
            library::looks(&mut image, k, &seconds, &mut got),
            seconds.len(),
        );
        for (&second, &got) in seconds.iter().zip(&got) {
            let look = tables.look(rule, second);
            same(
                || format!("look at {second} under {rule:?} of {before:02x?}"),
                got,
                fields(look),
            );
            back[look.days_back as usize] += 1;
            no_event += u64::from(look.event == 0);
            n += 1;
        }
        // The exported single look opens the image itself.
        let second = random.pick(&seconds);
        let got = library::look(&mut image, k, second);
        same(
            || format!("whole look at {second}"),
            got,
            fields(tables.look(rule, second)),
        );
        same(|| "image after looks".into(), &image, &before);
        n += 1;
    }
    println!("             (days back 0 to 7: {back:?}; without an event: {no_event})");
    n
}

/// Every second after a look's own up to its last is no boundary, and the next one is.
fn boundaries(many: u64, random: &mut Random) -> u64 {
    let mut n = 0;
    for _ in 0..many {
        let mut image = random.image();
        let tables = Tables::open(&image);
        let k = 1 + random.below(2) as u8;
        let rule = RULES[k as usize];
        let mut second = random.second();
        if random.one_in(3) {
            let offset = i64::from(image.first().copied().unwrap_or(0)) * 100;
            second = rule
                .next_change(offset, second)
                .unwrap_or(second)
                .saturating_sub(random.below(90_000) as u32);
        }
        let last = library::look(&mut image, k, second).last_second;
        for inner in second + u32::from(second < last)..=last {
            if inner != second {
                same(
                    || format!("boundary at {inner} after {second}"),
                    tables.is_boundary(rule, inner),
                    false,
                );
                n += 1;
            }
        }
        if let Some(next) = last.checked_add(1) {
            same(
                || format!("boundary at {next} after {second}"),
                tables.is_boundary(rule, next),
                true,
            );
            n += 1;
        }
    }
    n
}

fn orders(many: u64, random: &mut Random) -> u64 {
    let mut answers: BTreeMap<(u8, u8), u64> = BTreeMap::new();
    let mut image = random.clean_image();
    for i in 0..many {
        if i % 8 == 0 {
            image = if random.one_in(2) {
                random.clean_image()
            } else {
                random.image()
            };
        }
        let order = random.order();
        let mut ours = image.clone();
        let got = library::run(&mut ours, &order);
        let mut engine = Engine::new(Clock::counter(), &mut image, Rule::Never);
        let plain = match engine.run(&order) {
            Ok(()) => Outcome::default(),
            Err((place, why)) => outcome(place, why),
        };
        same(|| format!("order {order:02x?}"), got, plain);
        same(|| format!("image after order {order:02x?}"), &ours, &image);
        *answers.entry((got.refusal, got.rule)).or_default() += 1;
    }
    println!("             (refusal, rule and how often: {answers:?})");
    many
}

fn lives(many: u64, random: &mut Random) -> u64 {
    let mut n = 0;
    let mut answers: BTreeMap<(u32, u8), u64> = BTreeMap::new();
    for _ in 0..many {
        let image = if random.one_in(2) {
            random.clean_image()
        } else {
            random.image()
        };
        let kind = random.below(4) as u8;
        let (steps, bytes) = random.life();
        let mut ours = image.clone();
        let mut got = vec![Told::default(); steps.len()];
        let count = library::life(&mut ours, kind, &steps, &bytes, &mut got);
        same(|| "count of a life".into(), count, steps.len());
        let mut theirs = image.clone();
        let mut engine = Engine::new(clock(kind), &mut theirs, Rule::Europe);
        for (i, step) in steps.iter().enumerate() {
            let plain = perform(&mut engine, step, &bytes);
            same(
                || format!("call {i} of {steps:?} on {image:02x?}"),
                got[i],
                plain,
            );
            *answers
                .entry((step.call, plain.outcome.refusal))
                .or_default() += 1;
        }
        same(|| format!("image after {steps:?}"), &ours, &theirs);
        n += count as u64;
    }
    println!("             (call, refusal and how often: {answers:?})");
    n
}

fn clock(kind: u8) -> Clock {
    match kind {
        1 => Clock::chip(),
        2 => Clock::chip().vouching(),
        3 => Clock::counter().vouching(),
        _ => Clock::counter(),
    }
}

fn perform(engine: &mut Engine, step: &Step, bytes: &[u8]) -> Told {
    let mut told = Told::default();
    let done = match step.call {
        0 => engine.look().map(|look| told.look = fields(look)),
        1 => engine.set(step.first),
        2 => {
            engine.clock.pass(step.first);
            Ok(())
        }
        3 => engine.get(step.first).map(|value| told.value = value),
        4 => engine.open(),
        5 => engine.put(step.first, step.second),
        6 => engine.check(),
        7 => engine.commit(),
        8 | 9 => engine.discard(),
        _ => {
            if let Err((place, why)) = engine.run(&bytes[step.first as usize..step.second as usize])
            {
                told.outcome = outcome(place, why);
            }
            Ok(())
        }
    };
    if let Err(why) = done {
        told.outcome = outcome(0, why);
    }
    told
}
