//! Tables made from the cells, and the look at a second.
use super::calendar::{date_of, weekday};
use super::image::{cells, event_cell, event_counts, row_cell};
use super::summer::Rule;

#[derive(Clone, Copy, Default)]
struct Row {
    number: u8,
    months: u32,
    weekdays: u32,
    dates: u32,
    plan: u8,
    rank: (u32, u32, u32),
}

#[derive(Clone, Copy, Default)]
struct Event {
    number: u8,
    start: u32,
    tariff: u8,
}

#[derive(Clone, Copy, Default)]
struct Plan {
    events: [Event; 12],
    count: usize,
}

impl Plan {
    fn events(&self) -> &[Event] {
        &self.events[..self.count]
    }

    /// The latest of the events that start by a time of day; of equal starts the lowest number.
    fn latest(&self, time: u32) -> Option<&Event> {
        let mut best: Option<&Event> = None;
        for event in self.events().iter().filter(|e| e.start <= time) {
            if best.is_none_or(|b| event.start > b.start) {
                best = Some(event);
            }
        }
        best
    }
}

/// What an image says, decoded once for many looks.
pub struct Tables {
    offset: i64,
    summer: bool,
    rows: [Row; 32],
    row_count: usize,
    plans: [Plan; 17],
}

#[derive(Clone, Copy, PartialEq, Debug, Default)]
pub struct Look {
    pub local_time: i64,
    pub row: u8,
    pub plan: u8,
    pub event_plan: u8,
    pub event: u8,
    pub days_back: u8,
    pub tariff: u8,
    pub last_second: u32,
}

impl Tables {
    pub fn open(image: &[u8]) -> Tables {
        let cells = cells(image);
        let mut tables = Tables {
            offset: if cells[0] > 86_400 {
                0
            } else {
                i64::from(cells[0]) - 43_200
            },
            summer: cells[1] == 1,
            rows: [Row::default(); 32],
            row_count: 0,
            plans: [Plan::default(); 17],
        };
        for number in 1..=32 {
            let at = row_cell(number);
            let months = cells[at] & 8190;
            let weekdays = cells[at + 1] & 254;
            let dates = cells[at + 2] & 4_294_967_294;
            let plan = cells[at + 3];
            if months != 0 && weekdays != 0 && dates != 0 && (1..=16).contains(&plan) {
                tables.rows[tables.row_count] = Row {
                    number: number as u8,
                    months,
                    weekdays,
                    dates,
                    plan: plan as u8,
                    rank: (
                        months.count_ones(),
                        dates.count_ones(),
                        weekdays.count_ones(),
                    ),
                };
                tables.row_count += 1;
            }
        }
        for p in 1..=16 {
            let plan = &mut tables.plans[p];
            for e in 1..=12 {
                let at = event_cell(p, e);
                let (hour, minute, tariff) = (cells[at], cells[at + 1], cells[at + 2]);
                if event_counts(hour, minute, tariff) {
                    plan.events[plan.count] = Event {
                        number: e as u8,
                        start: 3_600 * hour + 60 * minute,
                        tariff: tariff as u8,
                    };
                    plan.count += 1;
                }
            }
        }
        tables
    }

    /// Row and plan of a day.
    fn row_on(&self, day: i32) -> (u8, u8) {
        let (_, month, date) = date_of(day).expect("every day that a look reaches has a date");
        let weekday = weekday(day);
        let mut best: Option<&Row> = None;
        for row in &self.rows[..self.row_count] {
            let fits = row.months >> month & row.weekdays >> weekday & row.dates >> date & 1 == 1;
            if fits && best.is_none_or(|b| row.rank < b.rank) {
                best = Some(row);
            }
        }
        best.map_or((0, 0), |row| (row.number, row.plan))
    }

    /// Local time.
    pub fn local(&self, rule: Rule, second: u32) -> i64 {
        let summer = self.summer && rule.in_force(self.offset, second);
        i64::from(second) + self.offset + if summer { 3_600 } else { 0 }
    }

    pub fn look(&self, rule: Rule, second: u32) -> Look {
        let local_time = self.local(rule, second);
        let day = local_time.div_euclid(86_400) as i32;
        let time = local_time.rem_euclid(86_400) as u32;
        let (row, plan) = self.row_on(day);
        let today = &self.plans[plan as usize];
        let mut look = Look {
            local_time,
            row,
            plan,
            ..Look::default()
        };
        if let Some(event) = today.latest(time) {
            look.event_plan = plan;
            look.event = event.number;
            look.tariff = event.tariff;
        } else {
            for back in 1..=7 {
                let (_, plan) = self.row_on(day - back);
                if let Some(event) = self.plans[plan as usize].latest(86_399) {
                    look.event_plan = plan;
                    look.event = event.number;
                    look.days_back = back as u8;
                    look.tariff = event.tariff;
                    break;
                }
            }
        }
        let mut next = u64::from(second) + u64::from(86_400 - time);
        for event in today.events().iter().filter(|e| e.start > time) {
            next = next.min(u64::from(second) + u64::from(event.start - time));
        }
        if self.summer {
            if let Some(change) = rule.next_change(self.offset, second) {
                next = next.min(u64::from(change));
            }
        }
        look.last_second = u32::try_from(next - 1).unwrap_or(u32::MAX);
        look
    }

    /// Whether a second is a boundary, word for word.
    pub fn is_boundary(&self, rule: Rule, second: u32) -> bool {
        let local = self.local(rule, second);
        let time = local.rem_euclid(86_400) as u32;
        let (_, plan) = self.row_on(local.div_euclid(86_400) as i32);
        time == 0
            || self.plans[plan as usize]
                .events()
                .iter()
                .any(|e| e.start == time)
            || self.summer
                && rule.in_force(self.offset, second) != rule.in_force(self.offset, second - 1)
    }
}
