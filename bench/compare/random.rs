//! Random numbers (splitmix64), and from them images, seconds, orders and lives.
use crate::library::Step;
use crate::reference::image::{Field, IMAGE, event_cell, field, put, row_cell};

pub struct Random(pub u64);

impl Random {
    pub fn next(&mut self) -> u64 {
        self.0 = self.0.wrapping_add(0x9e37_79b9_7f4a_7c15);
        let mut z = self.0;
        z = (z ^ z >> 30).wrapping_mul(0xbf58_476d_1ce4_e5b9);
        z = (z ^ z >> 27).wrapping_mul(0x94d0_49bb_1331_11eb);
        z ^ z >> 31
    }

    pub fn below(&mut self, n: u64) -> u64 {
        self.next() % n
    }

    pub fn pick<T: Copy>(&mut self, from: &[T]) -> T {
        from[self.below(from.len() as u64) as usize]
    }

    pub fn one_in(&mut self, n: u64) -> bool {
        self.below(n) == 0
    }

    /// Some of the bits of a mask: all, one, or each with even chances.
    fn mask(&mut self, all: u32, bits: u64) -> u32 {
        match self.below(4) {
            0 => all,
            1 => 2 << self.below(bits),
            2 => all & self.next() as u32,
            _ => all & !(2 << self.below(bits)),
        }
    }

    /// An image that keeps every rule of Check, mostly sparse.
    pub fn clean_image(&mut self) -> Vec<u8> {
        let mut image = vec![0; IMAGE];
        let zone = match self.below(4) {
            0 => self.pick(&[0, 43_200, 86_400]),
            1 => 900 * self.below(97) as u32,
            _ => self.below(86_401) as u32,
        };
        put(&mut image, 0, zone);
        put(&mut image, 1, u32::from(!self.one_in(4)));
        let plans = 1 + self.below(16) as usize;
        for plan in 1..=plans {
            let most = self.pick(&[3, 12]);
            let events = 1 + self.below(most) as usize;
            let mut minutes: Vec<u32> = Vec::new();
            for event in 1..=events {
                let minute = match self.below(6) {
                    0 => self.pick(&[0, 60, 119, 120, 180, 1_439]),
                    _ => self.below(1_440) as u32,
                };
                // Every event but the first may be left out, so that plans have gaps.
                if minutes.contains(&minute) || event > 1 && self.one_in(5) {
                    continue;
                }
                minutes.push(minute);
                let at = event_cell(plan, event);
                put(&mut image, at, minute / 60);
                put(&mut image, at + 1, minute % 60);
                put(&mut image, at + 2, 1 + self.below(255) as u32);
            }
        }
        let rows = self.below(33) as usize;
        for row in 1..=rows {
            if self.one_in(4) {
                continue;
            }
            let at = row_cell(row);
            put(&mut image, at, self.mask(8190, 12).max(2));
            put(&mut image, at + 1, self.mask(254, 7).max(2));
            put(&mut image, at + 2, self.mask(4_294_967_294, 31).max(2));
            put(&mut image, at + 3, 1 + self.below(plans as u64) as u32);
        }
        image
    }

    /// A clean image with few rows and few days, so that looks go back some days or find none.
    fn sparse_image(&mut self) -> Vec<u8> {
        let mut image = self.clean_image();
        for row in 1..=32 {
            let at = row_cell(row);
            if row > 3 {
                (0..4).for_each(|k| put(&mut image, at + k, 0));
            } else if self.one_in(2) {
                put(&mut image, at + 1, 2 << self.below(7));
            }
        }
        if self.one_in(2) {
            (130..706).for_each(|c| {
                if self.one_in(3) {
                    put(&mut image, c, 0)
                }
            });
        }
        image
    }

    pub fn image(&mut self) -> Vec<u8> {
        let mut image = match self.below(6) {
            0 => (0..IMAGE).map(|_| self.next() as u8).collect(),
            1 | 2 => self.sparse_image(),
            _ => self.clean_image(),
        };
        if self.one_in(3) {
            for _ in 0..1 + self.below(20) {
                let at = self.below(IMAGE as u64) as usize;
                image[at] = self.next() as u8;
            }
        }
        match self.below(8) {
            0 => image.truncate(self.below(838) as usize),
            1 => image.truncate(self.below(30) as usize),
            2 => image.extend((0..self.below(40)).map(|_| 0xA5)),
            _ => {}
        }
        image
    }

    pub fn second(&mut self) -> u32 {
        match self.below(10) {
            0 => self.below(200_000) as u32,
            1 => u32::MAX - self.below(200_000) as u32,
            2 => self.pick(&[0, 1, u32::MAX, u32::MAX - 1]),
            3 => (86_400 * self.below(49_711) + self.below(5)).saturating_sub(2) as u32,
            _ => self.next() as u32,
        }
    }

    /// A value for a cell, mostly in range.
    fn value(&mut self, cell: u32) -> u32 {
        if self.one_in(30) {
            return self.next() as u32;
        }
        let bits = if self.one_in(3) { 0 } else { 1 };
        match field(cell as usize) {
            Field::Zone => self.below(86_401) as u32,
            Field::Summer => self.below(2) as u32,
            Field::Months => bits * self.mask(8190, 12),
            Field::Weekdays => bits * self.mask(254, 7),
            Field::Dates => bits * self.mask(4_294_967_294, 31),
            Field::Plan => bits * self.below(17) as u32,
            Field::Hour => self.below(24) as u32,
            Field::Minute => self.below(60) as u32,
            Field::Tariff => self.below(256) as u32,
        }
    }

    pub fn cell(&mut self) -> u32 {
        match self.below(40) {
            0 => self.pick(&[706, 705, 707, 65_535]),
            1 => self.next() as u32 & 0xffff,
            2..=9 => self.below(2) as u32,
            10..=24 => 132 + 3 * self.below(192) as u32,
            _ => self.below(706) as u32,
        }
    }

    fn put_command(&mut self, order: &mut Vec<u8>, cell: u32, value: u32) {
        order.push(0x10);
        order.extend((cell as u16).to_be_bytes());
        order.extend(value.to_be_bytes());
    }

    pub fn order(&mut self) -> Vec<u8> {
        let mut order = vec![0x01];
        if self.one_in(40) {
            // About as many different cells as an edit takes, and perhaps one of them again.
            let first = 130 + self.below(500) as u32;
            for cell in first..first + 62 + self.below(5) as u32 {
                self.put_command(&mut order, cell, 1);
            }
            self.put_command(&mut order, first, 2);
        }
        let most = self.pick(&[1, 4, 12, 80]);
        for _ in 0..self.below(most) {
            match self.below(8) {
                0 => order.push(0x20),
                1 => {
                    // A whole row with a plan, or a whole event.
                    let at = row_cell(1 + self.below(32) as usize) as u32;
                    for k in 0..4 {
                        let value =
                            [8190, 254, 4_294_967_294, 1 + self.below(16) as u32][k as usize];
                        self.put_command(&mut order, at + k, value);
                    }
                }
                _ => {
                    let cell = self.cell();
                    let value = self.value(cell);
                    self.put_command(&mut order, cell, value);
                }
            }
        }
        if !self.one_in(5) {
            order.push(0x20);
        }
        order.push(if self.one_in(6) { 0x40 } else { 0x30 });
        if self.one_in(4) {
            self.damage(&mut order);
        }
        order
    }

    fn damage(&mut self, order: &mut Vec<u8>) {
        let at = self.below(order.len() as u64) as usize;
        match self.below(5) {
            0 => order.truncate(at),
            1 => order[at] = self.pick(&[0x01, 0x10, 0x20, 0x30, 0x40, 0x00, 0xff]),
            2 => order.insert(at, self.pick(&[0x01, 0x20, 0x30, 0x40, 0x7f])),
            3 => order.push(self.pick(&[0x01, 0x20, 0x30, 0x40, 0x00])),
            _ => {
                order.remove(at);
            }
        }
    }

    /// Some calls; the orders of its Runs lie in the bytes.
    pub fn life(&mut self) -> (Vec<Step>, Vec<u8>) {
        let mut orders = Vec::new();
        let steps = (0..4 + self.below(60))
            .map(|_| self.step(&mut orders))
            .collect();
        (steps, orders)
    }

    fn step(&mut self, orders: &mut Vec<u8>) -> Step {
        let call = self.pick(&[0, 0, 1, 2, 2, 3, 4, 4, 5, 5, 5, 5, 5, 6, 6, 7, 8, 9, 10]);
        let (first, second) = match call {
            1 => match self.below(4) {
                0 => (
                    self.pick(&[946_684_799, 946_684_800, 4_102_444_799, 4_102_444_800]),
                    0,
                ),
                _ => (self.second(), 0),
            },
            2 => match self.below(4) {
                0 => (
                    self.pick(&[0, 1, 34_127_999, 34_128_000, 34_128_001, u32::MAX]),
                    0,
                ),
                1 => (self.next() as u32, 0),
                _ => (self.below(20_000_000) as u32, 0),
            },
            3 => (self.cell(), 0),
            5 => {
                let cell = self.cell();
                (cell, self.value(cell))
            }
            10 => {
                let from = orders.len() as u32;
                orders.extend(self.order());
                (from, orders.len() as u32)
            }
            _ => (0, 0),
        };
        Step {
            call,
            first,
            second,
        }
    }
}
