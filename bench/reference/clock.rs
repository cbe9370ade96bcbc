//! Clocks by what they mean: a time, a span, and what their kind accepts.

#[derive(Clone, Copy)]
pub struct Clock {
    pub time: Option<u32>,
    pub span: u32,
    first: u32,
    last: u32,
    vouched: u32,
}

impl Clock {
    pub fn counter() -> Clock {
        Clock {
            time: None,
            span: 0,
            first: 0,
            last: u32::MAX,
            vouched: u32::MAX,
        }
    }

    pub fn chip() -> Clock {
        Clock {
            first: 946_684_800,
            last: 4_102_444_799,
            ..Clock::counter()
        }
    }

    /// The vouching layer over a clock without a time.
    pub fn vouching(self) -> Clock {
        Clock {
            vouched: 34_128_000,
            ..self
        }
    }

    pub fn pass(&mut self, n: u32) {
        let Some(time) = self.time else { return };
        if n <= self.span {
            self.time = Some(time + n);
            self.span -= n;
        } else {
            self.time = None;
            self.span = 0;
        }
    }

    pub fn set(&mut self, second: u32) -> bool {
        let taken = self.first <= second && second <= self.last;
        if taken {
            self.time = Some(second);
            self.span = (self.last - second).min(self.vouched);
        }
        taken
    }
}
