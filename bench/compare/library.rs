//! The proved library, as `rt lib` builds it in crates/exports. Nothing checks these declarations against its sources.

#[repr(C)]
#[derive(Clone, Copy, Default, PartialEq, Debug)]
pub struct Date {
    pub year: u16,
    pub month: u8,
    pub day: u8,
    pub refusal: u8,
}

#[repr(C)]
#[derive(Clone, Copy, Default, PartialEq, Debug)]
pub struct Fields {
    pub local_time: i64,
    pub last_second: u32,
    pub row: u8,
    pub plan: u8,
    pub event_plan: u8,
    pub event: u8,
    pub days_back: u8,
    pub tariff: u8,
}

#[repr(C)]
#[derive(Clone, Copy, Default, PartialEq, Debug)]
pub struct Outcome {
    pub place: usize,
    pub cell: u32,
    pub refusal: u8,
    pub rule: u8,
}

#[repr(C)]
#[derive(Clone, Copy, Default, PartialEq, Debug)]
pub struct Step {
    pub call: u32,
    pub first: u32,
    pub second: u32,
}

#[repr(C)]
#[derive(Clone, Copy, Default, PartialEq, Debug)]
pub struct Told {
    pub outcome: Outcome,
    pub value: u32,
    pub look: Fields,
}

unsafe extern "C" {
    fn jezgwilon_in_force(rule: u8, offset: i32, second: u32) -> bool;
    fn jezgwilon_next_change(rule: u8, offset: i32, second: u32) -> i64;
    fn jezgwilon_date_of(day: i32) -> Date;
    fn jezgwilon_day_of(year: u16, month: u8, day: u8) -> i32;
    fn jezgwilon_look(image: *mut u8, length: usize, rule: u8, second: u32) -> Fields;
    fn jezgwilon_looks(
        image: *mut u8,
        length: usize,
        rule: u8,
        seconds: *const u32,
        count: usize,
        looks: *mut Fields,
        places: usize,
    ) -> usize;
    fn jezgwilon_run(image: *mut u8, length: usize, order: *const u8, bytes: usize) -> Outcome;
    fn jezgwilon_life(
        image: *mut u8,
        length: usize,
        clock: u8,
        steps: *const Step,
        count: usize,
        orders: *const u8,
        bytes: usize,
        answers: *mut Told,
        places: usize,
    ) -> usize;
}

pub fn in_force(rule: u8, offset: i32, second: u32) -> bool {
    unsafe { jezgwilon_in_force(rule, offset, second) }
}

pub fn next_change(rule: u8, offset: i32, second: u32) -> Option<u32> {
    u32::try_from(unsafe { jezgwilon_next_change(rule, offset, second) }).ok()
}

pub fn date_of(day: i32) -> Date {
    unsafe { jezgwilon_date_of(day) }
}

/// The day, or None for what stands for no day.
pub fn day_of(year: u16, month: u8, day: u8) -> Option<i32> {
    let day = unsafe { jezgwilon_day_of(year, month, day) };
    (day != -1000).then_some(day)
}

pub fn look(image: &mut [u8], rule: u8, second: u32) -> Fields {
    unsafe { jezgwilon_look(image.as_mut_ptr(), image.len(), rule, second) }
}

pub fn looks(image: &mut [u8], rule: u8, seconds: &[u32], looks: &mut [Fields]) -> usize {
    unsafe {
        jezgwilon_looks(
            image.as_mut_ptr(),
            image.len(),
            rule,
            seconds.as_ptr(),
            seconds.len(),
            looks.as_mut_ptr(),
            looks.len(),
        )
    }
}

pub fn run(image: &mut [u8], order: &[u8]) -> Outcome {
    unsafe { jezgwilon_run(image.as_mut_ptr(), image.len(), order.as_ptr(), order.len()) }
}

pub fn life(
    image: &mut [u8],
    clock: u8,
    steps: &[Step],
    orders: &[u8],
    answers: &mut [Told],
) -> usize {
    unsafe {
        jezgwilon_life(
            image.as_mut_ptr(),
            image.len(),
            clock,
            steps.as_ptr(),
            steps.len(),
            orders.as_ptr(),
            orders.len(),
            answers.as_mut_ptr(),
            answers.len(),
        )
    }
}
