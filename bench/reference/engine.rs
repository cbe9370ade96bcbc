//! A meter: a clock, an image, a rule, and the edit that stands open.
use super::check::fault;
use super::clock::Clock;
use super::image;
use super::look::{Look, Tables};
use super::order::{Command, commands};
use super::summer::Rule;

/// A refusal by its number, with 8 the rule and the cell.
#[derive(Clone, Copy, PartialEq, Debug, Default)]
pub struct Refusal {
    pub number: u8,
    pub rule: u8,
    pub cell: u32,
}

fn refuse(number: u8) -> Refusal {
    Refusal {
        number,
        rule: 0,
        cell: 0,
    }
}

struct Edit {
    values: Vec<(u32, u32)>,
    checked: bool,
}

pub struct Engine<'a> {
    pub clock: Clock,
    pub image: &'a mut [u8],
    rule: Rule,
    edit: Option<Edit>,
}

impl<'a> Engine<'a> {
    pub fn new(clock: Clock, image: &'a mut [u8], rule: Rule) -> Engine<'a> {
        Engine {
            clock,
            image,
            rule,
            edit: None,
        }
    }

    pub fn look(&self) -> Result<Look, Refusal> {
        let second = self.clock.time.ok_or(refuse(1))?;
        Ok(Tables::open(self.image).look(self.rule, second))
    }

    pub fn set(&mut self, second: u32) -> Result<(), Refusal> {
        if self.clock.set(second) {
            Ok(())
        } else {
            Err(refuse(2))
        }
    }

    fn has(&self, cell: u32) -> bool {
        (cell as usize) < image::size(self.image.len())
    }

    pub fn get(&self, cell: u32) -> Result<u32, Refusal> {
        if self.has(cell) {
            Ok(image::get(self.image, cell as usize))
        } else {
            Err(refuse(3))
        }
    }

    pub fn open(&mut self) -> Result<(), Refusal> {
        if self.edit.is_some() {
            return Err(refuse(5));
        }
        self.edit = Some(Edit {
            values: Vec::new(),
            checked: false,
        });
        Ok(())
    }

    pub fn put(&mut self, cell: u32, value: u32) -> Result<(), Refusal> {
        let has = self.has(cell);
        let edit = self.edit.as_mut().ok_or(refuse(6))?;
        if !has {
            return Err(refuse(3));
        }
        if !image::in_range(cell as usize, value) {
            return Err(refuse(4));
        }
        match edit.values.iter().position(|&(c, _)| c == cell) {
            Some(at) => edit.values[at].1 = value,
            None if edit.values.len() == 64 => return Err(refuse(7)),
            None => edit.values.push((cell, value)),
        }
        edit.checked = false;
        Ok(())
    }

    pub fn check(&mut self) -> Result<(), Refusal> {
        let edit = self.edit.as_mut().ok_or(refuse(6))?;
        let mut cells = image::cells(self.image);
        for &(cell, value) in &edit.values {
            cells[cell as usize] = value;
        }
        if let Some((rule, cell)) = fault(&cells) {
            return Err(Refusal {
                number: 8,
                rule,
                cell,
            });
        }
        edit.checked = true;
        Ok(())
    }

    pub fn commit(&mut self) -> Result<(), Refusal> {
        let edit = self.edit.take().ok_or(refuse(6))?;
        if !edit.checked {
            return Err(refuse(9));
        }
        for (cell, value) in edit.values {
            image::put(self.image, cell as usize, value);
        }
        Ok(())
    }

    pub fn discard(&mut self) -> Result<(), Refusal> {
        self.edit.take().map(|_| ()).ok_or(refuse(6))
    }

    pub fn run(&mut self, order: &[u8]) -> Result<(), (usize, Refusal)> {
        let commands = commands(order).map_err(|place| (place, refuse(10)))?;
        for (place, command) in commands {
            let answer = match command {
                Command::Open => self.open(),
                Command::Put(cell, value) => self.put(cell, value),
                Command::Check => self.check(),
                Command::Commit => self.commit(),
                Command::Discard => self.discard(),
            };
            if let Err(why) = answer {
                if command != Command::Open {
                    self.edit = None;
                }
                return Err((place, why));
            }
        }
        Ok(())
    }
}
