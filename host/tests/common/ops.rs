// Saves and deletes by the crate, by a side or not, and the same by the words of the requests.
use super::by_words;
use super::to_save::a_name;
use super::Dice;
use dos33::{DiskMut, Refusal, Side};

pub fn number(answer: Result<(), Refusal>) -> u8 {
    answer.err().map_or(0, Refusal::number)
}

pub fn save(d: &mut [u8], name: &[u8], address: u16, data: &[u8]) -> u8 {
    number(DiskMut::flat(d).save(name, address, data))
}

pub fn delete(d: &mut [u8], name: &[u8]) -> u8 {
    number(DiskMut::flat(d).delete(name))
}

#[derive(Clone, Debug)]
pub enum Op {
    Save(Vec<u8>, u16, Vec<u8>),
    Delete(Vec<u8>),
}

impl Op {
    pub fn name(&self) -> &[u8] {
        match self {
            Op::Save(name, _, _) | Op::Delete(name) => name,
        }
    }

    pub fn on(&self, d: &mut [u8]) -> u8 {
        match self {
            Op::Save(name, address, data) => save(d, name, *address, data),
            Op::Delete(name) => delete(d, name),
        }
    }

    pub fn by_words(&self, d: &mut Vec<u8>) -> u8 {
        match self {
            Op::Save(name, address, data) => by_words::save(d, name, *address, data),
            Op::Delete(name) => by_words::delete(d, name),
        }
    }

    /// By a side, with a limit.
    pub fn on_for(&self, d: &mut [u8], side: Side, limit: u64) -> u8 {
        let mut disk = DiskMut::flat(d);
        number(match self {
            Op::Save(name, address, data) => disk.save_for(side, limit, name, *address, data),
            Op::Delete(name) => disk.delete_for(side, limit, name),
        })
    }

    pub fn by_words_for(&self, d: &mut Vec<u8>, side: Side, limit: u64) -> u8 {
        let survey = side == Side::Survey;
        match self {
            Op::Save(name, address, data) => {
                by_words::save_for(d, survey, limit, name, *address, data)
            }
            Op::Delete(name) => by_words::delete_for(d, survey, name),
        }
    }
}

fn some_data(dice: &mut Dice) -> Vec<u8> {
    let size = match dice.roll(12) {
        0 => 0,
        1 => 252,
        2 => 253,
        3 => [31_228, 31_229][dice.roll(2)],
        4 => [32_767, 32_768][dice.roll(2)],
        5 => [32_769, 32_770, 70_000][dice.roll(3)],
        6 => dice.roll(32_768),
        7 | 8 => dice.roll(4000),
        _ => dice.roll(300),
    };
    let (a, b) = (dice.roll(256) as u8, dice.roll(256) as u8);
    let part: Vec<u8> = (0..=255).map(|k: u8| k.wrapping_mul(a) ^ b).collect();
    part.iter().copied().cycle().take(size).collect()
}

/// A save or a delete by that name.
pub fn an_op_of(name: Vec<u8>, dice: &mut Dice) -> Op {
    if dice.roll(5) < 2 {
        return Op::Delete(name);
    }
    Op::Save(name, dice.roll(65_536) as u16, some_data(dice))
}

pub fn an_op(dice: &mut Dice) -> Op {
    let name = a_name(dice);
    an_op_of(name, dice)
}
