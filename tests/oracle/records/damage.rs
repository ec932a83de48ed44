//! Records at random: some that are whole, and some that were and then were damaged.

use crate::oracle::{encode, fitting};
use crate::signal::{noise, speech, Random};
use std::array;

/// Makes one record after another.
pub struct Records {
    random: Random,
}

impl Records {
    pub fn new(seed: u64) -> Records {
        let random = Random::new(seed);
        Records { random }
    }

    pub fn next(&mut self) -> Vec<u8> {
        let mut record = self.whole();
        // a third stays whole, and some are damaged twice
        for _ in 0..self.below(3) {
            self.damage(&mut record);
        }
        record
    }

    /// Well formed, of one to eight channels, and of a length that is taken.
    fn whole(&mut self) -> Vec<u8> {
        let channels = 1 + self.below(8);
        // of one channel a group may be cut short anywhere
        let least = 4 * channels;
        let step = if channels == 1 { 1 } else { least };
        // the smallest and the largest come now and then
        let most = [1, 16, 64, 600, 4_096][self.below(5)].max(least);
        let len = match self.below(8) {
            0 => 4_096 / step * step,
            _ => least + self.below((most - least) / step + 1) * step,
        };
        let block = match self.below(5) {
            0 => self.bytes(len),
            1 => self.sound(channels, len),
            2 => self.clipped(channels, len),
            3 => self.encoded(channels as u8, len, speech),
            _ => self.encoded(channels as u8, len, noise),
        };
        record(channels as u8, &block)
    }

    /// Bytes at random, with few indices above 88.
    fn sound(&mut self, channels: usize, len: usize) -> Vec<u8> {
        let mut block = self.bytes(len);
        for header in block.chunks_exact_mut(4).take(channels) {
            header[2] = self.index();
        }
        block
    }

    /// At an end of the scale to begin with, with the largest nibbles among others.
    fn clipped(&mut self, channels: usize, len: usize) -> Vec<u8> {
        let mut block = self.bytes(len);
        let (headers, body) = block.split_at_mut(4 * channels);
        for byte in body {
            *byte = [0x77, 0xff, 0x7f, 0xf7, *byte, 0x00][self.below(6)];
        }
        for header in headers.chunks_exact_mut(4) {
            let [low, high] = [[0xff, 0x7f], [0x00, 0x80], [0xc0, 0x7f]][self.below(3)];
            header.copy_from_slice(&[low, high, self.index(), 0]);
        }
        block
    }

    /// Of 0 to 88, and seldom a little above.
    fn index(&mut self) -> u8 {
        self.below(91) as u8
    }

    fn encoded(&mut self, channels: u8, len: usize, of: fn(u64, usize) -> Vec<i16>) -> Vec<u8> {
        let samples = of(self.number().into(), fitting(channels, len));
        let mut states = array::from_fn(|_| (0, self.index()));
        let mut block = vec![0; len];
        assert_eq!(encode(channels, &samples, &mut states, &mut block), 0);
        block
    }

    fn damage(&mut self, record: &mut Vec<u8>) {
        let byte = self.number() as u8;
        let place = self.below(record.len().max(1));
        match self.below(9) {
            // one bit of any byte, or of the first ones
            0 => flip(record, place, byte),
            1 => flip(record, place % 8, byte),
            2 => record.truncate(place),
            3 => _ = record.pop(),
            4 => record.push(byte),
            5 => {
                let most = [8, 5_000, 70_000][self.below(3)];
                let more = self.below(most);
                record.extend(self.bytes(more));
            }
            // the length field, one off either way
            6 => set(record, 1, |low| {
                low.wrapping_add(byte % 2 * 2).wrapping_sub(1)
            }),
            7 => set(record, 2 + place % 2, |_| byte % 12),
            // another length of the block, that the field tells of
            _ => {
                record.truncate(place.max(4));
                if let [high, low, rest @ ..] = &mut record[..] {
                    [*high, *low] = (rest.len() as u16).to_be_bytes();
                }
            }
        }
    }

    fn bytes(&mut self, len: usize) -> Vec<u8> {
        (0..len).map(|_| self.number() as u8).collect()
    }

    fn below(&mut self, most: usize) -> usize {
        self.number() as usize % most
    }

    /// The upper bits alone, in which there is less of an order.
    fn number(&mut self) -> u32 {
        self.random.next().expect("there is always another") >> 8
    }
}

pub fn record(channels: u8, block: &[u8]) -> Vec<u8> {
    let [high, low] = (block.len() as u16 + 2).to_be_bytes();
    [&[high, low, 1, channels], block].concat()
}

fn flip(record: &mut [u8], place: usize, byte: u8) {
    set(record, place, |old| old ^ 1 << (byte % 8));
}

/// Nothing, where there is no such place.
fn set(record: &mut [u8], place: usize, with: impl Fn(u8) -> u8) {
    if let Some(byte) = record.get_mut(place) {
        *byte = with(*byte);
    }
}
