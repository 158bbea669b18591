//! Image data of sound caches: any part may be missing, shared or on bytes of others.

use super::Maker;
use crate::generator::numbers;

/// Makes the bytes of a part; what it names is placed on the way.
type Make = fn(&mut Maker) -> Vec<u8>;

/// The parts placed so far, by kind.
#[derive(Default)]
pub struct Placed([Vec<usize>; 6]);

const IMAGE_DATA: (usize, Make) = (0, image_data);
const PIXELS: (usize, Make) = (1, pixels);
const META: (usize, Make) = (2, meta_data);
const RECTANGLE: (usize, Make) = (3, |maker| maker.noise(8));
const POINTS: (usize, Make) = (4, points);
const NAMES: (usize, Make) = (5, names);

impl Maker<'_> {
    /// The offset of an image's data, or 0.
    pub fn image_data(&mut self) -> u32 {
        self.part(IMAGE_DATA)
    }

    /// The offset of a part: none, one that is there, or a new one.
    fn part(&mut self, (kind, make): (usize, Make)) -> u32 {
        let choice = self.random.below(4);
        if choice == 0 {
            return 0;
        }
        if choice == 1 {
            if let Some(&part) = self.random.pick(&self.notes.0[kind]) {
                return part as u32;
            }
        }
        let bytes = make(self);
        let part = self.canvas.place(self.random, &bytes);
        self.notes.0[kind].push(part);
        part as u32
    }

    fn noise(&mut self, length: usize) -> Vec<u8> {
        (0..length).map(|_| self.random.next() as u8).collect()
    }

    /// Mostly few, and now and then none.
    fn entry_count(&mut self) -> usize {
        match self.random.below(10) {
            0 => 0,
            1 => self.random.below(8),
            _ => self.random.between(1, 3),
        }
    }
}

fn image_data(maker: &mut Maker) -> Vec<u8> {
    let fields = [maker.part(PIXELS), maker.part(META)];
    numbers(&fields)
}

fn pixels(maker: &mut Maker) -> Vec<u8> {
    let length = maker.random.below(12);
    let mut bytes = numbers(&[0, length as u32]);
    bytes.extend(maker.noise(length));
    bytes
}

fn meta_data(maker: &mut Maker) -> Vec<u8> {
    let fields = [RECTANGLE, POINTS, NAMES].map(|kind| maker.part(kind));
    numbers(&fields)
}

fn points(maker: &mut Maker) -> Vec<u8> {
    let count = maker.entry_count();
    let mut bytes = numbers(&[count as u32]);
    bytes.extend(maker.noise(4 * count));
    bytes
}

/// A language and a text for each name are like the names of icons.
fn names(maker: &mut Maker) -> Vec<u8> {
    let count = maker.entry_count();
    let mut fields = vec![count as u32];
    fields.extend((0..2 * count).map(|_| maker.name().0 as u32));
    numbers(&fields)
}
