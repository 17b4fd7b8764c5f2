//! Damage to images. Each function takes a valid image and spoils it in one
//! way; most also bear images that are spoilt already.

// All kinds of damage have one type, also those that leave the length alone.
#![allow(clippy::ptr_arg)]

use std::ops::Range;

use crate::random;
use crate::task::lay_out;
use crate::Rng;

pub type Damage = fn(&mut Rng, &mut Vec<u16>);

/// Damage that only needs a directory after two numbers.
pub const COMMON: &[Damage] = &[
    flipped_bits,
    truncated,
    lengthened,
    a_few_words,
    wrong_numbers,
    offset_off_by_one,
    length_off_by_one,
    moved_boundary,
    wrapping_lengths,
    empty_part,
    word_more_or_less,
    random_word,
];

/// Damage that needs the lists of a task image.
pub const LISTS: &[Damage] = &[
    too_long,
    numbers_out_of_range,
    unsorted_list,
    atom_twice,
    literal_out_of_range,
    initial_list,
    count_off,
    count_off,
    count_past_the_end,
];

/// Any task image, damaged with the given chance in percent.
pub fn any_task_image(rng: &mut Rng, percent: usize) -> Vec<u16> {
    let mut image = random::any(rng).image();
    if rng.chance(percent) {
        task_image(rng, &mut image);
    }
    image
}

/// Damages a task image in one way, sometimes two.
pub fn task_image(rng: &mut Rng, image: &mut Vec<u16>) {
    let times = if rng.chance(15) { 2 } else { 1 };
    for _ in 0..times {
        let list = if rng.chance(40) { COMMON } else { LISTS };
        rng.pick(list)(rng, image);
    }
}

pub fn flipped_bits(rng: &mut Rng, image: &mut Vec<u16>) {
    for _ in 0..rng.between(1, 3) {
        if let Some(place) = rng.place(image.len()) {
            image[place] ^= 1 << rng.below(16);
        }
    }
}

pub fn random_word(rng: &mut Rng, image: &mut Vec<u16>) {
    if let Some(place) = rng.place(image.len()) {
        image[place] = special_word(rng);
    }
}

fn special_word(rng: &mut Rng) -> u16 {
    match rng.below(3) {
        0 => *rng.pick(&[0, 1, 2, 1024, 1025, 32767, 32768, 65534, 65535]),
        1 => rng.below(12) as u16,
        _ => rng.word(),
    }
}

pub fn truncated(rng: &mut Rng, image: &mut Vec<u16>) {
    let cut = match rng.below(2) {
        0 => rng.between(1, 4),
        _ => rng.below(image.len() + 1),
    };
    image.truncate(image.len().saturating_sub(cut));
}

pub fn lengthened(rng: &mut Rng, image: &mut Vec<u16>) {
    for _ in 0..rng.between(1, 3) {
        image.push(rng.below(4) as u16);
    }
}

pub fn a_few_words(rng: &mut Rng, image: &mut Vec<u16>) {
    image.truncate(rng.below(8));
}

/// More than 8,192 words: the image itself, or with its last part as long.
pub fn too_long(rng: &mut Rng, image: &mut Vec<u16>) {
    let length = 8192 + rng.between(1, 2);
    if let Some(mut parts) = parts(image).filter(|_| rng.chance(50)) {
        let more = length.saturating_sub(image.len());
        if let Some(last) = parts.last_mut() {
            last.extend(std::iter::repeat_n(0, more));
        }
        *image = lay_out(image[0], image[1], &parts);
    } else {
        image.resize(length, 0);
    }
}

/// Another number of atoms or operators.
pub fn wrong_numbers(rng: &mut Rng, image: &mut Vec<u16>) {
    if image.len() < 2 {
        return;
    }
    let word = &mut image[rng.below(2)];
    *word = match rng.below(3) {
        0 => word.wrapping_add(1),
        1 => word.wrapping_sub(1),
        _ => *rng.pick(&[0, 1024, 1025, 2048, 65535]),
    };
}

/// N or M just outside its bounds, or far.
pub fn numbers_out_of_range(rng: &mut Rng, image: &mut Vec<u16>) {
    if image.len() < 2 {
        return;
    }
    if rng.chance(50) {
        image[0] = *rng.pick(&[0, 1025, 32769, 65535]);
    } else {
        image[1] = *rng.pick(&[1025, 32768, 65534, 65535]);
    }
}

/// The place of the first word of a random pair of the directory.
fn random_pair(rng: &mut Rng, image: &[u16]) -> Option<usize> {
    let pairs = directory(image)?.len();
    rng.place(pairs).map(|pair| 2 + 2 * pair)
}

pub fn offset_off_by_one(rng: &mut Rng, image: &mut Vec<u16>) {
    if let Some(place) = random_pair(rng, image) {
        image[place] = off_by_one(rng, image[place]);
    }
}

pub fn length_off_by_one(rng: &mut Rng, image: &mut Vec<u16>) {
    if let Some(place) = random_pair(rng, image) {
        image[place + 1] = off_by_one(rng, image[place + 1]);
    }
}

pub fn off_by_one(rng: &mut Rng, word: u16) -> u16 {
    if rng.chance(50) {
        word.wrapping_add(1)
    } else {
        word.wrapping_sub(1)
    }
}

/// A word goes from one part to its neighbour; the directory stays right.
pub fn moved_boundary(rng: &mut Rng, image: &mut Vec<u16>) {
    let Some(mut parts) = parts(image) else {
        return;
    };
    let place = rng.below(parts.len() - 1);
    if rng.chance(50) {
        if let Some(word) = parts[place].pop() {
            parts[place + 1].insert(0, word);
        }
    } else if !parts[place + 1].is_empty() {
        let word = parts[place + 1].remove(0);
        parts[place].push(word);
    }
    *image = lay_out(image[0], image[1], &parts);
}

/// Two neighbouring lengths such that a sum kept in 16 bits would come out right.
pub fn wrapping_lengths(rng: &mut Rng, image: &mut Vec<u16>) {
    let Some(directory) = directory(image) else {
        return;
    };
    let pair = rng.below(directory.len() - 1);
    let offset = directory[pair].start;
    let end = directory[pair + 1].end;
    let wrapped = rng.below(offset);
    let place = 2 + 2 * pair;
    image[place + 1] = (65536 - offset + wrapped) as u16;
    image[place + 2] = wrapped as u16;
    image[place + 3] = (end - wrapped) as u16;
}

/// A part without a word; the directory stays right.
pub fn empty_part(rng: &mut Rng, image: &mut Vec<u16>) {
    edit_part(rng, image, |_, part| part.clear());
}

/// A part with a word more or less; the directory stays right.
pub fn word_more_or_less(rng: &mut Rng, image: &mut Vec<u16>) {
    edit_part(rng, image, |rng, part| {
        if rng.chance(50) {
            part.pop();
        } else {
            part.push(rng.below(3) as u16);
        }
    });
}

fn edit_part(rng: &mut Rng, image: &mut Vec<u16>, edit: fn(&mut Rng, &mut Vec<u16>)) {
    if let Some(mut parts) = parts(image) {
        let place = rng.below(parts.len());
        edit(rng, &mut parts[place]);
        *image = lay_out(image[0], image[1], &parts);
    }
}

/// Two neighbours of a list change places.
pub fn unsorted_list(rng: &mut Rng, image: &mut Vec<u16>) {
    if let Some(place) = neighbours(rng, image) {
        image.swap(place, place + 1);
    }
}

/// The second of two neighbours becomes the first or its complement.
pub fn atom_twice(rng: &mut Rng, image: &mut Vec<u16>) {
    if let Some(place) = neighbours(rng, image) {
        image[place + 1] = image[place] ^ rng.below(2) as u16;
        if rng.chance(50) {
            image.swap(place, place + 1);
        }
    }
}

/// The place of a word of a list that has another word after it.
fn neighbours(rng: &mut Rng, image: &[u16]) -> Option<usize> {
    let mut lists = layout(image).lists;
    lists.retain(|list| list.len() > 1);
    let list = lists.get(rng.place(lists.len())?)?;
    Some(list.start + rng.below(list.len() - 1))
}

/// A literal or an effect of `2N` or more, or an atom of `N` or more.
pub fn literal_out_of_range(rng: &mut Rng, image: &mut Vec<u16>) {
    let layout = layout(image);
    let mut places = layout.effects;
    places.extend(layout.lists.into_iter().flatten());
    if let Some(place) = rng.place(places.len()) {
        let bound = image[0].wrapping_mul(2);
        image[places[place]] = *rng.pick(&[bound, bound.wrapping_add(1), image[0], 65535]);
    }
}

/// Something wrong with the initial list.
pub fn initial_list(rng: &mut Rng, image: &mut Vec<u16>) {
    let Some(mut parts) = parts(image) else {
        return;
    };
    let atoms = image[0];
    let list = &mut parts[0];
    match rng.below(3) {
        0 => list.push(*rng.pick(&[atoms, 65535, 0])),
        1 => list.reverse(),
        _ => list.extend(list.last().copied()),
    }
    *image = lay_out(image[0], image[1], &parts);
}

/// A count that is one too high or too low.
pub fn count_off(rng: &mut Rng, image: &mut Vec<u16>) {
    let counts = layout(image).counts;
    if let Some(place) = rng.place(counts.len()) {
        image[counts[place]] = off_by_one(rng, image[counts[place]]);
    }
}

/// A count that runs past the end of its block or of the image.
pub fn count_past_the_end(rng: &mut Rng, image: &mut Vec<u16>) {
    let counts = layout(image).counts;
    if let Some(place) = rng.place(counts.len()) {
        let remaining = (image.len() - counts[place]) as u16;
        let more = rng.below(8) as u16;
        image[counts[place]] = *rng.pick(&[remaining, remaining + more, 32768, 65535 - more]);
    }
}

/// The parts of an image whose directory is right, as ranges. The number of
/// pairs is taken from the first offset.
fn directory(image: &[u16]) -> Option<Vec<Range<usize>>> {
    let start = usize::from(*image.get(2)?);
    let mut ranges = Vec::new();
    let mut end = start;
    for pair in image.get(2..start)?.chunks(2) {
        let &[offset, length] = pair else {
            return None;
        };
        let next = usize::from(offset) + usize::from(length);
        if usize::from(offset) != end || next > image.len() {
            return None;
        }
        ranges.push(end..next);
        end = next;
    }
    (ranges.len() > 1).then_some(ranges)
}

/// The parts of an image whose directory is right.
pub fn parts(image: &[u16]) -> Option<Vec<Vec<u16>>> {
    let ranges = directory(image)?.into_iter();
    Some(ranges.map(|range| image[range].to_vec()).collect())
}

/// The places of a task image's lists, counts and effects.
#[derive(Default)]
struct Layout {
    lists: Vec<Range<usize>>,
    counts: Vec<usize>,
    effects: Vec<usize>,
}

fn layout(image: &[u16]) -> Layout {
    let mut layout = Layout::default();
    let Some(ranges) = directory(image) else {
        return layout;
    };
    layout.lists.extend(ranges[..2].iter().cloned());
    for block in &ranges[2..] {
        // A damaged block is listed as far as it can be read.
        let _ = layout.add_block(image, block);
    }
    layout
}

impl Layout {
    fn add_block(&mut self, image: &[u16], block: &Range<usize>) -> Option<()> {
        let mut place = block.start;
        self.add_list(image, block, &mut place)?;
        let rows = *image[..block.end].get(place)?;
        self.counts.push(place);
        place += 1;
        for _ in 0..rows {
            if place < block.end {
                self.effects.push(place);
            }
            place += 1;
            self.add_list(image, block, &mut place)?;
        }
        Some(())
    }

    /// A counted list at `place`, which moves after it.
    fn add_list(&mut self, image: &[u16], block: &Range<usize>, place: &mut usize) -> Option<()> {
        let start = *place + 1;
        let end = start + usize::from(*image[..block.end].get(*place)?);
        if end > block.end {
            return None;
        }
        self.counts.push(*place);
        self.lists.push(start..end);
        *place = end;
        Some(())
    }
}
