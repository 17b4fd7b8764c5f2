//! The directory that stands at the head of both kinds of image.

/// The number of words before the parts: two numbers and the pairs.
pub fn head_words(pairs: usize) -> usize {
    2 + 2 * pairs
}

/// Whether the image's `pairs` pairs (offset, length) divide all words after
/// the directory into parts that follow each other without a gap.
pub fn is_right(image: &[u16], pairs: usize) -> bool {
    let start = head_words(pairs);
    let Some(directory) = image.get(2..start) else {
        return false;
    };
    let end = directory.chunks_exact(2).try_fold(start, |end, pair| {
        (usize::from(pair[0]) == end).then(|| end + usize::from(pair[1]))
    });
    end == Some(image.len())
}

/// The part named by the pair with this number.
pub fn part(image: &[u16], number: usize) -> &[u16] {
    let offset = usize::from(image[2 + 2 * number]);
    let length = usize::from(image[3 + 2 * number]);
    &image[offset..offset + length]
}

/// Takes a count and then `count * width` words from the front.
pub fn split_counted(words: &[u16], width: usize) -> Option<(&[u16], &[u16])> {
    let (&count, rest) = words.split_first()?;
    rest.split_at_checked(usize::from(count) * width)
}

/// Writes an image part after part into words of its exact length.
pub struct Writer<'a> {
    image: &'a mut [u16],
    /// The place of the next pair.
    pair: usize,
    /// Where the part being written starts.
    start: usize,
    /// The place of the next word.
    place: usize,
}

impl Writer<'_> {
    /// Begins an image with its two numbers; so many parts follow.
    pub fn new(image: &mut [u16], numbers: [usize; 2], parts: usize) -> Writer<'_> {
        image[..2].copy_from_slice(&numbers.map(|number| number as u16));
        let start = head_words(parts);
        Writer {
            image,
            pair: 2,
            start,
            place: start,
        }
    }

    pub fn word(&mut self, word: u16) {
        self.image[self.place] = word;
        self.place += 1;
    }

    /// A list of words with so much added to each.
    pub fn list(&mut self, words: &[u16], shift: u16) {
        let end = self.place + words.len();
        for (place, word) in self.image[self.place..end].iter_mut().zip(words) {
            *place = word + shift;
        }
        self.place = end;
    }

    /// Ends the part being written and enters its pair; the next word begins another.
    pub fn end_part(&mut self) {
        self.image[self.pair] = self.start as u16;
        self.image[self.pair + 1] = (self.place - self.start) as u16;
        self.pair += 2;
        self.start = self.place;
    }
}
