//! Tasks as lists, and the images made of them.

/// A task before it is laid out as an image; nothing here is checked.
#[derive(Clone, PartialEq, Eq, Debug, Default)]
pub struct TaskSpec {
    pub atoms: u16,
    pub initial: Vec<u16>,
    pub goal: Vec<u16>,
    pub operators: Vec<OperatorSpec>,
}

#[derive(Clone, PartialEq, Eq, Debug, Default)]
pub struct OperatorSpec {
    pub precondition: Vec<u16>,
    pub rows: Vec<RowSpec>,
}

#[derive(Clone, PartialEq, Eq, Debug)]
pub struct RowSpec {
    pub effect: u16,
    pub conditions: Vec<u16>,
}

/// The literal "atom true".
pub fn yes(atom: u16) -> u16 {
    2 * atom
}

/// The literal "atom false".
pub fn no(atom: u16) -> u16 {
    2 * atom + 1
}

impl RowSpec {
    pub fn new(effect: u16, conditions: &[u16]) -> RowSpec {
        RowSpec {
            effect,
            conditions: conditions.to_vec(),
        }
    }
}

impl OperatorSpec {
    /// An operator without conditional effects; both lists get sorted.
    pub fn strips(precondition: &[u16], effects: &[u16]) -> OperatorSpec {
        let mut precondition = precondition.to_vec();
        let mut effects = effects.to_vec();
        precondition.sort_unstable();
        effects.sort_unstable();
        let rows = effects.iter().map(|&effect| RowSpec::new(effect, &[]));
        OperatorSpec {
            precondition,
            rows: rows.collect(),
        }
    }

    /// The operator of a block, which must be right.
    fn of_block(block: &[u16]) -> OperatorSpec {
        let (precondition, rest) = block[1..].split_at(block[0].into());
        let mut operator = OperatorSpec {
            precondition: precondition.to_vec(),
            rows: Vec::new(),
        };
        let mut rows = &rest[1..];
        while let [effect, count, rest @ ..] = rows {
            let (conditions, after) = rest.split_at((*count).into());
            operator.rows.push(RowSpec::new(*effect, conditions));
            rows = after;
        }
        operator
    }

    pub fn block(&self) -> Vec<u16> {
        let mut words = vec![self.precondition.len() as u16];
        words.extend(&self.precondition);
        words.push(self.rows.len() as u16);
        for row in &self.rows {
            words.extend([row.effect, row.conditions.len() as u16]);
            words.extend(&row.conditions);
        }
        words
    }
}

impl TaskSpec {
    /// The task of an image, which must be right.
    pub fn of_image(image: &[u16]) -> TaskSpec {
        let mut parts = parts(image, 2 + usize::from(image[1]));
        let mut list = || parts.next().map_or(Vec::new(), <[u16]>::to_vec);
        TaskSpec {
            atoms: image[0],
            initial: list(),
            goal: list(),
            operators: parts.map(OperatorSpec::of_block).collect(),
        }
    }

    /// The number of words of the image.
    pub fn words(&self) -> usize {
        let blocks: usize = self.operators.iter().map(|o| 2 + o.block().len()).sum();
        2 + 4 + self.initial.len() + self.goal.len() + blocks
    }

    pub fn image(&self) -> Vec<u16> {
        let mut parts = vec![self.initial.clone(), self.goal.clone()];
        parts.extend(self.operators.iter().map(OperatorSpec::block));
        lay_out(self.atoms, self.operators.len() as u16, &parts)
    }
}

/// An image: two numbers, the directory of the parts, the parts.
pub fn lay_out(first: u16, second: u16, parts: &[Vec<u16>]) -> Vec<u16> {
    let mut words = vec![first, second];
    let mut offset = 2 + 2 * parts.len();
    for part in parts {
        words.extend([offset as u16, part.len() as u16]);
        offset += part.len();
    }
    words.extend(parts.iter().flatten());
    words
}

/// The parts of an image that its directory names; `count` is their number.
pub fn parts(image: &[u16], count: usize) -> impl Iterator<Item = &[u16]> {
    let pairs = image[2..2 + 2 * count].chunks_exact(2);
    pairs.map(|pair| {
        let (offset, length) = (usize::from(pair[0]), usize::from(pair[1]));
        &image[offset..offset + length]
    })
}
