//! Stacks of the two walks over a function's code, and where they are kept for the else sides of branches.

/// The highest stack a function may need.
pub const MOST_HEIGHT: u8 = 16;
/// The most instructions of a function.
pub const MOST_INSTRUCTIONS: usize = 256;

/// A stack of bytes in one wide number, the top byte lowest, so that copies cost little.
#[derive(Clone, Copy)]
pub struct Stack {
    entries: u128,
    height: u8,
}

impl Stack {
    pub const EMPTY: Stack = Stack {
        entries: 0,
        height: 0,
    };

    pub fn height(&self) -> u8 {
        self.height
    }

    /// The entry on top and the three below it, the top one lowest; zeros where there is none.
    pub fn top(&self) -> u32 {
        self.entries as u32
    }

    /// The entry at a slot, where slot 1 is the lowest.
    pub fn slot(&self, slot: u8) -> Option<u8> {
        let lies_in = (1..=self.height).contains(&slot);
        lies_in.then(|| (self.entries >> (8 * u32::from(self.height - slot))) as u8)
    }

    /// The stack with `count` entries in the place of the top `dropped` ones, which it has; nothing where it
    /// would be too high.
    pub fn replaced(&self, dropped: u8, count: u8, entries: u32) -> Option<Stack> {
        let height = self.height - dropped + count;
        let kept = self.entries >> (8 * u32::from(dropped));
        (height <= MOST_HEIGHT).then_some(Stack {
            entries: kept << (8 * u32::from(count)) | u128::from(entries),
            height,
        })
    }

    pub fn pushed(&self, entry: u8) -> Option<Stack> {
        self.replaced(0, 1, u32::from(entry))
    }
}

/// What is kept at branches until the walk comes to their targets.
pub struct Kept<T> {
    /// For each instruction, one more than the number of what is kept for it, or 0. A byte is enough: each branch
    /// has two instructions of its own behind it.
    at: [u8; MOST_INSTRUCTIONS + 1],
    states: Vec<T>,
}

impl<T: Copy> Kept<T> {
    pub fn new() -> Kept<T> {
        Kept {
            at: [0; MOST_INSTRUCTIONS + 1],
            states: Vec::with_capacity(8),
        }
    }

    /// Keeps a state for a target, which no other branch has: the flow is a tree.
    pub fn keep(&mut self, target: u16, state: &T) {
        self.states.push(*state);
        self.at[usize::from(target)] = self.states.len() as u8;
    }

    /// Gives what was kept for an instruction; false where nothing was. Mostly it is the last that was kept, and
    /// its place is used again.
    pub fn take(&mut self, place: usize, state: &mut T) -> bool {
        let number = self.at.get(place).map_or(0, |&number| usize::from(number));
        if number == 0 {
            return false;
        }
        self.at[place] = 0;
        *state = self.states[number - 1];
        if number == self.states.len() {
            self.states.pop();
        }
        true
    }

    /// Forgets all, for the next function.
    pub fn clear(&mut self) {
        self.states.clear();
    }
}
