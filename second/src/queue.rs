//! A queue with a fixed number of places: a host's waiting operations, a block's waiting entries.

/// The first `count` places are used, front first. An unused place is `None`, its zero.
#[derive(Clone, Copy, Debug, PartialEq, Eq)]
pub struct Queue<T, const LIMIT: usize> {
    pub count: usize,
    pub places: [Option<T>; LIMIT],
}

impl<T: Copy, const LIMIT: usize> Queue<T, LIMIT> {
    pub const EMPTY: Self = Queue {
        count: 0,
        places: [None; LIMIT],
    };

    /// The items, front first.
    pub fn items(&self) -> impl Iterator<Item = T> + '_ {
        self.places.iter().take(self.count).flatten().copied()
    }

    pub fn first(&self) -> Option<T> {
        self.items().next()
    }

    pub fn is_full(&self) -> bool {
        self.count >= LIMIT
    }

    /// "Counts are within limits" and "unused places are zero".
    pub fn is_tidy(&self) -> bool {
        self.count <= LIMIT
            && self.places.iter().take(self.count).all(Option::is_some)
            && self.places.iter().skip(self.count).all(Option::is_none)
    }

    /// Puts an item at an index; those from there on move back by one. The caller saw room.
    pub fn insert(&mut self, index: usize, item: T) {
        self.places[index..=self.count].rotate_right(1);
        self.places[index] = Some(item);
        self.count += 1;
    }

    pub fn append(&mut self, item: T) {
        self.insert(self.count, item);
    }

    pub fn prepend(&mut self, item: T) {
        self.insert(0, item);
    }

    /// Removes the front item; the others move up.
    pub fn remove_first(&mut self) -> Option<T> {
        let front = self.first()?;
        self.places[0] = None;
        self.places.rotate_left(1);
        self.count -= 1;
        Some(front)
    }
}
