//! Memory as a host lends it, with guards around it that no call may touch.

/// What guards are made of.
pub trait Cell: Copy + PartialEq {
    const GUARD: Self;
}

impl Cell for u8 {
    const GUARD: u8 = 0xa5;
}

impl Cell for u32 {
    const GUARD: u32 = 0xa5a5_5a5a;
}

impl Cell for i32 {
    const GUARD: i32 = 0x5a5a_a5a5;
}

impl Cell for u64 {
    const GUARD: u64 = 0xa5a5_5a5a_a5a5_5a5a;
}

const WIDTH: usize = 16;

/// Bytes or numbers with guards before and after them.
#[derive(Clone, Debug)]
pub struct Guarded<T> {
    all: Vec<T>,
}

impl<T: Cell> Guarded<T> {
    pub fn of(cells: &[T]) -> Guarded<T> {
        let mut all = Vec::with_capacity(cells.len() + 2 * WIDTH);
        all.extend([T::GUARD; WIDTH]);
        all.extend_from_slice(cells);
        all.extend([T::GUARD; WIDTH]);
        Guarded { all }
    }

    pub fn get(&self) -> &[T] {
        &self.all[WIDTH..self.all.len() - WIDTH]
    }

    /// The first cells, at most so many.
    pub fn lend(&mut self, most: usize) -> &mut [T] {
        let n = most.min(self.all.len() - 2 * WIDTH);
        &mut self.all[WIDTH..WIDTH + n]
    }

    /// Whether the guards are as they were.
    pub fn stands(&self) -> bool {
        let (front, rest) = self.all.split_at(WIDTH);
        let back = &rest[rest.len() - WIDTH..];
        front.iter().chain(back).all(|cell| *cell == T::GUARD)
    }
}

/// What a call is given to read, each in guarded memory of its own.
pub struct Inputs<'a, const N: usize, T = u8> {
    was: [&'a [T]; N],
    lent: [Guarded<T>; N],
}

impl<'a, const N: usize, T: Cell> Inputs<'a, N, T> {
    pub fn of(was: [&'a [T]; N]) -> Inputs<'a, N, T> {
        Inputs { was, lent: was.map(Guarded::of) }
    }

    pub fn at(&self, i: usize) -> &[T] {
        self.lent[i].get()
    }

    /// Whether nothing was written into them.
    pub fn stand(&self) -> bool {
        self.was.iter().zip(&self.lent).all(|(was, lent)| lent.get() == *was && lent.stands())
    }
}
