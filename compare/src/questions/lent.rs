//! What is lent to a call, between guards that it may not touch.

/// Items before and behind what is lent.
pub const GUARD: usize = 8;

/// What a lent buffer may hold.
pub trait Item: Copy {
    /// One that tells its place.
    fn canary(place: usize) -> Self;

    fn bits(self) -> u64;
}

impl Item for u8 {
    fn canary(place: usize) -> u8 {
        0xa5 ^ place as u8
    }

    fn bits(self) -> u64 {
        self.into()
    }
}

impl Item for u64 {
    fn canary(place: usize) -> u64 {
        f64::canary(place).to_bits()
    }

    fn bits(self) -> u64 {
        self
    }
}

impl Item for f64 {
    /// A NaN whose payload tells the place.
    fn canary(place: usize) -> f64 {
        f64::from_bits(0x7ff4_0000_0000_0000 | place as u64)
    }

    fn bits(self) -> u64 {
        self.to_bits()
    }
}

#[derive(Clone)]
pub struct Lent<T> {
    /// The guards too.
    pub all: Vec<T>,
    pub begins: usize,
    length: usize,
}

impl<T: Item> Lent<T> {
    /// One that holds canaries, and begins so many items past an address that eight of them divide.
    pub fn canaries(length: usize, past: usize) -> Lent<T> {
        let all: Vec<T> = (0..GUARD + 16 + length + GUARD).map(T::canary).collect();
        let begins = GUARD + all[GUARD..].as_ptr().align_offset(8 * size_of::<T>()) + past;
        Lent { all, begins, length }
    }

    /// The same, but it holds these.
    pub fn of(items: &[T], past: usize) -> Lent<T> {
        let mut lent = Lent::canaries(items.len(), past);
        lent.part().copy_from_slice(items);
        lent
    }

    pub fn part(&mut self) -> &mut [T] {
        self.longer(0)
    }

    /// What is lent, as if it had so many items more: as many as a guard has, at most.
    pub fn longer(&mut self, by: isize) -> &mut [T] {
        &mut self.all[self.begins..][..self.length.saturating_add_signed(by)]
    }
}
