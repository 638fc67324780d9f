//! Memory lent to the library, with guard words around it.

/// A word that memory is made of.
pub trait Word: Copy + PartialEq + std::fmt::LowerHex {
    /// The guard word at a place.
    fn guard(place: usize) -> Self;
}

impl Word for u8 {
    fn guard(place: usize) -> u8 {
        0xA5 ^ place as u8
    }
}

impl Word for u16 {
    fn guard(place: usize) -> u16 {
        0xA5C3 ^ place as u16
    }
}

impl Word for u64 {
    fn guard(place: usize) -> u64 {
        0xA5C3_9669_0FF0_5AA5 ^ place as u64
    }
}

/// One lent buffer.
pub struct Lent<T> {
    store: Box<[T]>,
    /// Guard words before the buffer.
    front: usize,
    length: usize,
    /// Lend no bytes by a null pointer.
    null: bool,
}

impl<T: Word> Lent<T> {
    /// A buffer with this content and so many guard words before and after it.
    pub fn new(content: &[T], front: usize, back: usize, null: bool) -> Self {
        let length = content.len();
        let mut store = Vec::with_capacity(front + length + back);
        store.extend((0..front).map(T::guard));
        store.extend_from_slice(content);
        store.extend((front + length..front + length + back).map(T::guard));
        Lent {
            store: store.into_boxed_slice(),
            front,
            length,
            null: null && length == 0,
        }
    }

    pub fn len(&self) -> usize {
        self.length
    }

    pub fn pointer(&self) -> *const T {
        if self.null {
            return std::ptr::null();
        }
        self.store[self.front..].as_ptr()
    }

    pub fn pointer_mut(&mut self) -> *mut T {
        if self.null {
            return std::ptr::null_mut();
        }
        self.store[self.front..].as_mut_ptr()
    }

    /// The first difference from the content wanted, or a guard word changed.
    pub fn difference(&self, want: &[T]) -> Option<String> {
        let back = self.front + self.length;
        let content = &self.store[self.front..back];
        if let Some(place) = (0..content.len()).find(|place| content[*place] != want[*place]) {
            return Some(format!(
                "place {place} of {} holds {:#x}, not {:#x}",
                self.length, content[place], want[place]
            ));
        }
        let mut guards = (0..self.front).chain(back..self.store.len());
        let broken = guards.find(|place| self.store[*place] != T::guard(*place))?;
        let distance = broken as i64 - self.front as i64;
        Some(format!(
            "guard word at {distance} of {} changed to {:#x}",
            self.length, self.store[broken]
        ))
    }
}
