//! One thing for each axis, at most four, without an allocation; ndarray keeps shapes and
//! strides of up to four axes in this way too.

use core::ops::Deref;

#[derive(Clone, Copy, Default)]
pub struct PerAxis<T> {
    axes: usize,
    things: [T; 4],
}

impl<T: Copy> PerAxis<T> {
    pub fn push(&mut self, thing: T) {
        self.things[self.axes] = thing;
        self.axes += 1;
    }

    pub fn remove(&mut self, d: usize) {
        self.things.copy_within(d + 1..self.axes, d);
        self.axes -= 1;
    }
}

impl<T: Copy + Default> FromIterator<T> for PerAxis<T> {
    fn from_iter<I: IntoIterator<Item = T>>(things: I) -> Self {
        let mut all = PerAxis::default();
        things.into_iter().for_each(|thing| all.push(thing));
        all
    }
}

impl<T> Deref for PerAxis<T> {
    type Target = [T];

    fn deref(&self) -> &[T] {
        &self.things[..self.axes]
    }
}

impl<T> IntoIterator for PerAxis<T> {
    type Item = T;
    type IntoIter = core::iter::Take<core::array::IntoIter<T, 4>>;

    fn into_iter(self) -> Self::IntoIter {
        self.things.into_iter().take(self.axes)
    }
}
