//! A buffer of one's own or a lent one.

use std::ops::{Deref, DerefMut};

#[derive(Debug)]
pub(crate) enum Buffer<'a, T> {
    Owned(Vec<T>),
    Lent(&'a mut [T]),
}

impl<T> Deref for Buffer<'_, T> {
    type Target = [T];

    fn deref(&self) -> &[T] {
        match self {
            Buffer::Owned(own) => own,
            Buffer::Lent(lent) => lent,
        }
    }
}

impl<T> DerefMut for Buffer<'_, T> {
    fn deref_mut(&mut self) -> &mut [T] {
        match self {
            Buffer::Owned(own) => own,
            Buffer::Lent(lent) => lent,
        }
    }
}
