//! What checks.rs names of other crates and of source.rs. Nothing here runs: the calls that we compare do not use it.

pub mod events {
    use std::borrow::Cow;

    pub struct QName<'a>(&'a [u8]);
    impl<'a> QName<'a> {
        pub fn into_inner(self) -> &'a [u8] {
            self.0
        }
    }
    pub struct Attribute<'a> {
        pub key: QName<'a>,
        pub value: Cow<'a, [u8]>,
    }
    pub struct BytesStart<'a>(&'a [u8]);
    impl BytesStart<'_> {
        pub fn name(&self) -> QName<'_> {
            QName(self.0)
        }
        pub fn attributes(&self) -> impl Iterator<Item = Result<Attribute<'_>, std::fmt::Error>> {
            std::iter::empty()
        }
    }
}

pub type FxHashMap<K, V> = std::collections::HashMap<K, V>;

pub trait Array {
    type Item;
}
impl<T, const N: usize> Array for [T; N] {
    type Item = T;
}
pub struct SmallVec<A: Array>(Vec<A::Item>);
impl<A: Array> SmallVec<A> {
    pub fn new() -> Self {
        SmallVec(Vec::new())
    }
    pub fn push(&mut self, item: A::Item) {
        self.0.push(item);
    }
}
impl<A: Array> std::ops::Deref for SmallVec<A> {
    type Target = [A::Item];
    fn deref(&self) -> &[A::Item] {
        &self.0
    }
}
impl<'a, A: Array> IntoIterator for &'a SmallVec<A> {
    type Item = &'a A::Item;
    type IntoIter = std::slice::Iter<'a, A::Item>;
    fn into_iter(self) -> Self::IntoIter {
        self.0.iter()
    }
}

pub(crate) mod source {
    #[derive(Debug, Clone, Copy, Default)]
    pub(crate) struct Utf8<'i>(std::marker::PhantomData<&'i ()>);
    impl Utf8<'_> {
        pub(crate) fn str<'a>(&self, bytes: &'a [u8]) -> Result<&'a str, std::str::Utf8Error> {
            std::str::from_utf8(bytes)
        }
    }
}
