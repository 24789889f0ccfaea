//! Sources that are kept beside their templates.

use super::{Cells, Fault, Parsed};
use crate::{ByteTemplate, Template};
use std::marker::PhantomData;
use std::ops::Deref;
use std::ptr::NonNull;

/// An owner of a source on the heap, which stays where it is if the owner is moved.
///
/// # Safety
///
/// `deref` always returns the same memory, whose contents only change through a mutable reference to the
/// owner.
pub(crate) unsafe trait Stable: Deref {}

// SAFETY: the text is on the heap, or empty, and a move of the owner doesn't touch it.
unsafe impl Stable for String {}
// SAFETY: as above.
unsafe impl Stable for Vec<u8> {}

/// A source and a template that borrows it. The template's lifetime is only true while the source is kept, so
/// no call hands it out.
pub(crate) struct Owned<B, T> {
    template: T,
    source: B,
}

impl<B: Stable, T: From<Parsed<'static, B::Target>>> Owned<B, T>
where
    B::Target: AsRef<[u8]> + ToOwned<Owned = B> + 'static,
{
    /// Parses a source. A refused source is returned with its fault.
    pub(crate) fn parse(source: B) -> Result<Self, (Fault, B)> {
        match Parsed::parse(&*source).map(|parsed| parsed.cells) {
            Ok(cells) => Ok(Owned::of_cells(source, cells)),
            Err(fault) => Err((fault, source)),
        }
    }

    /// Copies the source of a template, and keeps its cells.
    pub(crate) fn of_parsed(parsed: Parsed<'_, B::Target>) -> Self {
        let source = parsed.source().to_owned();
        Owned::of_cells(source, parsed.cells)
    }

    /// Builds the template of a source from the cells of its parse. It keeps no reference to the source, but
    /// a pointer.
    fn of_cells(source: B, cells: Cells) -> Self {
        let parsed = Parsed {
            source: NonNull::from(&*source),
            cells,
            borrowed: PhantomData,
        };
        Owned {
            template: T::from(parsed),
            source,
        }
    }
}

impl<B, T> Owned<B, T> {
    /// Returns the source.
    pub(crate) fn into_source(self) -> B {
        self.source
    }
}

impl Owned<String, Template<'static>> {
    /// Returns the template, for as long as its source is kept.
    pub(crate) fn template(&self) -> &Template<'_> {
        &self.template
    }
}

impl Owned<Vec<u8>, ByteTemplate<'static>> {
    /// Returns the template, for as long as its source is kept.
    pub(crate) fn template(&self) -> &ByteTemplate<'_> {
        &self.template
    }
}
