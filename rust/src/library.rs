//! The calls of the C library. All unsafe code of this crate is in this module.
//!
//! The library allocates by `malloc`, writes only to what the calls below describe, and keeps no pointer
//! after a call.
#![allow(unsafe_code)]

mod expansion;
mod owned;

pub(crate) use expansion::{expand, expand_text};
pub(crate) use owned::Owned;

use crate::forms::{first_default, has_optional};
use std::alloc::{handle_alloc_error, Layout};
use std::marker::PhantomData;
use std::mem::size_of;
use std::os::raw::c_void;
use std::ptr::{self, NonNull};

// Results of calls, and the flag of a parse, as `subst.h` numbers them.
const DONE: u32 = 0;
const REFUSED: u32 = 1;
const OUT_OF_MEMORY: u32 = 4;
const ROOM_TOO_SMALL: u32 = 5;
const ASKS: u32 = 11;
const TOO_LONG: u32 = 12;
const NO_OPTIONAL: u32 = 1;

/// A cell of a template, which only the library reads.
#[repr(C)]
#[derive(Clone, Copy)]
struct Cell {
    kind: u32,
    first: u32,
    second: u32,
    number: u32,
}

/// The kind of a fault, and its span in the source.
#[repr(C)]
#[derive(Clone, Copy, Default)]
pub(crate) struct Fault {
    pub(crate) kind: u32,
    pub(crate) position: usize,
    pub(crate) length: usize,
}

extern "C" {
    fn subst_template_new(
        source: *const u8,
        source_len: usize,
        flags: u32,
        cells: *mut *mut Cell,
        cells_len: *mut usize,
        fault: *mut Fault,
    ) -> u32;
    fn malloc(size: usize) -> *mut c_void;
    fn free(memory: *mut c_void);
}

/// The cells of a template, in memory of `malloc`.
pub(crate) struct Cells {
    first: NonNull<Cell>,
    count: usize,
    /// A position in the source before which no default begins.
    first_default: usize,
}

// SAFETY: the cells are plain numbers, owned by this value, and nothing writes to them after the parse.
unsafe impl Send for Cells {}
// SAFETY: as above.
unsafe impl Sync for Cells {}

impl Cells {
    /// Parses a source, and refuses `${name?}`.
    ///
    /// # Panics
    ///
    /// If the source has 4 GiB or more.
    fn parse(source: &[u8]) -> Result<Cells, Fault> {
        // The flag doubles the work.
        let flags = if has_optional(source) { NO_OPTIONAL } else { 0 };
        let (mut cells, mut count, mut fault) = (ptr::null_mut(), 0, Fault::default());
        // SAFETY: the source's pointer isn't null, also of an empty slice, and is valid for reads of its
        // length. The three pointers are to variables of their own, of the types of `subst.h`.
        let result = unsafe {
            subst_template_new(
                source.as_ptr(),
                source.len(),
                flags,
                &mut cells,
                &mut count,
                &mut fault,
            )
        };
        match (result, NonNull::new(cells)) {
            (DONE, Some(first)) => Ok(Cells {
                first,
                count,
                first_default: first_default(source),
            }),
            (REFUSED, _) => Err(fault),
            (OUT_OF_MEMORY, _) => handle_alloc_error(Layout::new::<Cell>()),
            (TOO_LONG, _) => panic!("subst: a source of 4 GiB or more"),
            _ => unreachable!("subst_template_new returns {result}"),
        }
    }
}

impl Clone for Cells {
    fn clone(&self) -> Cells {
        let size = self.count * size_of::<Cell>();
        // SAFETY: any size may be passed.
        let memory = unsafe { malloc(size) }.cast::<Cell>();
        let first = NonNull::new(memory).unwrap_or_else(|| handle_alloc_error(Layout::new::<Cell>()));
        // SAFETY: the cells are `count` cells, as many as the new memory holds, which is aligned for any
        // type.
        unsafe { ptr::copy_nonoverlapping(self.first.as_ptr(), memory, self.count) };
        Cells { first, ..*self }
    }
}

impl Drop for Cells {
    fn drop(&mut self) {
        // SAFETY: the memory is of `malloc`, by the library or by `clone`, and is freed only here.
        unsafe { free(self.first.as_ptr().cast()) }
    }
}

/// A source with its cells. The source is borrowed for `'a`.
///
/// The source is a pointer and no reference, so that it can point into an owner that is moved.
pub(crate) struct Parsed<'a, S: ?Sized> {
    source: NonNull<S>,
    cells: Cells,
    borrowed: PhantomData<&'a S>,
}

// SAFETY: this is a shared reference and cells, which are `Send`.
unsafe impl<S: ?Sized + Sync> Send for Parsed<'_, S> {}
// SAFETY: as above.
unsafe impl<S: ?Sized + Sync> Sync for Parsed<'_, S> {}

impl<'a, S: ?Sized + AsRef<[u8]>> Parsed<'a, S> {
    /// Parses a source.
    ///
    /// # Panics
    ///
    /// If the source has 4 GiB or more.
    pub(crate) fn parse(source: &'a S) -> Result<Self, Fault> {
        Ok(Parsed {
            source: NonNull::from(source),
            cells: Cells::parse(source.as_ref())?,
            borrowed: PhantomData,
        })
    }
}

impl<S: ?Sized> Parsed<'_, S> {
    /// Returns the source.
    pub(crate) fn source(&self) -> &S {
        // SAFETY: the pointer is of a reference for `'a`, which outlives `self`, or into the owner beside
        // `self`.
        unsafe { self.source.as_ref() }
    }
}

impl<S: ?Sized> Clone for Parsed<'_, S> {
    fn clone(&self) -> Self {
        Parsed {
            source: self.source,
            cells: self.cells.clone(),
            borrowed: PhantomData,
        }
    }
}
