//! Expansion of templates, one value at a time.

use super::{Cell, Cells, Fault, Parsed, ASKS, DONE, REFUSED, ROOM_TOO_SMALL};
use std::mem::MaybeUninit;
use std::ptr;

// States of values, as `subst.h` numbers them.
const UNSET: u32 = 0;
const SET: u32 = 1;
const NOT_ASKED: u32 = 2;

/// A variable's kind, and the span of its name.
#[repr(C)]
#[derive(Default)]
struct Variable {
    kind: u32,
    position: usize,
    length: usize,
}

/// The value of a variable.
#[repr(C)]
#[derive(Clone, Copy)]
struct Value {
    bytes: *const u8,
    length: usize,
    given: u32,
}

/// The progress of an expansion.
#[repr(C)]
#[derive(Default)]
struct Cursor {
    index: usize,
    written: usize,
}

extern "C" {
    fn subst_template_variables(cells: *const Cell, cells_len: usize) -> usize;
    fn subst_template_variable(
        cells: *const Cell,
        cells_len: usize,
        source: *const u8,
        source_len: usize,
        number: usize,
        first_use: *mut Variable,
    ) -> u32;
    fn subst_expand_step(
        cells: *const Cell,
        cells_len: usize,
        source: *const u8,
        source_len: usize,
        values: *const Value,
        values_len: usize,
        cursor: *mut Cursor,
        buffer: *mut u8,
        buffer_len: usize,
        number: *mut usize,
        fault: *mut Fault,
    ) -> u32;
}

impl Value {
    /// Returns the value of these bytes, which have to stay until the last step of an expansion.
    fn of(bytes: &[u8]) -> Value {
        Value {
            bytes: bytes.as_ptr(),
            length: bytes.len(),
            given: SET,
        }
    }
}

/// A value that nobody has asked for yet.
const UNKNOWN: Value = Value {
    bytes: ptr::null(),
    length: 0,
    given: NOT_ASKED,
};

/// The most variables of a template whose values are kept on the stack.
const FEW: usize = 16;

/// Expands a text. `get` is called once for each name that is needed, in the order of need, between calls of
/// the library. So it may panic, and may expand templates.
pub(crate) fn expand_text<V: AsRef<str>>(
    parsed: &Parsed<'_, str>,
    get: impl FnMut(&str) -> Option<V>,
) -> Result<String, Fault> {
    let output = expand_with(&parsed.cells, parsed.source().as_bytes(), get, |value| {
        value.as_ref().as_bytes()
    })?;
    // SAFETY: the cells are those of the source. So the output is made of values, of literals and of escaped
    // bytes, which are ASCII. Literals begin and end at ASCII bytes or at the ends of the source. All of
    // these are UTF-8.
    Ok(unsafe { String::from_utf8_unchecked(output) })
}

/// Expands bytes, as `expand_text` does.
pub(crate) fn expand<V: AsRef<[u8]>>(
    parsed: &Parsed<'_, [u8]>,
    get: impl FnMut(&str) -> Option<V>,
) -> Result<Vec<u8>, Fault> {
    expand_with(&parsed.cells, parsed.source(), get, |value| value.as_ref())
}

/// Expands a template with memory for its values, on the stack if they are few.
fn expand_with<V>(
    cells: &Cells,
    source: &[u8],
    get: impl FnMut(&str) -> Option<V>,
    bytes_of: impl Fn(&V) -> &[u8],
) -> Result<Vec<u8>, Fault> {
    // SAFETY: the cells are `count` cells.
    let count = unsafe { subst_template_variables(cells.first.as_ptr(), cells.count) };
    if count <= FEW {
        let mut kept: MaybeUninit<[V; FEW]> = MaybeUninit::uninit();
        // SAFETY: the array outlives the run, and is used only by it.
        let kept = unsafe { Kept::new(kept.as_mut_ptr().cast(), FEW) };
        Expansion::new(cells, source, &mut [UNKNOWN; FEW][..count]).run(kept, get, bytes_of)
    } else {
        let mut kept = Vec::with_capacity(count);
        // SAFETY: the list outlives the run, and is used only by it.
        let kept = unsafe { Kept::new(kept.as_mut_ptr(), count) };
        Expansion::new(cells, source, &mut vec![UNKNOWN; count]).run(kept, get, bytes_of)
    }
}

/// Values that are kept where they are, until all are dropped.
struct Kept<V> {
    first: *mut V,
    capacity: usize,
    count: usize,
}

impl<V> Kept<V> {
    /// Takes memory for `capacity` values.
    ///
    /// # Safety
    ///
    /// The memory is valid and used by nothing else for as long as this value is there.
    unsafe fn new(first: *mut V, capacity: usize) -> Self {
        Kept {
            first,
            capacity,
            count: 0,
        }
    }

    /// Keeps a value. Returns a pointer to it, which is valid until all are dropped.
    fn keep(&mut self, value: V) -> *const V {
        assert!(self.count < self.capacity);
        // SAFETY: the memory has more than `count` places, and no value is at this one.
        let place = unsafe {
            let place = self.first.add(self.count);
            place.write(value);
            place
        };
        self.count += 1;
        place
    }
}

impl<V> Drop for Kept<V> {
    fn drop(&mut self) {
        // SAFETY: the first `count` places have values, and these are used no more.
        unsafe { ptr::drop_in_place(ptr::slice_from_raw_parts_mut(self.first, self.count)) }
    }
}

/// The outcome of a step.
enum Step {
    Done,
    Ask(usize),
    Missing(Fault),
}

/// An expansion under way.
struct Expansion<'t> {
    cells: &'t Cells,
    source: &'t [u8],
    values: &'t mut [Value],
    cursor: Cursor,
    output: Vec<u8>,
}

impl<'t> Expansion<'t> {
    fn new(cells: &'t Cells, source: &'t [u8], values: &'t mut [Value]) -> Self {
        Expansion {
            cells,
            source,
            values,
            cursor: Cursor::default(),
            output: Vec::new(),
        }
    }

    /// Expands the template with values from `get`, which are kept while the library may read them.
    fn run<V>(
        mut self,
        mut kept: Kept<V>,
        mut get: impl FnMut(&str) -> Option<V>,
        bytes_of: impl Fn(&V) -> &[u8],
    ) -> Result<Vec<u8>, Fault> {
        let mut ask = |name: &str| {
            // SAFETY: a kept value stays where it is and isn't changed until `kept` is dropped.
            get(name).map(|value| Value::of(bytes_of(unsafe { &*kept.keep(value) })))
        };
        self.begin(&mut ask);
        loop {
            match self.step() {
                Step::Done => return Ok(self.output),
                Step::Missing(fault) => return Err(fault),
                Step::Ask(number) => {
                    let value = ask(self.first_use(number).1);
                    self.set(number, value);
                    self.reserve(value.map_or(0, |value| value.length));
                }
            }
        }
    }

    /// Asks for the variables before the first default, and allocates the buffer. Variables are numbered in
    /// the order of their first use, so these are needed in this order, up to one that is unset.
    fn begin(&mut self, ask: &mut impl FnMut(&str) -> Option<Value>) {
        let mut length = self.source.len() + self.source.len() / 8 + 64;
        for number in 0..self.values.len() {
            let (position, name) = self.first_use(number);
            if position > self.cells.first_default {
                break;
            }
            let value = ask(name);
            self.set(number, value);
            match value {
                Some(value) => length += value.length,
                None => break,
            }
        }
        self.output = Vec::with_capacity(length);
    }

    /// Goes on until a value is needed that isn't known.
    fn step(&mut self) -> Step {
        let (mut number, mut fault) = (0, Fault::default());
        // SAFETY: the pointers aren't null and are valid for their lengths, and what is written overlaps
        // nothing else. The bytes of each value that is set are kept by `run`. The library only writes to the
        // buffer.
        let result = unsafe {
            subst_expand_step(
                self.cells.first.as_ptr(),
                self.cells.count,
                self.source.as_ptr(),
                self.source.len(),
                self.values.as_ptr(),
                self.values.len(),
                &mut self.cursor,
                self.output.as_mut_ptr(),
                self.output.capacity(),
                &mut number,
                &mut fault,
            )
        };
        match result {
            DONE => {
                // SAFETY: the first `written` bytes of the buffer are the output.
                unsafe { self.output.set_len(self.cursor.written) };
                Step::Done
            }
            ASKS => Step::Ask(number),
            REFUSED => Step::Missing(fault),
            ROOM_TOO_SMALL => self.again(),
            _ => unreachable!("subst_expand_step returns {result}"),
        }
    }

    /// Begins again with a buffer for the whole output, whose length is known now, as are all values that are
    /// needed.
    #[cold]
    fn again(&mut self) -> Step {
        self.output = Vec::with_capacity(self.cursor.written);
        self.cursor = Cursor::default();
        self.step()
    }

    /// Returns where a variable is first used, and its name.
    fn first_use(&self, number: usize) -> (usize, &'t str) {
        let mut variable = Variable::default();
        // SAFETY: the pointers are valid for their lengths, and `variable` overlaps nothing else.
        unsafe {
            subst_template_variable(
                self.cells.first.as_ptr(),
                self.cells.count,
                self.source.as_ptr(),
                self.source.len(),
                number,
                &mut variable,
            )
        };
        let name = &self.source[variable.position..variable.position + variable.length];
        debug_assert!(name.is_ascii());
        // SAFETY: the cells are those of the source, and a name has ASCII letters, digits and `_`.
        (variable.position, unsafe { std::str::from_utf8_unchecked(name) })
    }

    /// Sets a value, or unsets it.
    fn set(&mut self, number: usize, value: Option<Value>) {
        self.values[number] = value.unwrap_or(Value {
            given: UNSET,
            ..UNKNOWN
        });
    }

    /// Makes space for `length` more bytes and the rest of the source, if the output has come no further than
    /// the buffer.
    fn reserve(&mut self, length: usize) {
        let written = self.cursor.written;
        if written <= self.output.capacity() && self.output.capacity() - written < length {
            // SAFETY: the first `written` bytes of the buffer are written.
            unsafe { self.output.set_len(written) };
            self.output.reserve(length + self.source.len());
        }
    }
}
