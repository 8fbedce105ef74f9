//! Stand-in for `libtw2_buffer`: bytes are written into room that the caller
//! lends, a slice or the free capacity of a `Vec`.
//!
//! Taken for granted: a write goes behind the earlier ones; one that does not
//! fit gives `CapacityError` and writes nothing; a `Vec` never grows and its
//! length covers what was written once the writer is gone; `initialized`
//! gives what was written through this writer alone.

use std::mem::MaybeUninit;
use std::slice;

/// The bytes do not fit.
#[derive(Clone, Copy, Debug, Eq, PartialEq)]
pub struct CapacityError;

/// A writer into lent room.
pub struct BufferRef<'d, 's> {
    room: &'d mut [MaybeUninit<u8>],
    written: &'s mut usize,
}

impl<'d, 's> BufferRef<'d, 's> {
    pub fn write(&mut self, bytes: &[u8]) -> Result<(), CapacityError> {
        let end = self.written.checked_add(bytes.len()).ok_or(CapacityError)?;
        let place = self.room.get_mut(*self.written..end).ok_or(CapacityError)?;
        for (to, &from) in place.iter_mut().zip(bytes) {
            to.write(from);
        }
        *self.written = end;
        Ok(())
    }
    pub fn initialized(self) -> &'d [u8] {
        // SAFETY: `write` has set the first `written` bytes.
        unsafe { slice::from_raw_parts(self.room.as_ptr().cast(), *self.written) }
    }
}

/// What can be lent for writing.
pub trait Buffer<'d> {
    type Intermediate: ToBufferRef<'d>;
    fn to_to_buffer_ref(self) -> Self::Intermediate;
}

/// Lent room, with the count of what was written.
pub trait ToBufferRef<'d> {
    fn to_buffer_ref<'s>(&'s mut self) -> BufferRef<'d, 's>;
}

/// Lends `buffer` to `f` for writing.
pub fn with_buffer<'d, B: Buffer<'d>, F, R>(buffer: B, f: F) -> R
where
    F: for<'s> FnOnce(BufferRef<'d, 's>) -> R,
{
    f(buffer.to_to_buffer_ref().to_buffer_ref())
}

/// Room that is handed out once.
struct Room<'d> {
    start: *mut MaybeUninit<u8>,
    len: usize,
    written: usize,
    lent: std::marker::PhantomData<&'d mut [u8]>,
}

impl<'d> Room<'d> {
    fn new(room: &mut [MaybeUninit<u8>]) -> Room<'d> {
        Room {
            start: room.as_mut_ptr(),
            len: room.len(),
            written: 0,
            lent: std::marker::PhantomData,
        }
    }
    fn lend<'s>(&'s mut self) -> BufferRef<'d, 's> {
        // SAFETY: the room lives for 'd, and this takes it away.
        let room = unsafe { slice::from_raw_parts_mut(self.start, self.len) };
        self.len = 0;
        BufferRef {
            room,
            written: &mut self.written,
        }
    }
}

/// A lent slice.
pub struct SliceBuffer<'d>(Room<'d>);

impl<'d> Buffer<'d> for &'d mut [u8] {
    type Intermediate = SliceBuffer<'d>;
    fn to_to_buffer_ref(self) -> SliceBuffer<'d> {
        // SAFETY: only set bytes are written to it.
        let room = unsafe { slice::from_raw_parts_mut(self.as_mut_ptr().cast(), self.len()) };
        SliceBuffer(Room::new(room))
    }
}

impl<'d> ToBufferRef<'d> for SliceBuffer<'d> {
    fn to_buffer_ref<'s>(&'s mut self) -> BufferRef<'d, 's> {
        self.0.lend()
    }
}

/// The lent free capacity of a `Vec`.
pub struct VecBuffer<'d> {
    room: Room<'d>,
    vec: *mut Vec<u8>,
}

impl<'d> Buffer<'d> for &'d mut Vec<u8> {
    type Intermediate = VecBuffer<'d>;
    fn to_to_buffer_ref(self) -> VecBuffer<'d> {
        let vec: *mut Vec<u8> = self;
        // SAFETY: the `Vec` is lent for 'd and does not move its bytes.
        let room = Room::new(unsafe { (*vec).spare_capacity_mut() });
        VecBuffer { room, vec }
    }
}

impl<'d> ToBufferRef<'d> for VecBuffer<'d> {
    fn to_buffer_ref<'s>(&'s mut self) -> BufferRef<'d, 's> {
        self.room.lend()
    }
}

impl<'d> Drop for VecBuffer<'d> {
    fn drop(&mut self) {
        // SAFETY: that many bytes behind its length have been written.
        unsafe {
            let vec = &mut *self.vec;
            vec.set_len(vec.len() + self.room.written);
        }
    }
}

/// The lent rest of another writer's room.
pub struct BufferRefBuffer<'r, 'd, 's> {
    room: Room<'d>,
    outer: &'r mut BufferRef<'d, 's>,
}

impl<'r, 'd, 's> Buffer<'d> for &'r mut BufferRef<'d, 's> {
    type Intermediate = BufferRefBuffer<'r, 'd, 's>;
    fn to_to_buffer_ref(self) -> BufferRefBuffer<'r, 'd, 's> {
        let room = Room::new(&mut self.room[*self.written..]);
        BufferRefBuffer { room, outer: self }
    }
}

impl<'r, 'd, 's> ToBufferRef<'d> for BufferRefBuffer<'r, 'd, 's> {
    fn to_buffer_ref<'a>(&'a mut self) -> BufferRef<'d, 'a> {
        self.room.lend()
    }
}

impl<'r, 'd, 's> Drop for BufferRefBuffer<'r, 'd, 's> {
    fn drop(&mut self) {
        *self.outer.written += self.room.written;
    }
}
