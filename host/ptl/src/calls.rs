//! Every function of the library, safe, on plain bytes and numbers. An answer is its number in
//! the table; a refusal (any but 0) changes nothing, and its counts and fields are 0.
//!
//! SAFETY of every call below: each pointer comes from a live slice or reference together with
//! its length, so none is null and each is good for the call; what the library writes to is
//! borrowed as `&mut`, so it overlaps no other argument; the library keeps no pointer.

use crate::ffi;
use crate::state::State;
use std::ops::Range;

/// What a call gives that writes to an output.
#[derive(Clone, Copy, PartialEq, Eq, Debug)]
pub struct Wrote {
    pub answer: u8,
    pub written: usize,
}

/// What listing and merged read give.
#[derive(Clone, Copy, PartialEq, Eq, Debug)]
pub struct Listed {
    pub answer: u8,
    pub written: usize,
    pub labels: usize,
}

/// What a page gives: whether more follow is false if it is refused.
#[derive(Clone, Copy, PartialEq, Eq, Debug)]
pub struct Paged {
    pub answer: u8,
    pub written: usize,
    pub labels: usize,
    pub more: bool,
}

/// What lookup gives: a stretch of the lent store, and whether the listing has the label.
#[derive(Clone, Copy, PartialEq, Eq, Debug)]
pub struct Looked {
    pub answer: u8,
    pub listed: bool,
    pub found: Span,
}

/// Where a field stands in the bytes it was read from.
#[derive(Clone, Copy, PartialEq, Eq, Debug, Default)]
pub struct Span {
    pub at: usize,
    pub len: usize,
}

impl Span {
    /// The bytes of the field; empty if they are not there.
    pub fn of(self, bytes: &[u8]) -> &[u8] {
        let range = self.range().and_then(|range| bytes.get(range));
        range.unwrap_or_default()
    }

    fn range(self) -> Option<Range<usize>> {
        Some(self.at..self.at.checked_add(self.len)?)
    }
}

/// What reading a key gives. A field that the kind lacks is 0.
#[derive(Clone, Copy, PartialEq, Eq, Debug, Default)]
pub struct KeyRead {
    pub answer: u8,
    pub kind: u8,
    pub name: Span,
    pub label: Span,
    pub actor: u8,
    pub counter: u64,
}

/// What reading a message gives. A field that the kind lacks is 0.
#[derive(Clone, Copy, PartialEq, Eq, Debug, Default)]
pub struct MessageRead {
    pub answer: u8,
    pub kind: u8,
    pub name: Span,
    pub label: Span,
    pub actor: u8,
    pub counter: u64,
    pub context: Span,
}

/// The version of the interface that the library has.
pub fn version() -> u32 {
    unsafe { ffi::ptl_version() }
}

/// Set-up. A refusal too changes the state: to zero throughout.
pub fn set_up(actor: u8, name: &[u8], state: &mut State) -> u8 {
    let state = state.block_mut();
    unsafe {
        ffi::ptl_set_up(
            actor,
            name.as_ptr(),
            name.len(),
            state.as_mut_ptr(),
            state.len(),
        )
    }
}

/// Own add: writes the add message.
pub fn own_add(
    state: &mut State,
    store: &mut [u8],
    label: &[u8],
    context: &[u8],
    out: &mut [u8],
) -> Wrote {
    let state = state.block_mut();
    let mut written = 0;
    let answer = unsafe {
        ffi::ptl_own_add(
            state.as_mut_ptr(),
            state.len(),
            store.as_mut_ptr(),
            store.len(),
            label.as_ptr(),
            label.len(),
            context.as_ptr(),
            context.len(),
            out.as_mut_ptr(),
            out.len(),
            &mut written,
        )
    };
    Wrote { answer, written }
}

/// Own remove: writes the remove message.
pub fn own_remove(state: &mut State, store: &[u8], context: &[u8], out: &mut [u8]) -> Wrote {
    let state = state.block_mut();
    let mut written = 0;
    let answer = unsafe {
        ffi::ptl_own_remove(
            state.as_mut_ptr(),
            state.len(),
            store.as_ptr(),
            store.len(),
            context.as_ptr(),
            context.len(),
            out.as_mut_ptr(),
            out.len(),
            &mut written,
        )
    };
    Wrote { answer, written }
}

/// Taking in a message.
pub fn take_in(state: &mut State, store: &mut [u8], message: &[u8]) -> u8 {
    let state = state.block_mut();
    unsafe {
        ffi::ptl_take_in(
            state.as_mut_ptr(),
            state.len(),
            store.as_mut_ptr(),
            store.len(),
            message.as_ptr(),
            message.len(),
        )
    }
}

/// Listing.
pub fn list(state: &State, store: &[u8], out: &mut [u8]) -> Listed {
    let state = state.block();
    let (mut written, mut labels) = (0, 0);
    let answer = unsafe {
        ffi::ptl_list(
            state.as_ptr(),
            state.len(),
            store.as_ptr(),
            store.len(),
            out.as_mut_ptr(),
            out.len(),
            &mut written,
            &mut labels,
        )
    };
    Listed {
        answer,
        written,
        labels,
    }
}

/// Paged listing: the labels after this one, or from the front if it is empty.
pub fn page(state: &State, store: &[u8], start: &[u8], out: &mut [u8]) -> Paged {
    let state = state.block();
    let (mut written, mut labels, mut more) = (0, 0, false);
    let answer = unsafe {
        ffi::ptl_page(
            state.as_ptr(),
            state.len(),
            store.as_ptr(),
            store.len(),
            start.as_ptr(),
            start.len(),
            out.as_mut_ptr(),
            out.len(),
            &mut written,
            &mut labels,
            &mut more,
        )
    };
    Paged {
        answer,
        written,
        labels,
        more,
    }
}

/// Merged read: one listing of two controllers, which may be the same.
pub fn merge(
    first: &State,
    first_store: &[u8],
    second: &State,
    second_store: &[u8],
    out: &mut [u8],
) -> Listed {
    let (first, second) = (first.block(), second.block());
    let (mut written, mut labels) = (0, 0);
    let answer = unsafe {
        ffi::ptl_merge(
            first.as_ptr(),
            first.len(),
            first_store.as_ptr(),
            first_store.len(),
            second.as_ptr(),
            second.len(),
            second_store.as_ptr(),
            second_store.len(),
            out.as_mut_ptr(),
            out.len(),
            &mut written,
            &mut labels,
        )
    };
    Listed {
        answer,
        written,
        labels,
    }
}

/// Lookup.
pub fn lookup(state: &State, store: &[u8], label: &[u8]) -> Looked {
    let state = state.block();
    let mut found = ffi::Bytes {
        at: store.as_ptr(),
        len: 0,
    };
    let mut listed = false;
    let answer = unsafe {
        ffi::ptl_lookup(
            state.as_ptr(),
            state.len(),
            store.as_ptr(),
            store.len(),
            label.as_ptr(),
            label.len(),
            &mut found,
            &mut listed,
        )
    };
    let at = (found.at as usize).wrapping_sub(store.as_ptr() as usize);
    Looked {
        answer,
        listed,
        found: Span { at, len: found.len },
    }
}

/// Compaction: leaves the keys of dots that are not removed, and an empty tombstone.
pub fn compact(state: &mut State, store: &mut [u8]) -> u8 {
    let state = state.block_mut();
    unsafe {
        ffi::ptl_compact(
            state.as_mut_ptr(),
            state.len(),
            store.as_mut_ptr(),
            store.len(),
        )
    }
}

/// Writing a hand-off image.
pub fn write_image(state: &State, store: &[u8], out: &mut [u8]) -> Wrote {
    let state = state.block();
    let mut written = 0;
    let answer = unsafe {
        ffi::ptl_write_image(
            state.as_ptr(),
            state.len(),
            store.as_ptr(),
            store.len(),
            out.as_mut_ptr(),
            out.len(),
            &mut written,
        )
    };
    Wrote { answer, written }
}

/// Loading a hand-off image as this actor. A refusal too changes the state: to zero throughout.
pub fn load_image(actor: u8, image: &[u8], state: &mut State, store: &mut [u8]) -> u8 {
    let state = state.block_mut();
    unsafe {
        ffi::ptl_load_image(
            actor,
            image.as_ptr(),
            image.len(),
            state.as_mut_ptr(),
            state.len(),
            store.as_mut_ptr(),
            store.len(),
        )
    }
}

/// Writing a key. The kind is `c`, `d`, `e` or `z`; another byte is answered 4.
pub fn write_key(
    kind: u8,
    name: &[u8],
    label: &[u8],
    actor: u8,
    counter: u64,
    out: &mut [u8],
) -> Wrote {
    let mut written = 0;
    let answer = unsafe {
        ffi::ptl_write_key(
            kind,
            name.as_ptr(),
            name.len(),
            label.as_ptr(),
            label.len(),
            actor,
            counter,
            out.as_mut_ptr(),
            out.len(),
            &mut written,
        )
    };
    Wrote { answer, written }
}

/// Reading a key.
pub fn read_key(bytes: &[u8]) -> KeyRead {
    let mut read = KeyRead::default();
    read.answer = unsafe {
        ffi::ptl_read_key(
            bytes.as_ptr(),
            bytes.len(),
            &mut read.kind,
            &mut read.name.at,
            &mut read.name.len,
            &mut read.label.at,
            &mut read.label.len,
            &mut read.actor,
            &mut read.counter,
        )
    };
    read
}

/// Reading a message without a controller.
pub fn read_message(bytes: &[u8]) -> MessageRead {
    let mut read = MessageRead::default();
    read.answer = unsafe {
        ffi::ptl_read_message(
            bytes.as_ptr(),
            bytes.len(),
            &mut read.kind,
            &mut read.name.at,
            &mut read.name.len,
            &mut read.label.at,
            &mut read.label.len,
            &mut read.actor,
            &mut read.counter,
            &mut read.context.at,
            &mut read.context.len,
        )
    };
    read
}

#[cfg(test)]
mod tests {
    //! The library on blocks that are no state because of their size: refused by 1, all kept.

    use crate::ffi;
    use limits::STATE_SIZE;

    const SIZES: [usize; 4] = [0, STATE_SIZE - 1, STATE_SIZE + 1, 2 * STATE_SIZE];
    const FILL: u8 = 0xA5;

    /// A block of this size, the front of which is a sound state where there is room for one.
    fn block(size: usize) -> Vec<u8> {
        let mut state = crate::State::zero();
        assert_eq!(super::set_up(1, b"R1", &mut state), 0);
        let mut block = state.block().to_vec();
        block.resize(size, 0);
        block
    }

    #[test]
    fn set_up_leaves_a_block_of_another_size() {
        for size in SIZES {
            let mut block = vec![FILL; size];
            let (name, at) = (b"R1", block.as_mut_ptr());
            let answer = unsafe { ffi::ptl_set_up(1, name.as_ptr(), 2, at, size) };
            assert_eq!((answer, block), (1, vec![FILL; size]));
        }
    }

    #[test]
    fn own_calls_leave_a_block_of_another_size() {
        for size in SIZES {
            let (mut state, mut store, mut out) = (block(size), [FILL; 64], [FILL; 64]);
            let (s, t, o) = (state.as_mut_ptr(), store.as_mut_ptr(), out.as_mut_ptr());
            let (label, context) = (b"B7".as_ptr(), out.as_ptr());
            let mut written = 77;
            let w = &mut written;
            let add = unsafe { ffi::ptl_own_add(s, size, t, 64, label, 2, context, 0, o, 64, w) };
            assert_eq!((add, written), (1, 0));
            let mut written = 77;
            let w = &mut written;
            let remove = unsafe { ffi::ptl_own_remove(s, size, t, 64, context, 0, o, 64, w) };
            assert_eq!((remove, written), (1, 0));
            assert_eq!((state, store, out), (block(size), [FILL; 64], [FILL; 64]));
        }
    }

    #[test]
    fn taking_in_and_compaction_leave_a_block_of_another_size() {
        let remove = b"PTL\x00\x01r\x02R1\x00";
        for size in SIZES {
            let (mut state, mut store) = (block(size), [FILL; 64]);
            let (s, t) = (state.as_mut_ptr(), store.as_mut_ptr());
            let (m, length) = (remove.as_ptr(), remove.len());
            assert_eq!(unsafe { ffi::ptl_take_in(s, size, t, 64, m, length) }, 1);
            assert_eq!(unsafe { ffi::ptl_compact(s, size, t, 64) }, 1);
            assert_eq!((state, store), (block(size), [FILL; 64]));
        }
    }

    #[test]
    fn reading_calls_answer_1_for_a_block_of_another_size() {
        for size in SIZES {
            let (state, store, mut out) = (block(size), [FILL; 64], [FILL; 64]);
            let (s, t) = (state.as_ptr(), store.as_ptr());
            let (mut w, mut n) = (77, 77);
            let o = out.as_mut_ptr();
            let list = unsafe { ffi::ptl_list(s, size, t, 64, o, 64, &mut w, &mut n) };
            assert_eq!((list, w, n, out), (1, 0, 0, [FILL; 64]));
            let (l, o) = (b"B7".as_ptr(), out.as_mut_ptr());
            let (mut w, mut n, mut more) = (77, 77, true);
            let page =
                unsafe { ffi::ptl_page(s, size, t, 64, l, 2, o, 64, &mut w, &mut n, &mut more) };
            assert_eq!((page, w, n, more, out), (1, 0, 0, false, [FILL; 64]));
            let mut found = ffi::Bytes {
                at: store[9..].as_ptr(),
                len: 7,
            };
            let mut listed = true;
            let f = &mut found;
            let looked = unsafe { ffi::ptl_lookup(s, size, t, 64, l, 2, f, &mut listed) };
            assert_eq!((looked, listed, found.at, found.len), (1, false, t, 0));
        }
    }

    #[test]
    fn images_leave_a_block_of_another_size() {
        let sound = block(STATE_SIZE);
        let mut image = [0; 275];
        let mut w = 0;
        let (s, o) = (sound.as_ptr(), image.as_mut_ptr());
        let whole = unsafe { ffi::ptl_write_image(s, STATE_SIZE, s, 0, o, 275, &mut w) };
        assert_eq!((whole, w), (0, 275));
        for size in SIZES {
            let (mut state, mut store, mut out) = (block(size), [FILL; 64], [FILL; 300]);
            let (s, t, o) = (state.as_mut_ptr(), store.as_mut_ptr(), out.as_mut_ptr());
            let mut w = 77;
            let written = unsafe { ffi::ptl_write_image(s, size, t, 64, o, 300, &mut w) };
            assert_eq!((written, w, out), (1, 0, [FILL; 300]));
            let i = image.as_ptr();
            let loaded = unsafe { ffi::ptl_load_image(2, i, 275, s, size, t, 64) };
            assert_eq!((loaded, state, store), (1, block(size), [FILL; 64]));
        }
    }

    #[test]
    fn merged_read_answers_1_for_a_block_of_another_size_on_either_side() {
        let sound = block(STATE_SIZE);
        for size in SIZES {
            let (odd, store, mut out) = (block(size), [FILL; 64], [FILL; 64]);
            for [one, two] in [[&odd, &sound], [&sound, &odd], [&odd, &odd]] {
                let (s, n) = (one.as_ptr(), one.len());
                let (t, m) = (two.as_ptr(), two.len());
                let (k, o) = (store.as_ptr(), out.as_mut_ptr());
                let (mut w, mut l) = (77, 77);
                let answer =
                    unsafe { ffi::ptl_merge(s, n, k, 64, t, m, k, 64, o, 64, &mut w, &mut l) };
                assert_eq!((answer, w, l, out), (1, 0, 0, [FILL; 64]));
            }
        }
    }
}
