//! Memory to lend to the library: at one edge of a room between two stretches that nobody may touch, with known bytes beside it.
use std::os::raw::c_void;

extern "C" {
    fn mmap(
        at: *mut c_void,
        size: usize,
        may: i32,
        kind: i32,
        file: i32,
        offset: i64,
    ) -> *mut c_void;
    fn mprotect(at: *mut c_void, size: usize, may: i32) -> i32;
}

const MAY_NOTHING: i32 = 0;
const MAY_READ_AND_WRITE: i32 = 3;
const PRIVATE_AND_OF_NO_FILE: i32 = 0x22;

/// A multiple of every page size in use.
const STRETCH: usize = 1 << 16;
const MARGIN: usize = 64;
const CANARY: u8 = 0xA5;

/// A room holds one run of bytes at a time, by turns at its front and at its end.
pub struct Room {
    front: *mut u8,
    size: usize,
    at_end: bool,
    length: usize,
}

impl Room {
    /// A room for runs of up to `most` bytes.
    pub fn new(most: usize) -> Room {
        let size = (most + MARGIN + STRETCH - 1) / STRETCH * STRETCH;
        // SAFETY: a new mapping that nothing else knows of, and a part inside it.
        let front = unsafe {
            let whole = mmap(
                std::ptr::null_mut(),
                size + 2 * STRETCH,
                MAY_NOTHING,
                PRIVATE_AND_OF_NO_FILE,
                -1,
                0,
            ) as *mut u8;
            assert!(whole as isize != -1, "no memory");
            assert_eq!(
                mprotect(whole.add(STRETCH) as *mut c_void, size, MAY_READ_AND_WRITE),
                0,
                "no memory"
            );
            whole.add(STRETCH)
        };
        Room {
            front,
            size,
            at_end: false,
            length: 0,
        }
    }

    /// Where the run starts, and where the known bytes beside it start.
    fn starts(&self) -> (usize, usize) {
        match self.at_end {
            true => (self.size - self.length, self.size - self.length - MARGIN),
            false => (0, self.length),
        }
    }

    /// Puts a copy of the bytes at the other edge than the time before.
    pub fn lend(&mut self, bytes: &[u8]) -> *mut u8 {
        assert!(bytes.len() + MARGIN <= self.size, "the room is too small");
        self.at_end = !self.at_end;
        self.length = bytes.len();
        let (run, margin) = self.starts();
        // SAFETY: both runs are inside the room, as asserted.
        unsafe {
            std::ptr::write_bytes(self.front.add(margin), CANARY, MARGIN);
            std::ptr::copy_nonoverlapping(bytes.as_ptr(), self.front.add(run), bytes.len());
            self.front.add(run)
        }
    }

    /// What stands there now.
    pub fn bytes(&self) -> &[u8] {
        // SAFETY: the run is inside the room, and every byte of a mapping has a value.
        unsafe { std::slice::from_raw_parts(self.front.add(self.starts().0), self.length) }
    }

    /// Whether the known bytes beside the run are as they were.
    pub fn margin_is_whole(&self) -> bool {
        // SAFETY: the margin is inside the room.
        let margin = unsafe { std::slice::from_raw_parts(self.front.add(self.starts().1), MARGIN) };
        margin.iter().all(|byte| *byte == CANARY)
    }

    /// Whether the run still holds these bytes, with nothing written beside it.
    pub fn is_unchanged(&self, bytes: &[u8]) -> bool {
        self.bytes() == bytes && self.margin_is_whole()
    }
}
