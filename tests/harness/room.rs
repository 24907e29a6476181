//! Room for one lent area at a time: between fences, or a heap block of just its length.

use crate::fence::{Fence, Side};

pub enum Room {
    /// Memory outside the area stops the program by itself.
    Fenced(Fence),
    /// Memcheck reports a touch of memory outside the block; without it nobody does.
    Heap(Box<[u8]>),
}

impl Room {
    /// Lays the bytes as an area and answers where they stand.
    pub fn lay(&mut self, bytes: &[u8], side: Side) -> *mut u8 {
        match self {
            Room::Fenced(fence) => fence.lay(bytes, side),
            Room::Heap(block) => {
                *block = bytes.into();
                block.as_mut_ptr()
            }
        }
    }

    /// The area as it is now.
    pub fn area(&mut self) -> &[u8] {
        match self {
            Room::Fenced(fence) => fence.area(),
            Room::Heap(block) => block,
        }
    }

    /// Whether every byte that can be looked at beside the area is as it was.
    pub fn kept(&mut self) -> bool {
        match self {
            Room::Fenced(fence) => fence.kept(),
            Room::Heap(_) => true,
        }
    }
}
