// The older crate's queue of input, behind `&self` as html5ever 0.40.1 calls it.
use older::buffer_queue as queue;
pub use older::buffer_queue::{FromSet, NotFromSet, SetResult};
use older::tendril::StrTendril;
use older::SmallCharSet;
use std::cell::{RefCell, RefMut};

pub struct BufferQueue(RefCell<queue::BufferQueue>);

impl Default for BufferQueue {
    fn default() -> BufferQueue {
        BufferQueue(RefCell::new(queue::BufferQueue::new()))
    }
}

impl BufferQueue {
    pub fn is_empty(&self) -> bool {
        self.0.borrow().is_empty()
    }

    pub fn peek(&self) -> Option<char> {
        self.0.borrow().peek()
    }

    pub fn next(&self) -> Option<char> {
        self.0.borrow_mut().next()
    }

    pub fn push_front(&self, buffer: StrTendril) {
        self.0.borrow_mut().push_front(buffer)
    }

    pub fn push_back(&self, buffer: StrTendril) {
        self.0.borrow_mut().push_back(buffer)
    }

    pub fn pop_front(&self) -> Option<StrTendril> {
        self.0.borrow_mut().pop_front()
    }

    pub fn pop_except_from(&self, set: SmallCharSet) -> Option<SetResult> {
        self.0.borrow_mut().pop_except_from(set)
    }

    pub fn eat<F: Fn(&u8, &u8) -> bool>(&self, pattern: &str, equal: F) -> Option<bool> {
        self.0.borrow_mut().eat(pattern, equal)
    }

    // Only the fast path of the Data state asks for this, and `exact_errors` turns that path off.
    pub fn peek_front_chunk_mut(&self) -> Option<RefMut<'_, StrTendril>> {
        unreachable!("exact_errors is on")
    }
}
