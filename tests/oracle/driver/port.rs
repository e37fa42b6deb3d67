//! The port, reached as the hypervisor reaches it: C calls over a lent image.

use crate::call::{Answer, Call};
use crate::image::{self, Image, IMAGE};
use crate::shape::Shape;

extern "C" {
    fn cinghjalofa_new(image: *mut u8, len: usize) -> i64;
    fn cinghjalofa_allocate(image: *mut u8, len: usize, size: u64, order: u64) -> i64;
    fn cinghjalofa_reserve_memory(image: *mut u8, len: usize, start: u64, size: u64, order: u64) -> i64;
    fn cinghjalofa_free(image: *mut u8, len: usize, start: u64, size: u64) -> i64;
}

#[derive(Clone)]
pub struct Port {
    pub image: Image,
}

impl Port {
    /// The port's own empty allocator, written over bytes that are no image.
    pub fn new() -> Port {
        let mut port = Port { image: [0xa5; IMAGE] };
        let answer = unsafe { cinghjalofa_new(port.image.as_mut_ptr(), IMAGE) };
        assert_eq!(answer, 0, "cinghjalofa_new refused a slice of {IMAGE} bytes");
        port
    }

    pub fn play(&mut self, call: Call) -> Answer {
        let image = self.image.as_mut_ptr();
        answer_of(unsafe {
            match call {
                Call::Free { start, size } => cinghjalofa_free(image, IMAGE, start, size),
                Call::Allocate { size, order } => cinghjalofa_allocate(image, IMAGE, size, order),
                Call::Reserve { start, size, order } => cinghjalofa_reserve_memory(image, IMAGE, start, size, order),
            }
        })
    }

    pub fn shape(&self) -> Result<Shape, String> {
        image::read(&self.image)
    }
}

pub fn answer_of(number: i64) -> Answer {
    match number {
        address @ 0.. => Answer::Accepted(address as u64),
        refusal => Answer::Refused(u8::try_from(refusal.unsigned_abs()).unwrap_or(u8::MAX)),
    }
}
