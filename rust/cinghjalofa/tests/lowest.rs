//! The lowest figure, call by call: single calls, lists, pages, images that are handed on, and refusals.

use cinghjalofa::{Call, CallAnswer, LentAllocator, MemoryAllocator, UncheckedAllocator, IMAGE_BYTES};

/// Histories from empty, with the figure after each call.
const HISTORIES: [(&[Call], &[Option<usize>]); 6] = [
    (
        &[Call::free(0, 8192), Call::allocate(4096, 0), Call::free(65536, 65536), Call::allocate(4096, 0)],
        &[Some(8192), Some(4096), Some(4096), Some(4096)],
    ),
    (&[Call::free(0, 4096), Call::allocate(4096, 0), Call::free(0, 8192)], &[Some(4096), Some(0), Some(0)]),
    (&[Call::free(0, 8192), Call::allocate(4096, 0), Call::free(0, 4096)], &[Some(8192), Some(4096), Some(4096)]),
    (&[Call::free(65536, 65536), Call::reserve_memory(70000, 100, 12)], &[Some(65536), Some(61440)]),
    (&[Call::allocate(1, 0), Call::free(5, 0), Call::reserve_memory(0, 1, 0)], &[None, None, None]),
    (
        &[Call::free(0, 8192), Call::allocate(8193, 0), Call::free(0, 1), Call::reserve_memory(4096, 8192, 0)],
        &[Some(8192), Some(8192), Some(8192), Some(8192)],
    ),
];

#[test]
fn each_call_is_noted() {
    for (calls, figures) in HISTORIES {
        let (mut checked, mut unchecked) = (MemoryAllocator::new(), UncheckedAllocator::new());
        let mut image = [0; IMAGE_BYTES];
        let mut lent = LentAllocator::new(&mut image).unwrap();
        for (call, &figure) in calls.iter().zip(figures) {
            let list = std::slice::from_ref(call);
            checked.serve(list, &mut [CallAnswer::default()]).unwrap();
            unchecked.serve(list, &mut [CallAnswer::default()]).unwrap();
            lent.serve(list, &mut [CallAnswer::default()]).unwrap();
            assert_eq!(
                (checked.lowest(), unchecked.lowest(), lent.lowest()),
                (figure, figure, figure),
                "{call:?} of {calls:?}"
            );
        }
    }
}

/// A list counts the total after each of its calls, not at its end.
#[test]
fn a_list_is_noted_call_by_call() {
    for (calls, figures) in HISTORIES {
        let mut memory = MemoryAllocator::new();
        memory.serve(calls, &mut [CallAnswer::default(); 4]).unwrap();
        assert_eq!(memory.lowest(), *figures.last().unwrap(), "{calls:?}");
    }
    let mut memory = MemoryAllocator::new();
    let calls = [Call::free(0, 8192), Call::allocate(8192, 0), Call::free(0, 8192)];
    memory.serve(&calls, &mut [CallAnswer::default(); 3]).unwrap();
    assert_eq!((memory.total(), memory.lowest()), (8192, Some(0)));
}

#[test]
fn pages_are_noted_and_an_image_carries_the_figure() {
    let mut memory = UncheckedAllocator::new();
    memory.free_pages(0x10000, 16).unwrap();
    memory.allocate_pages(12, 0).unwrap();
    memory.free_pages(0x10000, 12).unwrap();
    let image = memory.image();
    assert_eq!(u64::from_be_bytes(image[39..47].try_into().unwrap()), 0x4000);
    let again = MemoryAllocator::from_image(&image).unwrap();
    assert_eq!((again.total(), again.lowest()), (0x10000, Some(0x4000)));
}
