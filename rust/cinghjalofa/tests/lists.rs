//! Lists of calls, by the crate's own types.

use cinghjalofa::{Call, CallAnswer, LentAllocator, MemoryAllocator, MemoryError, IMAGE_BYTES};

/// Takes, reserves and frees, some of them refused.
fn mixed_calls() -> Vec<Call> {
    let mut calls = vec![Call::free(0x10_0000, 0x10_0000), Call::free(0x40_0000, 0x1000)];
    for k in 0..20 {
        calls.push(Call::allocate(0x1000 * (1 + k % 3), 12 + k % 2));
        calls.push(Call::reserve_memory(0x10_0000 + 0x7000 * k, 0x100, 12));
        calls.push(Call::free(0x10_0000 + 0x7000 * k, 0x1000));
        calls.push(Call::free(0x80_0000 + 0x2000 * k, if k == 7 { 0 } else { 0x1000 }));
    }
    calls
}

fn results(answers: &[CallAnswer]) -> Vec<Result<usize, MemoryError>> {
    answers.iter().map(|answer| answer.result()).collect()
}

fn served(memory: &mut MemoryAllocator, calls: &[Call]) -> Vec<Result<usize, MemoryError>> {
    let mut answers = vec![CallAnswer::default(); calls.len()];
    assert_eq!(memory.serve(calls, &mut answers), Ok(()));
    results(&answers)
}

#[test]
fn each_kind_reaches_its_call_with_its_numbers() {
    let mut memory = MemoryAllocator::new();
    let calls = [
        Call::free(0x1_0000, 0x1_0000),
        Call::reserve_memory(70000, 100, 12),
        Call::allocate(0x2000, 14),
        Call::reserve_memory(70000, 100, 12),
        Call::allocate(usize::MAX, 0),
        Call::allocate(1, 64),
    ];
    let due = [
        Ok(0),
        Ok(0),
        Ok(0x1_4000),
        Err(MemoryError::InvalidRequest),
        Err(MemoryError::NoMemory),
        Err(MemoryError::InvalidRequest),
    ];
    assert_eq!(served(&mut memory, &calls), due);
    assert_eq!(memory.total(), 0x1_0000 - 0x1000 - 0x2000);
}

#[test]
fn a_list_may_be_cut_anywhere() {
    let calls = mixed_calls();
    let mut whole = MemoryAllocator::new();
    let due = served(&mut whole, &calls);
    assert!(due.iter().any(|result| matches!(result, Ok(1..))) && due.iter().any(|result| result.is_err()));
    for k in 0..=calls.len() {
        let mut memory = MemoryAllocator::new();
        let (first, rest) = calls.split_at(k);
        assert_eq!([served(&mut memory, first), served(&mut memory, rest)].concat(), due, "cut at {k}");
        assert_eq!(memory.image(), whole.image(), "cut at {k}");
    }
    let mut memory = MemoryAllocator::new();
    assert_eq!(calls.iter().flat_map(|call| served(&mut memory, &[*call])).collect::<Vec<_>>(), due);
    assert_eq!(memory.image(), whole.image());
}

#[test]
fn too_few_places_change_nothing_and_more_are_left_alone() {
    let calls = [Call::free(0x1000, 0x1000), Call::free(0x1000, 0x1000)];
    let mut memory = MemoryAllocator::new();
    let mut answers = [CallAnswer::default(); 3];
    assert_eq!(memory.serve(&calls, &mut answers[..1]), Err(MemoryError::InvalidRequest));
    assert_eq!((memory.image(), answers), (MemoryAllocator::new().image(), [CallAnswer::default(); 3]));

    let refused = Err(MemoryError::InvalidRequest);
    assert_eq!(memory.serve(&calls, &mut answers[1..]), Ok(()));
    assert_eq!(results(&answers), [Ok(0), Ok(0), refused]);
    let kept = answers[2];
    assert_eq!(memory.serve(&[Call::free(0x1000, 0x1000)], &mut answers), Ok(()));
    assert_eq!((answers[0].result(), answers[2]), (refused, kept));
    assert_eq!(memory.serve(&[], &mut []), Ok(()));
}

#[test]
fn a_lent_image_is_served_in_place() {
    let (mut image, calls) = ([0; IMAGE_BYTES], mixed_calls());
    let mut answers = vec![CallAnswer::default(); calls.len()];
    LentAllocator::new(&mut image).unwrap().serve(&calls, &mut answers).unwrap();
    let mut memory = MemoryAllocator::new();
    assert_eq!(results(&answers), served(&mut memory, &calls));
    assert_eq!(image, memory.image());
}
