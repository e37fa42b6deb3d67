//! Random histories of an allocator with holders, each call held to the plain model of request T-07: the answer, the free and held ranges,
//! and which entry has what. The numbers are drawn from a fixed seed.

mod holding;

use std::collections::BTreeMap;

use holding::holder_image::{entries_of, written};
use holding::holder_model::{Call, Model, ENTRIES, RECORDS};
use holding::holder_random::Generator;
use holding::{held, Both};

fn compare(both: &Both, model: &Model, call: Call) {
    assert_eq!((both.own.total() as u64, both.free()), (model.total(), model.free()), "{call:?}");
    assert_eq!(entries_of(both.own.image()), written(&model.entries), "{call:?}");
    assert!(both.own.held().map(held).eq(model.held(None)), "{call:?}");
    if let Call::Allocate { holder, .. } | Call::Reserve { holder, .. } | Call::Free { holder, .. } = call {
        assert!(both.own.holdings(holder as usize).map(held).eq(model.held(Some(holder))), "{call:?}");
    }
}

/// How often each call got each answer; an address counts as 0.
type Reached = BTreeMap<(char, i64), usize>;

fn play(seed: u64, calls: usize, reached: &mut Reached) {
    let mut generator = Generator::new(seed);
    let (mut both, mut model) = (Both::new(), Model::new(RECORDS, ENTRIES));
    let mut offered = 0;
    for made in 0..calls {
        let call = generator.call(&model, made);
        let answer = both.play(call);
        assert_eq!(answer, model.play(call), "{call:?}, call {made} of the history of seed {seed}");
        compare(&both, &model, call);
        *reached.entry((call.letter(), answer.min(0))).or_default() += 1;
        if let (Call::Offer { size, .. }, 0) = (call, answer) {
            offered += size;
        }
        let held: usize = both.own.held().map(|range| range.size()).sum();
        assert_eq!(both.own.total() as u64 + held as u64, offered, "{call:?}: what is free and held was offered");
    }
}

#[test]
fn random_histories_are_the_models() {
    let mut reached = Reached::new();
    (0..24).for_each(|seed| play(seed, 420, &mut reached));
    for (letter, answers) in
        [('o', &[0, -1, -4, -5][..]), ('a', &[0, -1, -3, -4, -6]), ('r', &[0, -1, -3, -4, -6]), ('f', &[0, -1, -4, -5])]
    {
        for answer in answers {
            let times = reached.remove(&(letter, *answer)).unwrap_or(0);
            assert!(
                times > 2,
                "the answer {answer} to {letter} was reached {times} times: the histories say nothing of it"
            );
        }
    }
    assert!(reached.is_empty(), "answers that no call has: {reached:?}");
}
