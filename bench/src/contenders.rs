//! Who plays. To add a path that answers call by call, add a line to `contenders!`; one that serves many calls at a time
//! implements `Contender` itself, which is handed the calls in words too.

use crate::call::{Answer, Call};
use crate::library;
use crate::plain;
use crate::workload::Stretch;

// What the report calls them.
const RUST: &str = "MiniVisor's Rust";
const OVER_IMAGE: &str = "C call over the image";
const OVER_IMAGE_PLAIN: &str = "the same, plain memcpy";
const LISTS_OVER_IMAGE: &str = "a list at a time over the image";
const CHECKED: &str = "own state, checked";
const UNCHECKED: &str = "own state, unchecked";
const LISTS_ON_OWN: &str = "a list at a time on an own state";

pub trait Contender {
    fn name(&self) -> &'static str;

    /// Whether its refusal numbers may be others than document 01's.
    fn numbers_drift(&self) -> bool;

    /// Begins again, empty.
    fn reset(&mut self);

    /// Plays all calls and writes the answer to each in its place: the address, or minus the refusal number.
    fn play(&mut self, stretch: Stretch, answers: &mut [i64]);
}

/// `name: an allocator with the module's calls, numbers_drift, what the report calls it`
macro_rules! contenders {
    ($($name:ident: $allocator:ty, $drift:literal, $title:expr;)*) => {
        $(
            struct $name($allocator);

            impl Contender for $name {
                fn name(&self) -> &'static str {
                    $title
                }

                fn numbers_drift(&self) -> bool {
                    $drift
                }

                fn reset(&mut self) {
                    self.0 = <$allocator>::new();
                }

                fn play(&mut self, stretch: Stretch, answers: &mut [i64]) {
                    play_one_by_one!(self.0, stretch.calls, answers);
                }
            }
        )*
    };
}

macro_rules! play_one_by_one {
    ($memory:expr, $calls:expr, $answers:expr) => {
        for (call, answer) in $calls.iter().zip($answers) {
            let result = match *call {
                Call::Allocate { size, order } => $memory.allocate(size as usize, order as usize),
                Call::Free { start, size } => $memory.free(start as usize, size as usize).map(|()| 0),
                Call::Reserve { start, size, order } => {
                    $memory.reserve_memory(start as usize, size as usize, order as usize).map(|()| 0)
                }
            };
            *answer = match result {
                Ok(address) => address as i64,
                Err(error) => -1 - error as i64,
            };
        }
    };
}

// The module adds the size of a free twice, so that its total drifts, and with it its refusals.
contenders! {
    Rust: original::memory_allocator::MemoryAllocator, true, RUST;
    Checked: cinghjalofa::MemoryAllocator, false, CHECKED;
    Unchecked: cinghjalofa::UncheckedAllocator, false, UNCHECKED;
}

/// The calls over a lent image: those of the archive, or the same with a plain `memcpy` (plain.rs).
struct OverImage {
    title: &'static str,
    image: [u8; library::IMAGE_BYTES],
    calls: &'static Calls,
}

pub struct Calls {
    pub new: fn(&mut [u8]) -> i64,
    pub allocate: fn(&mut [u8], u64, u64) -> i64,
    pub free: fn(&mut [u8], u64, u64) -> i64,
    pub reserve: fn(&mut [u8], u64, u64, u64) -> i64,
}

static OF_THE_ARCHIVE: Calls =
    Calls { new: library::new, allocate: library::allocate, free: library::free, reserve: library::reserve_memory };

impl OverImage {
    fn by(title: &'static str, calls: &'static Calls) -> Box<dyn Contender> {
        Box::new(Self { title, image: [0; library::IMAGE_BYTES], calls })
    }
}

impl Contender for OverImage {
    fn name(&self) -> &'static str {
        self.title
    }

    fn numbers_drift(&self) -> bool {
        false
    }

    fn reset(&mut self) {
        (self.calls.new)(&mut self.image);
    }

    fn play(&mut self, stretch: Stretch, answers: &mut [i64]) {
        for (call, answer) in stretch.calls.iter().zip(answers) {
            *answer = match *call {
                Call::Allocate { size, order } => (self.calls.allocate)(&mut self.image, size, order),
                Call::Free { start, size } => (self.calls.free)(&mut self.image, start, size),
                Call::Reserve { start, size, order } => (self.calls.reserve)(&mut self.image, start, size, order),
            };
        }
    }
}

/// What serves a list of calls in words.
pub trait Lister {
    const TITLE: &'static str;
    fn new() -> Self;
    fn serve(&mut self, words: &[u64], answers: &mut [i64]) -> i64;
}

impl Lister for [u8; library::IMAGE_BYTES] {
    const TITLE: &'static str = LISTS_OVER_IMAGE;

    fn new() -> Self {
        let mut image = [0; library::IMAGE_BYTES];
        library::new(&mut image);
        image
    }

    fn serve(&mut self, words: &[u64], answers: &mut [i64]) -> i64 {
        library::batch(self, words, answers)
    }
}

impl Lister for library::Own {
    const TITLE: &'static str = LISTS_ON_OWN;

    fn new() -> Self {
        library::Own::new()
    }

    fn serve(&mut self, words: &[u64], answers: &mut [i64]) -> i64 {
        self.batch(words, answers)
    }
}

/// Lists of so many calls, the last of a stretch with what is left.
struct Lists<L> {
    lister: L,
    length: usize,
}

impl<L: Lister + 'static> Lists<L> {
    fn of(length: usize) -> Box<dyn Contender> {
        Box::new(Self { lister: L::new(), length })
    }
}

impl<L: Lister> Contender for Lists<L> {
    fn name(&self) -> &'static str {
        L::TITLE
    }

    fn numbers_drift(&self) -> bool {
        false
    }

    fn reset(&mut self) {
        self.lister = L::new();
    }

    fn play(&mut self, stretch: Stretch, answers: &mut [i64]) {
        let lists = stretch.words.chunks(self.length.saturating_mul(library::CALL_WORDS));
        for (words, answers) in lists.zip(answers.chunks_mut(self.length)) {
            if self.lister.serve(words, answers) < 0 {
                answers.fill(i64::MIN); // no call is answered so
            }
        }
    }
}

/// The Rust first, with which the others are compared.
pub fn all() -> Vec<Box<dyn Contender>> {
    vec![
        rust(),
        OverImage::by(OVER_IMAGE, &OF_THE_ARCHIVE),
        OverImage::by(OVER_IMAGE_PLAIN, &plain::CALLS),
        Lists::<[u8; library::IMAGE_BYTES]>::of(usize::MAX),
        Box::new(Checked(cinghjalofa::MemoryAllocator::new())),
        Box::new(Unchecked(cinghjalofa::UncheckedAllocator::new())),
        Lists::<library::Own>::of(usize::MAX),
    ]
}

/// The Rust, and lists of so many calls: over the image, then on a state of one's own.
pub fn with_lists(lengths: &[usize]) -> Vec<Box<dyn Contender>> {
    let over_image = lengths.iter().map(|&length| Lists::<[u8; library::IMAGE_BYTES]>::of(length));
    let on_own = lengths.iter().map(|&length| Lists::<library::Own>::of(length));
    std::iter::once(rust()).chain(over_image).chain(on_own).collect()
}

fn rust() -> Box<dyn Contender> {
    Box::new(Rust(original::memory_allocator::MemoryAllocator::new()))
}

pub fn as_number(answer: Answer) -> i64 {
    match answer {
        Answer::Accepted(address) => address as i64,
        Answer::Refused(number) => -i64::from(number),
        Answer::Assertion => i64::MIN,
    }
}
