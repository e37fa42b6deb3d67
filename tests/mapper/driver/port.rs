// The library's calls, an arena with its allocator, and a walk that knows nothing of the library.
#![allow(dead_code)]

extern "C" {
    fn cinghjalofa_new(image: *mut u8, length: usize) -> i64;
    fn cinghjalofa_free(image: *mut u8, length: usize, start: u64, size: u64) -> i64;
    fn cinghjalofa_allocate_pages(image: *mut u8, length: usize, count: u64, order: u64) -> i64;
    fn cinghjalofa_map_address_stage2(
        image: *mut u8,
        length: usize,
        arena: *mut u64,
        words: usize,
        base: u64,
        vttbr: u64,
        vtcr: u64,
        physical_address: u64,
        intermediate_physical_address: u64,
        map_size: u64,
        is_readable: bool,
        is_writable: bool,
    ) -> i64;
}

/// The image of a new allocator, of whatever length this library's images have.
pub fn new_image() -> Vec<u8> {
    for length in 0..1 << 16 {
        let mut image = vec![0; length];
        if unsafe { cinghjalofa_new(image.as_mut_ptr(), length) } == 0 {
            return image;
        }
    }
    panic!("the library takes no image");
}

pub fn free(image: &mut [u8], start: u64, size: u64) -> i64 {
    unsafe { cinghjalofa_free(image.as_mut_ptr(), image.len(), start, size) }
}

pub fn take_page(image: &mut [u8]) -> i64 {
    unsafe { cinghjalofa_allocate_pages(image.as_mut_ptr(), image.len(), 1, 12) }
}

#[derive(Clone, PartialEq)]
pub struct World {
    pub image: Vec<u8>,
    pub arena: Vec<u64>,
    pub base: u64,
    pub vttbr: u64,
    pub vtcr: u64,
}

#[derive(Clone, Copy, Debug)]
pub struct Ask {
    pub output: u64,
    pub input: u64,
    pub size: u64,
    pub readable: bool,
    pub writable: bool,
}

impl World {
    pub fn map(&mut self, ask: Ask) -> i64 {
        unsafe {
            cinghjalofa_map_address_stage2(
                self.image.as_mut_ptr(),
                self.image.len(),
                self.arena.as_mut_ptr(),
                self.arena.len(),
                self.base,
                self.vttbr,
                self.vtcr,
                ask.output,
                ask.input,
                ask.size,
                ask.readable,
                ask.writable,
            )
        }
    }

    fn place(&self, address: u64) -> usize {
        (address.wrapping_sub(self.base) / 8) as usize
    }

    /// The word at an address; 0 outside the arena.
    pub fn word(&self, address: u64) -> u64 {
        self.arena.get(self.place(address)).copied().unwrap_or(0)
    }

    pub fn put(&mut self, address: u64, value: u64) {
        let place = self.place(address);
        if let Some(word) = self.arena.get_mut(place) {
            *word = value;
        }
    }

    fn level(&self) -> u32 {
        2u32.saturating_sub((self.vtcr >> 6 & 3) as u32)
    }

    fn top(&self) -> u64 {
        self.vttbr & 0xffff_ffff_fffe
    }

    /// How many entries of the top table an input reaches.
    fn entries(&self) -> u64 {
        1 << (64 - (self.vtcr & 63)).saturating_sub(shift(self.level()) as u64)
    }

    /// The level and the address of the word that the walk of an input ends with.
    pub fn descriptor(&self, input: u64) -> (u32, u64) {
        let mut level = self.level();
        let mut at = self.top() + 8 * (input >> shift(level));
        while level < 3 && self.word(at) & 3 == 3 {
            level += 1;
            at = table_at(self.word(at)) + 8 * (input >> shift(level) & 511);
        }
        (level, at)
    }

    /// The addresses of the tables that the top table leads to.
    pub fn tables(&self) -> Vec<u64> {
        let mut found = Vec::new();
        self.add_tables(self.level(), self.top(), self.entries(), &mut found);
        found
    }

    fn add_tables(&self, level: u32, address: u64, entries: u64, found: &mut Vec<u64>) {
        for word in (0..entries).map(|index| self.word(address + 8 * index)) {
            if level < 3 && word & 3 == 3 {
                found.push(table_at(word));
                self.add_tables(level + 1, table_at(word), 512, found);
            }
        }
    }
}

/// A word of a level translates 2 to this power bytes.
fn shift(level: u32) -> u32 {
    12 + 9 * (3 - level)
}

fn table_at(word: u64) -> u64 {
    word & 0xffff_ffff_f000
}

/// A stretch of inputs that are translated alike: the first, how many, the first output, and the attributes.
#[derive(Clone, Copy, Debug, PartialEq)]
pub struct Stretch {
    pub input: u64,
    pub size: u64,
    pub output: u64,
    pub attributes: u64,
}

const ATTRIBUTES: u64 = 0xfffc_0000_0000_0ffc;

fn walk_table(world: &World, level: u32, address: u64, entries: u64, first: u64, found: &mut Vec<Stretch>) {
    let shift = shift(level);
    for index in 0..entries {
        let word = world.word(address + 8 * index);
        let input = first + (index << shift);
        match (level, word & 3) {
            (0..=2, 3) => walk_table(world, level + 1, table_at(word), 512, input, found),
            (1..=2, 1) | (3, 3) => found.push(Stretch {
                input,
                size: 1 << shift,
                output: word & 0xffff_ffff_ffff & !((1 << shift) - 1),
                attributes: word & ATTRIBUTES,
            }),
            _ => {}
        }
    }
}

/// All that is translated, by input, as the architecture has it.
pub fn walk(world: &World) -> Vec<Stretch> {
    let mut found = Vec::new();
    walk_table(world, world.level(), world.top(), world.entries(), 0, &mut found);
    found
}

/// A block stands where the map wants a table: it has inputs of the range, and no block of the map can take its whole place.
pub fn is_blocked(before: &[Stretch], ask: Ask) -> bool {
    before.iter().filter(|stretch| stretch.size > 4096).any(|block| {
        let (end, past) = (block.input + block.size, ask.input + ask.size);
        let is_met = ask.input < end && block.input < past;
        let is_whole = ask.input <= block.input && end <= past;
        is_met && !(is_whole && (ask.output + (block.input - ask.input)) % block.size == 0)
    })
}

/// What one input is translated to.
fn at(stretches: &[Stretch], input: u64) -> Option<(u64, u64)> {
    let after = stretches.partition_point(|stretch| stretch.input <= input);
    let stretch = stretches[..after].last()?;
    (input - stretch.input < stretch.size).then(|| (stretch.output + (input - stretch.input), stretch.attributes))
}

/// As asked in the range and as before elsewhere; all stretches begin and end at multiples of a page and are linear, so their ends suffice.
pub fn is_mapped(before: &[Stretch], after: &[Stretch], ask: Ask) -> Result<(), String> {
    let attributes = 0x73c | ((ask.writable as u64) << 7) | ((ask.readable as u64) << 6);
    let mut inputs = vec![ask.input, ask.input + ask.size];
    for stretch in before.iter().chain(after) {
        inputs.extend([stretch.input, stretch.input + stretch.size]);
    }
    for input in inputs.iter().flat_map(|&input| [input, input.wrapping_sub(4096)]) {
        let wanted = if input.wrapping_sub(ask.input) < ask.size {
            Some((ask.output + (input - ask.input), attributes))
        } else {
            at(before, input)
        };
        if at(after, input) != wanted {
            return Err(format!("input {input:#x} gives {:x?} in place of {wanted:x?}", at(after, input)));
        }
    }
    Ok(())
}

/// Numbers by chance, the same in each run.
pub struct Chance(pub u64);

impl Chance {
    pub fn below(&mut self, n: u64) -> u64 {
        self.0 ^= self.0 << 13;
        self.0 ^= self.0 >> 7;
        self.0 ^= self.0 << 17;
        (self.0 >> 11) % n
    }
}
