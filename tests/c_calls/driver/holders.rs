//! An allocator with holders: random histories held to the plain model of request T-07, a sound image after each call, and every one-byte
//! change of an image with much in its register, which must be refused exactly where the judge finds it unsound.

use crate::fields::Fields;
use crate::holder_image::{entries_of, is_sound_register, written, MEMORY_AT};
use crate::holder_model::{self as model, Held, Model, ENTRIES, RECORDS, TOP};
use crate::holder_random::{Generator, KINDS};
use crate::judge;
use crate::lent::{Call, Lent, HOLDERS_IMAGE_BYTES};
use crate::report::Report;

type Image = [u8; HOLDERS_IMAGE_BYTES];

const HISTORIES: usize = 6 * KINDS.len();
const CALLS: usize = 420;

/// Refused by every sound image with -4.
const BAD: model::Call = model::Call::Allocate { holder: 17, size: 1, order: 0 };

pub fn run(report: &mut Report) -> Result<(), String> {
    if HOLDERS_IMAGE_BYTES - crate::lent::IMAGE_BYTES != MEMORY_AT {
        return Err("the register is of another length than the model's".to_string());
    }
    for seed in 0..HISTORIES {
        play(seed as u64, report);
    }
    println!("{} calls of random histories are those of the model", HISTORIES * CALLS);
    sweep(report);
    Ok(())
}

struct Player {
    lent: Lent,
    image: Image,
}

impl Player {
    fn new(shift: usize, report: &mut Report) -> Player {
        let mut player = Player { lent: Lent::new(HOLDERS_IMAGE_BYTES, shift), image: [0xa5; HOLDERS_IMAGE_BYTES] };
        player.lent.expect(&player.image, Call::HoldersNew, 0, "over whatever is there", report);
        player.image.copy_from_slice(player.lent.slice());
        player
    }

    fn play(&mut self, call: model::Call, report: &mut Report) -> i64 {
        let answer = self.lent.call(&self.image, Call::Holders(call), report);
        self.image.copy_from_slice(self.lent.slice());
        answer
    }
}

/// The free ranges of the allocator's image inside, or none where that is not sound.
fn free(image: &Image) -> Option<Vec<(u64, u64)>> {
    let memory = image[MEMORY_AT..].try_into().ok().filter(judge::is_sound)?;
    let fields = Fields::read(&memory);
    Some(fields.chain().iter().map(|&at| (fields.records[at].start, fields.records[at].end)).collect())
}

fn play(seed: u64, report: &mut Report) {
    let mut generator = Generator::new(seed);
    let mut player = Player::new(seed as usize % 16, report);
    let mut model = Model::new(RECORDS, ENTRIES);
    for made in 0..CALLS {
        if report.is_enough() {
            return;
        }
        let call = generator.call(&model, made);
        let (answer, due) = (player.play(call, report), model.play(call));
        let place = format!("call {made} of history {seed}, {call:?}");
        if answer != due {
            report.fail(&format!("{place}: answered {answer}, must be {due}"));
            return;
        }
        if entries_of(&player.image) != written(&model.entries) {
            report.fail(&format!("{place}: the register has {:?}", used(&player.image)));
        }
        match free(&player.image) {
            Some(free) if is_sound_register(&player.image, &free) && free == model.free() => {}
            Some(free) => report.fail(&format!("{place}: free are {free:?}, the register {:?}", used(&player.image))),
            None => report.fail(&format!("{place}: it left no image of a sound allocator")),
        }
    }
}

fn used(image: &Image) -> Vec<Held> {
    entries_of(image).into_iter().filter(|entry| entry.holder != 0).collect()
}

/// Ranges of several holders that touch one another and free ones, at both ends of the addresses, and an entry that was given back.
fn rich(report: &mut Report) -> Image {
    let mut player = Player::new(3, report);
    for (letter, numbers) in [
        ('o', &[0, 0x40][..]),
        ('o', &[0x100, 0x1000]),
        ('o', &[TOP - 0x20, 0x20]),
        ('r', &[1, 0, 1, 0]),
        ('r', &[2, 0x10, 4, 0]),
        ('r', &[16, 0x14, 1, 0]),
        ('r', &[1, 0x200, 0x80, 4]),
        ('r', &[4, TOP - 1, 1, 0]),
        ('f', &[2, 0x10, 4]),
    ] {
        let answer = player.play(model::Call::of(letter, numbers).unwrap(), report);
        if answer < 0 {
            report.fail(&format!("{letter} {numbers:?} was refused with {answer} on the way to the rich image"));
        }
    }
    player.image
}

/// All values of every byte before the allocator's image; of that one a bit of each byte.
fn sweep(report: &mut Report) {
    let image = rich(report);
    let mut lent = Lent::new(HOLDERS_IMAGE_BYTES, 7);
    let (mut images, mut sound) = (0, 0);
    for at in 0..HOLDERS_IMAGE_BYTES {
        let values: Vec<u8> = if at < MEMORY_AT { (0..=255).collect() } else { vec![image[at] ^ 1 << (at % 8)] };
        for value in values.into_iter().filter(|&value| value != image[at]) {
            if report.is_enough() {
                return;
            }
            let mut changed = image;
            changed[at] = value;
            let is_sound = free(&changed).map_or(false, |free| is_sound_register(&changed, &free));
            let (due, made) = if is_sound { (-4, "another sound one") } else { (-2, "unsound") };
            let why = format!("byte {at} = {value} makes it {made}");
            lent.expect(&changed, Call::Holders(BAD), due, &why, report);
            images += 1;
            sound += is_sound as u64;
        }
    }
    if sound < 100 {
        report.fail("of the changes of an entry too few are sound: the sweep shows nothing of those");
    }
    println!("the register of a rich image, one byte changed: {images} images, {sound} sound");
}
