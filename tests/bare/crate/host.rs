//! The same calls on this machine.

mod play;

use play::{play, Ram, Room, PAGES};

fn main() {
    let (mut ram, mut room) = (Box::new(Ram([0; PAGES * 512])), Box::new(Room([0; cinghjalofa::IMAGE_BYTES + 1])));
    play(&mut ram, &mut room, &mut |line| println!("crate: {line}"));
}
