//! The crate's calls on a machine without a system: what they say goes to its serial port.
#![no_std]

use core::fmt::Write;
use core::panic::PanicInfo;

mod play;

use play::{play, Ram, Room, PAGES};

extern "C" {
    fn system_call(number: i64, first: i64, second: *const u8, third: usize) -> i64;
}

struct Serial;

impl Write for Serial {
    fn write_str(&mut self, text: &str) -> core::fmt::Result {
        unsafe { system_call(64, 1, text.as_ptr(), text.len()) };
        Ok(())
    }
}

static mut RAM: Ram = Ram([0; PAGES * 512]);
static mut ROOM: Room = Room([0; cinghjalofa::IMAGE_BYTES + 1]);

#[no_mangle]
pub extern "C" fn run_the_crate() {
    // SAFETY: it is called once.
    let (ram, room) = unsafe { (&mut *core::ptr::addr_of_mut!(RAM), &mut *core::ptr::addr_of_mut!(ROOM)) };
    play(ram, room, &mut |line| {
        let _ = writeln!(Serial, "crate: {line}");
    });
}

#[panic_handler]
fn panic(why: &PanicInfo<'_>) -> ! {
    let _ = writeln!(Serial, "PANIC {why}");
    unsafe { system_call(93, 5, core::ptr::null(), 0) };
    loop {}
}
