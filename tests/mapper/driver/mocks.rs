// The root of the crate in which MiniVisor's modules are compiled: what they call, as the test sets it.
use std::cell::{Cell, RefCell};

pub type Door = Box<dyn FnMut(usize, usize) -> Result<usize, ()>>;

thread_local! {
    pub static VTTBR: Cell<u64> = const { Cell::new(0) };
    pub static VTCR: Cell<u64> = const { Cell::new(0) };
    pub static FLUSHES: Cell<u64> = const { Cell::new(0) };
    pub static DOOR: RefCell<Option<Door>> = const { RefCell::new(None) };
}

pub fn allocate_pages(pages: usize, order: usize) -> Result<usize, ()> {
    DOOR.with(|door| door.borrow_mut().as_mut().expect("a door")(pages, order))
}

// What the module prints where a page is not to be had.
#[macro_export]
macro_rules! println {
    ($($words:tt)*) => {{ let _ = format!($($words)*); }};
}

pub mod asm {
    pub fn get_vttbr_el2() -> u64 {
        crate::VTTBR.with(|value| value.get())
    }
    pub fn get_vtcr_el2() -> u64 {
        crate::VTCR.with(|value| value.get())
    }
    pub fn flush_tlb_el1() {
        crate::FLUSHES.with(|count| count.set(count.get() + 1));
    }
    pub fn get_id_aa64mmfr0_el1() -> u64 {
        0
    }
    /// # Safety
    /// None is asked.
    pub unsafe fn set_vtcr_el2(value: u64) {
        crate::VTCR.with(|cell| cell.set(value));
    }
    /// # Safety
    /// None is asked.
    pub unsafe fn set_vttbr_el2(value: u64) {
        crate::VTTBR.with(|cell| cell.set(value));
    }
}
