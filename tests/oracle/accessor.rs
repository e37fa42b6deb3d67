
/* Appended by the comparison: reads the private fields and changes nothing. */
pub struct WatchedEntry {
    pub enabled: bool,
    pub id: u32,
    pub start: usize,
    pub end: usize,
    pub previous: Option<u32>,
    pub next: Option<u32>,
    pub list_prev: Option<u32>,
    pub list_next: Option<u32>,
}

impl MemoryAllocator {
    pub const WATCHED_POOL_SIZE: usize = Self::POOL_SIZE;
    pub const WATCHED_LISTS: usize = Self::NUM_OF_FREE_LIST;

    pub fn watched_free_size(&self) -> usize {
        self.free_size
    }

    pub fn watched_first_entry(&self) -> Option<u32> {
        self.first_entry
    }

    pub fn watched_head(&self, list: usize) -> Option<u32> {
        self.free_list[list]
    }

    #[inline]
    pub fn watched_entry(&self, index: usize) -> WatchedEntry {
        let e = unsafe { (*self.memory_entry_pool.get())[index] };
        WatchedEntry {
            enabled: e.enabled,
            id: e.id,
            start: e.start,
            end: e.end,
            previous: e.previous,
            next: e.next,
            list_prev: e.list_prev,
            list_next: e.list_next,
        }
    }
}
