//! The kinds of answer that the domain knows. A run that is to mean something reaches each of them.

macro_rules! kinds {
    ($($name:ident, $call:literal, $number:literal, $text:literal;)*) => {
        #[derive(Clone, Copy, PartialEq, Eq, Debug)]
        pub enum Kind { $($name),* }

        impl Kind {
            pub const ALL: &'static [Kind] = &[$(Kind::$name),*];

            pub fn call(self) -> &'static str {
                match self { $(Kind::$name => $call),* }
            }

            /// The number of document 01; 0 is accepted.
            pub fn number(self) -> u8 {
                match self { $(Kind::$name => $number),* }
            }

            pub fn text(self) -> &'static str {
                match self { $(Kind::$name => $text),* }
            }
        }
    };
}

kinds! {
    FreeApart, "free", 0, "touches no free range";
    FreeAfterLower, "free", 0, "joined with the lower neighbour";
    FreeBeforeUpper, "free", 0, "joined with the upper neighbour";
    FreeBetween, "free", 0, "joined with both neighbours";
    FreeWithoutRecord, "free", 1, "touches nothing, all records used";
    FreeOfFreeBytes, "free", 4, "inside a free range";
    AllocateWhole, "allocate", 0, "a whole range";
    AllocateFront, "allocate", 0, "the front of a range";
    AllocateTail, "allocate", 0, "the tail of a range";
    AllocateMiddle, "allocate", 0, "the middle of a range, split";
    AllocateOfLastBytes, "allocate", 0, "the last bytes, which the Rust refuses with 3";
    AllocateFurtherOn, "allocate", 0, "past a split without a record, which the Rust refuses with 1";
    AllocateWithoutRecord, "allocate", 1, "split needed wherever it fits, all records used";
    AllocateOverTotal, "allocate", 3, "size above the total";
    AllocateWithoutFit, "allocate", 3, "no range fits";
    ReserveWhole, "reserve", 0, "a whole range";
    ReserveFront, "reserve", 0, "the front of a range";
    ReserveTail, "reserve", 0, "the tail of a range";
    ReserveMiddle, "reserve", 0, "the middle of a range, split";
    ReserveOfLastBytes, "reserve", 0, "the last bytes, which the Rust refuses with 1";
    ReserveWithoutRecord, "reserve", 1, "split needed, all records used";
    ReserveOverTotal, "reserve", 3, "size above the total";
    ReserveWidenedOverTotal, "reserve", 3, "widened size above the total";
    ReserveOfUsedBytes, "reserve", 4, "starts outside all free ranges";
}
