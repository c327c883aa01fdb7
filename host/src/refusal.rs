//! The refusals, by the names and numbers of docs/RULES.md, "Refusals".

use std::fmt;

macro_rules! refusals {
    ($($number:literal $name:ident $when:literal $advice:literal,)*) => {
        /// Why a call was refused. The numbers and names are those of document 01, "Refusal
        /// numbers"; each call lists those that it gives, in its order.
        #[derive(Clone, Copy, Debug, PartialEq, Eq, Hash)]
        pub enum Refusal {
            $(
                #[doc = concat!(stringify!($number), ": ", $when, ".")]
                $name = $number,
            )*
        }

        impl Refusal {
            /// Every refusal, by number.
            pub const ALL: &'static [Refusal] = &[$(Refusal::$name,)*];

            /// The name in document 01.
            pub fn name(self) -> &'static str {
                match self { $(Refusal::$name => stringify!($name),)* }
            }

            /// When it is given.
            pub fn when(self) -> &'static str {
                match self { $(Refusal::$name => $when,)* }
            }

            /// What a person can do about it.
            pub fn advice(self) -> &'static str {
                match self { $(Refusal::$name => $advice,)* }
            }
        }
    };
}

refusals! {
    1 Domain "the number of cells is 0 or above the limit"
        "a single key takes 1 to 2^34 cells, a posting of several points 1 to 2^32 - 1",
    2 Buckets "the number of buckets is 0 or above 65,535"
        "give another --buckets, or none",
    3 Count "there are no points, or more points than buckets, or not as many values as points"
        "give more --buckets, or split the posting",
    4 Point "a point is outside the table, or not above the one before it"
        "correct the cell",
    5 Scratch "the working memory lent is too short"
        "this is a fault of the program that called",
    6 Place "the points did not fit into the buckets under these hash keys"
        "try again, give more --buckets, or split the posting",
    7 Words "there are too few random words"
        "this is a fault of the program that called",
    8 Room "a key buffer or an output is too short"
        "this is a fault of the program that called",
    9 Key "these bytes are no key"
        "the file is damaged, cut short, too long, or no key at all: have it sent again",
    10 Index "the cell is outside the table, or the bucket is none of the key's"
        "give a lower cell",
    11 Table "the table has not as many cells as the key"
        "the key belongs to another table",
    12 Mismatch "a record of the key is made for another bucket size than the key's hash keys give"
        "the file is damaged, or was not made by an honest maker: have it sent again",
}

impl Refusal {
    /// The number in document 01.
    pub fn number(self) -> u64 {
        self as u64
    }

    /// The refusal of a number that is not 0; none where document 01 has no such number.
    pub fn of(number: u64) -> Option<Refusal> {
        Refusal::ALL.iter().copied().find(|refusal| refusal.number() == number)
    }
}

impl fmt::Display for Refusal {
    fn fmt(&self, f: &mut fmt::Formatter<'_>) -> fmt::Result {
        write!(f, "refusal {} {}: {}", self.number(), self.name(), self.when())
    }
}

impl std::error::Error for Refusal {}
