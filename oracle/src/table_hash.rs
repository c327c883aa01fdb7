//! Bucket functions that are given as tables, for the known sums: the source's placement and multi
//! keys take any hash function.

use utils_none::hash::HashFunction;

/// A bucket function over items 0 to 15: the given hash key is its table.
#[derive(Clone, Copy, Debug, PartialEq, Eq)]
pub struct TableHash {
    range_size: usize,
    table: [u8; 16],
}

impl HashFunction<u16> for TableHash {
    type Description = TableHash;

    fn sample(_range_size: usize) -> Self {
        panic!("the oracle samples no table")
    }

    fn from_seed(range_size: usize, seed: [u8; 32]) -> Self {
        let table = seed[..16].try_into().expect("16 of 32 bytes");
        Self { range_size, table }
    }

    fn from_description(description: Self) -> Self {
        description
    }

    fn to_description(&self) -> Self {
        *self
    }

    fn get_range_size(&self) -> usize {
        self.range_size
    }

    fn hash_single(&self, item: u64) -> u16 {
        assert!((self.table[item as usize] as usize) < self.range_size);
        self.table[item as usize] as u16
    }
}

/// The three tables of items whose buckets by functions 0, 1 and 2 are listed.
pub fn tables(cells: &[[u8; 3]]) -> [[u8; 16]; 3] {
    std::array::from_fn(|k| std::array::from_fn(|x| cells.get(x).map_or(0, |cell| cell[k])))
}
