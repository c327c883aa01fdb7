//! Implementation of simple hashing and cuckoo hashing.

use crate::hash::{HashFunction, HashFunctionValue};
// ORACLE 1 (left out): use bincode;
use core::array;
// ORACLE 3 (left out): use libm::erf;
use rand::{Rng, SeedableRng};
use rand_chacha::ChaCha12Rng;
// ORACLE 3 (left out): use std::f64::consts::SQRT_2;
use std::fmt;
use std::fmt::Debug;

/// Number of hash functions used for cuckoo hashing.
pub const NUMBER_HASH_FUNCTIONS: usize = 3;

/// Parameters for cuckoo hashing.
pub struct Parameters<H: HashFunction<Value>, Value: HashFunctionValue>
where
    <Value as TryInto<usize>>::Error: Debug,
{
    number_inputs: usize,
    number_buckets: usize,
    hash_function_descriptions: [H::Description; 3],
}

impl<H, Value> Debug for Parameters<H, Value>
where
    H: HashFunction<Value>,
    Value: HashFunctionValue,
    <Value as TryInto<usize>>::Error: Debug,
{
    fn fmt(&self, f: &mut fmt::Formatter<'_>) -> Result<(), fmt::Error> {
        write!(f, "Parameters<H>{{")?;
        write!(f, "number_inputs: {:?}, ", self.number_inputs)?;
        write!(f, "number_buckets: {:?}, ", self.number_buckets)?;
        write!(
            f,
            "hash_function_descriptions: {:?}",
            self.hash_function_descriptions
        )?;
        write!(f, "}}")?;
        Ok(())
    }
}
impl<H: HashFunction<Value>, Value> Copy for Parameters<H, Value>
where
    Value: HashFunctionValue,
    <Value as TryInto<usize>>::Error: Debug,
{
}
impl<H: HashFunction<Value>, Value> Clone for Parameters<H, Value>
where
    Value: HashFunctionValue,
    <Value as TryInto<usize>>::Error: Debug,
{
    fn clone(&self) -> Self {
        *self
    }
}

// ORACLE 1 (left out): impl bincode::Encode for Parameters

// ORACLE 1 (left out): impl bincode::Decode for Parameters

impl<H: HashFunction<Value>, Value> Parameters<H, Value>
where
    Value: HashFunctionValue,
    <Value as TryInto<usize>>::Error: Debug,
{
    /// Samples three hash functions from given seed.
    pub fn from_seed(number_inputs: usize, seed: [u8; 32]) -> Self {
        let number_buckets = Self::compute_number_buckets(number_inputs);
        let mut rng = ChaCha12Rng::from_seed(seed);
        let hash_function_descriptions =
            array::from_fn(|_| H::from_seed(number_buckets, rng.gen()).to_description());

        Parameters::<H, Value> {
            number_inputs,
            number_buckets,
            hash_function_descriptions,
        }
    }

    /// Samples three hash functions randomly.
    pub fn sample(number_inputs: usize) -> Self {
        let number_buckets = Self::compute_number_buckets(number_inputs);
        let hash_function_descriptions =
            array::from_fn(|_| H::sample(number_buckets).to_description());

        Parameters::<H, Value> {
            number_inputs,
            number_buckets,
            hash_function_descriptions,
        }
    }

    /// Compute how many buckets we need for the cuckoo table.
    ///
    /// This is based on
    /// <https://github.com/ladnir/cryptoTools/blob/85da63e335c3ad3019af3958b48d3ff6750c3d92/cryptoTools/Common/CuckooIndex.cpp#L129-L150>.
    fn compute_number_buckets(number_inputs: usize) -> usize {
        // ORACLE 3: the number of buckets is given from outside, for any number of inputs; the source
        // refuses 0 inputs and computes the number by `erf`
        let _ = number_inputs;
        given::number_buckets()
    }

    /// Return the number of buckets.
    pub fn get_number_buckets(&self) -> usize {
        self.number_buckets
    }

    /// Return the number of inputs these parameters are specified for.
    pub fn get_number_inputs(&self) -> usize {
        self.number_inputs
    }
}

/// Hasher using a given hash function construction.
pub struct Hasher<H: HashFunction<Value>, Value: HashFunctionValue>
where
    <Value as TryInto<usize>>::Error: Debug,
{
    parameters: Parameters<H, Value>,
    hash_functions: [H; 3],
}

impl<H: HashFunction<Value>, Value: HashFunctionValue> Hasher<H, Value>
where
    <Value as TryInto<usize>>::Error: Debug,
{
    /// Sentinel value to mark an unoccupied bucket.
    pub const UNOCCUPIED: u64 = u64::MAX;

    /// Create `Hasher` object with given parameters.
    pub fn new(parameters: Parameters<H, Value>) -> Self {
        let hash_functions =
            array::from_fn(|i| H::from_description(parameters.hash_function_descriptions[i]));
        Hasher {
            parameters,
            hash_functions,
        }
    }

    /// Return the parameters.
    pub fn get_parameters(&self) -> &Parameters<H, Value> {
        &self.parameters
    }

    /// Hash a single item with the given hash function.
    pub fn hash_single(&self, hash_function_index: usize, item: u64) -> Value {
        assert!(hash_function_index < NUMBER_HASH_FUNCTIONS);
        self.hash_functions[hash_function_index].hash_single(item)
    }

    /// Hash the whole domain [0, domain_size) with all three hash functions.
    pub fn hash_domain(&self, domain_size: u64) -> [Vec<Value>; NUMBER_HASH_FUNCTIONS] {
        array::from_fn(|i| self.hash_functions[i].hash_range(0..domain_size))
    }

    /// Hash the given items with all three hash functions.
    pub fn hash_items(&self, items: &[u64]) -> [Vec<Value>; NUMBER_HASH_FUNCTIONS] {
        array::from_fn(|i| self.hash_functions[i].hash_slice(items))
    }

    /// Hash the whole domain [0, domain_size) into buckets with all three hash functions
    /// using precomputed hashes.
    pub fn hash_domain_into_buckets_given_hashes(
        &self,
        domain_size: u64,
        hashes: &[Vec<Value>; NUMBER_HASH_FUNCTIONS],
    ) -> Vec<Vec<u64>> {
        debug_assert!(hashes.iter().all(|v| v.len() as u64 == domain_size));
        debug_assert_eq!(hashes.len(), NUMBER_HASH_FUNCTIONS);
        let mut hash_table = vec![Vec::new(); self.parameters.number_buckets];
        for x in 0..domain_size {
            for hash_function_values in hashes.iter() {
                let h = hash_function_values[x as usize];
                hash_table[H::hash_value_as_usize(h)].push(x);
            }
        }
        hash_table
    }

    /// Hash the whole domain [0, domain_size) into buckets with all three hash functions.
    pub fn hash_domain_into_buckets(&self, domain_size: u64) -> Vec<Vec<u64>> {
        self.hash_domain_into_buckets_given_hashes(domain_size, &self.hash_domain(domain_size))
    }

    /// Hash the given items into buckets all three hash functions.
    pub fn hash_items_into_buckets(&self, items: &[u64]) -> Vec<Vec<u64>> {
        let mut hash_table = vec![Vec::new(); self.parameters.number_buckets];
        let hashes = self.hash_items(items);
        debug_assert_eq!(hashes.len(), NUMBER_HASH_FUNCTIONS);
        for (i, &x) in items.iter().enumerate() {
            for hash_function_values in hashes.iter() {
                let h = hash_function_values[i];
                hash_table[H::hash_value_as_usize(h)].push(x);
            }
        }
        hash_table
    }

    /// Compute a vector of the sizes of all buckets.
    pub fn compute_bucket_sizes(hash_table: &[Vec<u64>]) -> Vec<usize> {
        hash_table.iter().map(|v| v.len()).collect()
    }

    /// Compute a lookup table for the position map:
    ///     bucket_i x item_j |-> index of item_j in bucket_i
    /// The table stores three (bucket, index) pairs for every item of the domain, since each item
    /// is placed into buckets using three hash functions.
    pub fn compute_pos_lookup_table(
        domain_size: u64,
        hash_table: &[Vec<u64>],
    ) -> Vec<[(usize, usize); 3]> {
        let mut lookup_table = vec![[(usize::MAX, usize::MAX); 3]; domain_size as usize];
        for (bucket_i, bucket) in hash_table.iter().enumerate() {
            for (item_j, &item) in bucket.iter().enumerate() {
                debug_assert!(item < domain_size);
                for k in 0..NUMBER_HASH_FUNCTIONS {
                    if lookup_table[item as usize][k] == (usize::MAX, usize::MAX) {
                        lookup_table[item as usize][k] = (bucket_i, item_j);
                        break;
                    }
                }
            }
        }
        lookup_table
    }

    /// Use the lookup table for the position map.
    pub fn pos_lookup(lookup_table: &[[(usize, usize); 3]], bucket_i: usize, item: u64) -> u64 {
        for k in 0..NUMBER_HASH_FUNCTIONS {
            if lookup_table[item as usize][k].0 == bucket_i {
                return lookup_table[item as usize][k].1 as u64;
            }
        }
        panic!("logic error");
    }

    /// Perform cuckoo hashing to place the given items into a vector.
    /// NB: number of items must match the number of items used to generate the parameters.
    pub fn cuckoo_hash_items(&self, items: &[u64]) -> (Vec<u64>, Vec<usize>) {
        let number_inputs = self.parameters.number_inputs;
        let number_buckets = self.parameters.number_buckets;

        assert_eq!(
            items.len(),
            number_inputs,
            "#items must match number inputs specified in the parameters"
        );

        // create cuckoo hash table to store all inputs
        // we use u64::MAX to denote an empty entry
        let mut cuckoo_table = vec![Self::UNOCCUPIED; self.parameters.number_buckets];
        // store the indices of the items mapped into each bucket
        let mut cuckoo_table_indices = vec![0usize; number_buckets];

        let hashes = self.hash_items(items);

        // keep track of which hash function we need to use next for an item
        let mut next_hash_function = vec![0usize; number_buckets];

        // if we need more than this number of steps to insert an item, we have found
        // a cycle (this should only happen with negligible probability if the
        // parameters are chosen correctly)
        // const auto max_number_tries = NUMBER_HASH_FUNCTIONS * number_inputs_;
        let max_number_tries = number_inputs + 1;

        for input_j in 0..number_inputs {
            let mut index = input_j;
            let mut item = items[index];
            let mut try_k = 0;
            while try_k < max_number_tries {
                // ORACLE 4: tells which input has its turn
                given::turn(index);
                // try to (re)insert item with current index
                let hash: usize = H::hash_value_as_usize(hashes[next_hash_function[index]][index]);
                // increment hash function counter for this item s.t. we use the next hash
                // function next time
                next_hash_function[index] = (next_hash_function[index] + 1) % NUMBER_HASH_FUNCTIONS;
                if cuckoo_table[hash] == Self::UNOCCUPIED {
                    // the bucket was free, so we can insert the item
                    cuckoo_table[hash] = item;
                    cuckoo_table_indices[hash] = index;
                    break;
                }
                // the bucket was occupied, so we evict the item in the table and insert
                // it with the next hash function
                (cuckoo_table[hash], item) = (item, cuckoo_table[hash]);
                (cuckoo_table_indices[hash], index) = (index, cuckoo_table_indices[hash]);
                // ORACLE 4: counts the eviction
                given::evicted();
                try_k += 1;
            }
            if try_k >= max_number_tries {
                panic!("cycle detected"); // TODO: error handling
            }
        }

        (cuckoo_table, cuckoo_table_indices)
    }
}

