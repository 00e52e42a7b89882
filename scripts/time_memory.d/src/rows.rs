//! Rows that are put, and removed in an order.

use crate::keys::Chance;
use crate::stores::Store;
use crate::Outcome;
use std::str::FromStr;

/// In which order rows are removed.
#[derive(Clone, Copy)]
pub enum Order {
    Random,
    /// In the order of keys.
    Rising,
    /// Against the order of keys.
    Falling,
}

impl FromStr for Order {
    type Err = String;

    fn from_str(word: &str) -> Result<Order, String> {
        match word {
            "random" => Ok(Order::Random),
            "rising" => Ok(Order::Rising),
            "falling" => Ok(Order::Falling),
            _ => Err(format!("there is no order {word}: random, rising, falling")),
        }
    }
}

impl Order {
    /// The keys in this order.
    pub fn of(self, keys: &[Vec<u8>]) -> Vec<Vec<u8>> {
        let mut ordered = Chance::new(7).shuffled(keys);
        match self {
            Order::Random => {}
            Order::Rising => ordered.sort(),
            Order::Falling => ordered.sort_by(|one, other| other.cmp(one)),
        }
        ordered
    }
}

/// Gives each key a row, whose column has the key's bytes.
pub fn put_all<S: Store>(store: &S, keys: &[Vec<u8>]) -> Outcome<()> {
    for key in keys {
        store.put(key, key)?;
    }
    Ok(())
}

/// Removes the row of a key, which has one.
pub fn remove<S: Store>(store: &S, key: &[u8]) -> Outcome<()> {
    if store.remove(key)? {
        Ok(())
    } else {
        Err("a remove found no row".into())
    }
}

pub fn remove_all<S: Store>(store: &S, keys: &[Vec<u8>]) -> Outcome<()> {
    for key in keys {
        remove(store, key)?;
    }
    Ok(())
}
