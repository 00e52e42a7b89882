//! Counts what an index has allocated after removes, and times removes of the index or of the locked map.
//! `scripts/time_memory` runs it and makes the tables.
//!
//! `time_memory emptied ORDER ROWS`: ORDER is random, rising or falling. It counts when all rows are put, and again
//! when all are removed. `time_memory window ROWS FIRST MOVES` and `time_memory cache ROWS FIRST OPERATIONS` count
//! after the first steps, and again after all. Each of the three prints the nodes and the bytes of both readings.
//!
//! `time_memory removes SIDE ROWS` and `time_memory moves SIDE ROWS MOVES`: SIDE is index or map. Each prints the
//! nanoseconds of a call.
//!
//! A line is a figure, a tab, and its name.

mod cache;
mod cases;
#[allow(dead_code)]
#[path = "../../time_index.d/src/keys.rs"]
mod keys;
mod memory;
mod rows;
#[allow(dead_code)]
#[path = "../../time_index.d/src/stores.rs"]
mod stores;
mod window;

use crate::cache::Cache;
use crate::cases::{emptied, kept, moves, removes};
use crate::memory::Figures;
use crate::stores::{Indexed, Mapped};
use crate::window::Window;
use std::env;
use std::error::Error;

type Outcome<T> = Result<T, Box<dyn Error>>;

fn measured(words: &[&str]) -> Outcome<Figures> {
    match words {
        ["emptied", order, rows] => emptied(order.parse()?, rows.parse()?),
        ["window", rows, first, all] => {
            kept(Window::new(rows.parse()?), first.parse()?, all.parse()?)
        }
        ["cache", rows, first, all] => {
            kept(Cache::new(rows.parse()?), first.parse()?, all.parse()?)
        }
        ["removes", "index", rows] => removes::<Indexed>(rows.parse()?),
        ["removes", "map", rows] => removes::<Mapped>(rows.parse()?),
        ["moves", "index", rows, all] => moves::<Indexed>(rows.parse()?, all.parse()?),
        ["moves", "map", rows, all] => moves::<Mapped>(rows.parse()?, all.parse()?),
        _ => Err("it takes emptied, window, cache, removes or moves, with their words".into()),
    }
}

fn main() -> Outcome<()> {
    let words: Vec<String> = env::args().skip(1).collect();
    let words: Vec<&str> = words.iter().map(String::as_str).collect();
    for (name, figure) in measured(&words)? {
        println!("{figure:.2}\t{name}");
    }
    Ok(())
}
