//! Times one side, the index or the locked map, on keys of one kind. `scripts/time_index` runs it and makes the table.
//!
//! `time_index SIDE KIND KEYS VIEWS`: SIDE is index or map, KIND random or urls, VIEWS how many views there are. It prints
//! a line for each thing that it measured: nanoseconds a call, a tab, its name; or bytes a key.

mod keys;
mod phases;
mod stores;

use crate::keys::Kind;
use crate::phases::{all_phases, Figures};
use crate::stores::{Indexed, Mapped};
use std::env;
use std::error::Error;

type Outcome<T> = Result<T, Box<dyn Error>>;

fn measured(side: &str, kind: Kind, count: usize, views: usize) -> Outcome<Figures> {
    match side {
        "index" => all_phases::<Indexed>(kind, count, views),
        "map" => all_phases::<Mapped>(kind, count, views),
        _ => Err("the side is index or map".into()),
    }
}

fn main() -> Outcome<()> {
    let words: Vec<String> = env::args().skip(1).collect();
    let [side, kind, count, views] = words.as_slice() else {
        return Err("it takes SIDE KIND KEYS VIEWS".into());
    };
    let figures = measured(side, kind.parse()?, count.parse()?, views.parse()?)?;
    for (name, figure) in figures {
        println!("{figure:.2}\t{name}");
    }
    Ok(())
}
