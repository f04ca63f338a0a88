//! The lines of crates/vectors/data, one by one: answered by the library, by the model and by the plain board. The tree
//! lines are held against the bytes of the memory.
mod addresses;
mod boards;
mod lines;

use boards::{play, Memory};
use reference::library;
use reference::model::Model;
use reference::plain;

#[test]
fn library_on_boards() {
    play(&mut Memory { ask: library::ask, bytes: vec![] });
}

#[test]
fn plain_on_boards() {
    play(&mut Memory { ask: plain::ask, bytes: vec![] });
}

#[test]
fn model_on_boards() {
    play(&mut Model::default());
}
