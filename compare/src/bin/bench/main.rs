//! Times the engine and the Rust it is ported from on the same lexicon and the same text, in turns, and the engine alone on graphs, texts and word
//! lists that are made to be slow.

mod behind_a_call;
mod bench;
mod building;
mod clock;
mod files;
mod hostile;
mod in_play;
mod lexicon_run;
mod loads;
mod lookups;
mod pages;
mod sets;
mod typed;

fn main() {
    lexicon_run::print();
    typed::print();
    hostile::print();
    println!();
    typed::print_hostile();
    in_play::print_hostile();
    building::print_hostile();
}
