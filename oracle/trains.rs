//! The list of trains: fragments in many orders, and what document 02's request 4/13 says of each call.
//! Our code is not asked; `reassembly_02.rs` is the judge, and of trains that others made the sender's
//! payload is.

#[allow(dead_code)]
mod draws;
#[allow(dead_code)]
mod lines;
#[allow(dead_code)]
mod networks;
mod reassembly_02;
mod train_frames;
mod train_list;
mod train_pieces;
mod trains_drawn;
mod trains_hostile;
mod trains_of_others;
mod trains_spoiled;

use train_list::TrainList;

/// `trains`: the list that is stored. `trains tally`: what the program has to print of it. `trains drawn
/// SEED`: other drawn trains, as many as the program takes.
fn main() {
    let words: Vec<String> = std::env::args().skip(1).collect();
    let words: Vec<&str> = words.iter().map(String::as_str).collect();
    if let ["drawn", seed] = words[..] {
        let mut list = TrainList::drawing_from(seed.parse().unwrap());
        trains_drawn::list(&mut list);
        print!("{}", list.finish());
        return;
    }
    let mut list = TrainList::new();
    trains_of_others::list(&mut list);
    trains_hostile::list(&mut list);
    trains_drawn::list(&mut list);
    trains_spoiled::list(&mut list);
    match words[..] {
        ["tally"] => print!("{}", list.tally()),
        _ => print!("{}", list.finish()),
    }
}
