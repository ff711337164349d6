//! The vectors of the strict reader: frames and what document 01's grammar says of them. Neither a
//! reader nor the published Rust is asked; `grammar_01.rs` is the judge.

mod captured;
#[allow(dead_code)]
mod document_01;
#[allow(dead_code)]
mod draws;
mod grammar_01;
#[allow(dead_code)]
mod guest_frames;
#[allow(dead_code)]
mod leases;
#[allow(dead_code)]
mod lines;
mod mended;
#[allow(dead_code)]
mod networks;
#[allow(dead_code)]
mod pieces;
mod reading_cases;
mod readings_captured;
mod readings_damaged;
mod readings_drawn;
mod readings_leases;
mod readings_lengths;
mod readings_options;
mod readings_own;
mod readings_spoiled;
mod readings_sums;

use reading_cases::ReadingList;

/// `readings`: the list that is stored. `readings tally`: what the program has to print of it.
/// `readings damaged`: every captured frame of the grammar damaged in every field, a list too long to
/// store.
fn main() {
    let wanted = std::env::args().nth(1);
    let mut list = ReadingList::new();
    if wanted.as_deref() == Some("damaged") {
        readings_damaged::list_all(&mut list);
        print!("{}", list.finish());
        return;
    }
    readings_captured::list(&mut list);
    readings_leases::list(&mut list);
    readings_damaged::list(&mut list);
    readings_sums::list(&mut list);
    readings_lengths::list(&mut list);
    readings_options::list(&mut list);
    readings_own::list(&mut list);
    readings_drawn::list(&mut list);
    readings_spoiled::list(&mut list);
    if wanted.as_deref() == Some("tally") {
        print!("{}", list.tally());
    } else {
        print!("{}", list.finish());
    }
}
