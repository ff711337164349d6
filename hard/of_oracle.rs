// The modules of oracle/ that are used here, as they stand there: what draws frames and builder calls, and what asks
// the published Rust. They name each other from the crate's root, so each program here takes this file in whole.

#[allow(dead_code)]
#[path = "../oracle/amended.rs"]
mod amended;
#[allow(dead_code)]
#[path = "../oracle/ask_dhcp.rs"]
mod ask_dhcp;
#[allow(dead_code)]
#[path = "../oracle/ask_gateway.rs"]
mod ask_gateway;
#[allow(dead_code)]
#[path = "../oracle/captured.rs"]
mod captured;
#[allow(dead_code)]
#[path = "../oracle/cases.rs"]
mod cases;
#[allow(dead_code)]
#[path = "../oracle/compare_builders.rs"]
mod compare_builders;
#[allow(dead_code)]
#[path = "../oracle/compare_drawn.rs"]
mod compare_drawn;
#[allow(dead_code)]
#[path = "../oracle/compare_every.rs"]
mod compare_every;
#[allow(dead_code)]
#[path = "../oracle/compare_grammar.rs"]
mod compare_grammar;
#[allow(dead_code)]
#[path = "../oracle/compare_ours.rs"]
mod compare_ours;
#[allow(dead_code)]
#[path = "../oracle/compare_rust.rs"]
mod compare_rust;
#[allow(dead_code)]
#[path = "../oracle/compare_tally.rs"]
mod compare_tally;
#[allow(dead_code)]
#[path = "../oracle/dhcp_cases.rs"]
mod dhcp_cases;
#[allow(dead_code)]
#[path = "../oracle/dhcp_vectors.rs"]
mod dhcp_vectors;
#[allow(dead_code)]
#[path = "../oracle/document_01.rs"]
mod document_01;
#[allow(dead_code)]
#[path = "../oracle/drawn_frames.rs"]
mod drawn_frames;
#[allow(dead_code)]
#[path = "../oracle/draws.rs"]
mod draws;
#[allow(dead_code)]
#[path = "../oracle/gateway_cases.rs"]
mod gateway_cases;
#[allow(dead_code)]
#[path = "../oracle/gateway_sequences.rs"]
mod gateway_sequences;
#[allow(dead_code)]
#[path = "../oracle/grammar_01.rs"]
mod grammar_01;
#[allow(dead_code)]
#[path = "../oracle/guest_frames.rs"]
mod guest_frames;
#[allow(dead_code)]
#[path = "../oracle/lines.rs"]
mod lines;
#[allow(dead_code)]
#[path = "../oracle/making_02.rs"]
mod making_02;
#[allow(dead_code)]
#[path = "../oracle/mended.rs"]
mod mended;
#[allow(dead_code)]
#[path = "../oracle/networks.rs"]
mod networks;
#[allow(dead_code)]
#[path = "../oracle/pieces.rs"]
mod pieces;
#[allow(dead_code)]
#[path = "../oracle/the_rust.rs"]
mod the_rust;
