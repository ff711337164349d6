//! The binding and the library behind it, tested from outside. What is expected comes from documents 01 and 02 (01's names C1,
//! P1, D0 and so on are used here), or is put together by `frames`, which calls nothing of the library.

mod builders;
mod checksum;
mod frames;
mod ids;
mod layout;
mod making;
mod networks;
mod reader;
mod reassembly;
mod refusals;
mod replies;
mod verdicts;
