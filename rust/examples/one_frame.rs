//! What the gateway answers to one frame of a new guest, on document 01's network:
//! `cargo run --example one_frame < frame`.

use std::error::Error;
use std::io::{self, Read};

use yavoledu::{Guest, NetworkPlan, Verdict};

fn main() -> Result<(), Box<dyn Error>> {
    let mut frame = Vec::new();
    io::stdin().read_to_end(&mut frame)?;
    let mac = [0x52, 0x54, 0x00, 0x12, 0x34, 0x56];
    let mut guest = Guest::new(mac, &NetworkPlan::DOCUMENT_01)?;
    let mut reply = [0; 2048];
    let verdict = guest.send(&frame, &mut reply);
    println!("{verdict:?}");
    if let Verdict::Reply(n) = verdict {
        for byte in &reply[..n] {
            print!("{byte:02x}");
        }
        println!();
    }
    Ok(())
}
