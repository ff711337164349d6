//! Whole exchanges of real guests with our gateway, read from their file, which `oracle/leases-text` wrote.

use crate::lines::bytes_of;
use crate::networks::{NETWORKS, Network};

const CAPTURED: &str = include_str!("leases_captured.txt");

#[derive(Clone, Copy, PartialEq, Eq, Hash)]
pub enum Sender {
    Guest,
    Gateway,
}

pub struct Exchange {
    /// Which software it was.
    pub words: &'static str,
    pub network: Network,
    /// The guest's, which the gateway had a fresh record for.
    pub mac: [u8; 6],
    /// In the order of the capture.
    pub frames: Vec<(Sender, Vec<u8>)>,
}

impl Exchange {
    pub fn sent_by(&self, sender: Sender) -> Vec<Vec<u8>> {
        let frames = self.frames.iter().filter(|(by, _)| *by == sender);
        frames.map(|(_, frame)| frame.clone()).collect()
    }
}

pub fn exchanges() -> Vec<Exchange> {
    let mut exchanges: Vec<Exchange> = vec![];
    let mut words = "";
    for line in CAPTURED.lines().filter(|line| !["", "#"].contains(line)) {
        let (first, rest) = line.split_once(' ').expect("a word and what it is about");
        match first {
            "#" => words = rest,
            "record" => {
                let (number, mac) = rest.split_once(' ').expect("a network and a MAC");
                exchanges.push(Exchange {
                    words,
                    network: NETWORKS[number.parse::<usize>().unwrap()].network,
                    mac: bytes_of(mac).try_into().unwrap(),
                    frames: vec![],
                });
            }
            "guest" | "gateway" => {
                let sender = match first {
                    "guest" => Sender::Guest,
                    _ => Sender::Gateway,
                };
                let (zeros, written) = rest.split_once(' ').expect("the number of zeros");
                let mut frame = bytes_of(written);
                frame.resize(frame.len() + usize::from_str_radix(zeros, 16).unwrap(), 0);
                let exchange = exchanges.last_mut().expect("a record comes first");
                exchange.frames.push((sender, frame));
            }
            _ => panic!("'{first}' is no line of an exchange"),
        }
    }
    exchanges
}
