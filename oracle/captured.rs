//! Frames as an operating system and DHCP software sent them, read from their files.

use crate::lines::bytes_of;

/// Of the first the lines of kind 08 are whole frames. In the others each line is one, behind the
/// number of zeros that follow its bytes.
const KERNEL: &str = include_str!("captured.txt");
const MORE: [&str; 2] = [
    include_str!("captured_frames.txt"),
    include_str!("dhcp_captured_frames.txt"),
];

pub struct Captured {
    pub words: &'static str,
    pub frame: Vec<u8>,
}

/// The whole frames of the first file.
pub fn kernels() -> Vec<Captured> {
    with_words(KERNEL, |line| line.strip_prefix("08 ").map(bytes_of))
}

pub fn captured() -> Vec<Captured> {
    let with_zeros = |line: &'static str| {
        let (zeros, written) = line.split_once(' ')?;
        let mut frame = bytes_of(written);
        frame.resize(frame.len() + usize::from_str_radix(zeros, 16).unwrap(), 0);
        Some(frame)
    };
    let mut frames = kernels();
    for file in MORE {
        frames.extend(with_words(file, with_zeros));
    }
    frames
}

/// The file's frames, each with the comment that stands before it.
fn with_words(
    file: &'static str,
    frame_of: impl Fn(&'static str) -> Option<Vec<u8>>,
) -> Vec<Captured> {
    let mut words = "";
    let mut frames = vec![];
    for line in file.lines() {
        if let Some(comment) = line.strip_prefix("# ") {
            words = comment;
        } else if let Some(frame) = frame_of(line) {
            frames.push(Captured { words, frame });
        }
    }
    frames
}

/// The one captured frame with these words.
pub fn sent(words: &str) -> Vec<u8> {
    let found: Vec<_> = captured()
        .into_iter()
        .filter(|captured| captured.words == words)
        .collect();
    assert_eq!(found.len(), 1, "{words}");
    found[0].frame.clone()
}
