//! The trait alone: the published net.rs goes on with a virtio device, which is not in the text.

pub trait NetworkBackend {
    fn send(&mut self, frame: &[u8]);
    fn recv(&mut self) -> Option<Vec<u8>>;
    fn has_rx(&self) -> bool;
    fn has_active_connections(&self) -> bool;
}
