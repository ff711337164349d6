//! The module `dhcp` of `slirp`: its published text, whole and as it stands, and beside it functions
//! that hand out what is private in it.

include!("published/dhcp.rs");

impl SlirpBackend {
    pub fn message_type(dhcp: &[u8]) -> u8 {
        message_type(dhcp)
    }

    pub fn build_reply(xid: u32, client_mac: &[u8; 6], msg_type: u8) -> Vec<u8> {
        build_reply(xid, client_mac, msg_type)
    }

    pub fn dhcp_xid(&self) -> u32 {
        self.dhcp_xid
    }
}
