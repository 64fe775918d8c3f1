//! Addresses out of their texts.

use core::net;

/// An IPv4 address.
#[derive(Clone, Copy, Debug, PartialEq, Eq)]
pub struct Ipv4Addr(net::Ipv4Addr);

/// Why octets are no address.
#[derive(Clone, Copy, Debug, PartialEq, Eq)]
pub struct AddrParseError;

impl Ipv4Addr {
    /// The address that a text in dotted decimal is.
    pub fn parse_ascii(text: &[u8]) -> Result<Ipv4Addr, AddrParseError> {
        let text = core::str::from_utf8(text).map_err(|_| AddrParseError)?;
        text.parse().map(Ipv4Addr).map_err(|_| AddrParseError)
    }

    /// Its four octets, as they are sent.
    pub const fn octets(&self) -> [u8; 4] {
        self.0.octets()
    }
}
