//! Where a request goes.

use std::net::{IpAddr, Ipv4Addr, SocketAddr, ToSocketAddrs};

/// The host that stands for every board on the network.
pub const BROADCAST: &str = "broadcast";

/// The board's port.
const PORT: u16 = 4000;

#[derive(Clone, Copy, Debug, PartialEq, Eq)]
pub struct Target {
    pub address: SocketAddr,
    /// Several boards may answer, each from its own address.
    pub every: bool,
}

/// Whether a text means every board on the network.
pub fn is_broadcast(text: &str) -> bool {
    split(text).is_ok_and(|(host, _)| host == BROADCAST)
}

/// Whether a text has the form of one host.
pub fn check(text: &str) -> Result<(), String> {
    match split(text)? {
        (BROADCAST, _) => Err(format!(
            "`{BROADCAST}` is for search alone: the password would go to everyone"
        )),
        ("", _) => Err(String::from("there is no host")),
        _ => Ok(()),
    }
}

/// One host: `HOST` or `HOST:PORT`; an IPv6 address with a port stands in brackets.
pub fn resolve(text: &str) -> Result<Target, String> {
    check(text)?;
    resolve_any(text)
}

/// One host, or every board.
pub fn resolve_any(text: &str) -> Result<Target, String> {
    let (host, port) = split(text)?;
    if host == BROADCAST {
        return Ok(Target {
            address: SocketAddr::new(IpAddr::V4(Ipv4Addr::BROADCAST), port),
            every: true,
        });
    }
    let found = (host, port).to_socket_addrs();
    let addresses: Vec<SocketAddr> = found
        .map_err(|error| format!("cannot find host `{host}`: {error}"))?
        .collect();
    // A unit has an IPv4 address, so a name that has both is taken by that one.
    let address = addresses
        .iter()
        .find(|address| address.is_ipv4())
        .or(addresses.first());
    match address {
        Some(address) if is_several(address.ip()) => {
            Err(format!("{address} is the address of several hosts"))
        }
        Some(address) => Ok(Target {
            address: *address,
            every: false,
        }),
        None => Err(format!("host `{host}` has no address")),
    }
}

fn is_several(address: IpAddr) -> bool {
    address.is_multicast() || address == IpAddr::V4(Ipv4Addr::BROADCAST)
}

fn split(text: &str) -> Result<(&str, u16), String> {
    if text.parse::<IpAddr>().is_ok() {
        return Ok((text, PORT));
    }
    let Some((host, port)) = text.rsplit_once(':') else {
        return Ok((text, PORT));
    };
    let host = host
        .strip_prefix('[')
        .and_then(|host| host.strip_suffix(']'))
        .unwrap_or(host);
    match port.parse() {
        Ok(port @ 1..) => Ok((host, port)),
        _ => Err(format!("`{port}` is no port")),
    }
}

#[cfg(test)]
mod tests {
    use super::*;

    #[test]
    fn hosts_have_a_port_or_the_boards() {
        for (text, address, every) in [
            ("127.0.0.1", "127.0.0.1:4000", false),
            ("127.0.0.1:5000", "127.0.0.1:5000", false),
            ("::1", "[::1]:4000", false),
            ("[::1]:5000", "[::1]:5000", false),
            ("broadcast", "255.255.255.255:4000", true),
            ("broadcast:5000", "255.255.255.255:5000", true),
        ] {
            let address = address.parse().expect("an address");
            let target = Target { address, every };
            assert_eq!(resolve_any(text), Ok(target), "{text}");
            assert_eq!(resolve(text).ok(), (!every).then_some(target), "{text}");
        }
        for bad in [
            "127.0.0.1:",
            "127.0.0.1:0",
            "127.0.0.1:65536",
            "127.0.0.1:x",
            "",
        ] {
            assert!(resolve(bad).is_err(), "{bad}");
            assert!(check(bad).is_err(), "{bad}");
        }
    }

    /// A password is sent to one host.
    #[test]
    fn several_hosts_are_not_one() {
        for several in ["255.255.255.255", "224.0.0.1", "[ff02::1]:4000"] {
            assert!(resolve_any(several).is_err(), "{several}");
        }
        for every in ["broadcast", "broadcast:5000"] {
            assert!(is_broadcast(every) && check(every).is_err());
        }
        for one in ["127.0.0.1", "::1", "board.example:5000"] {
            assert!(!is_broadcast(one) && check(one).is_ok());
        }
    }
}
