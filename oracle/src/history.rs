//! Reads the lines of a history (HISTORY.md): the part that both programs must agree on before a call is run.

use bt_hci::param::{AddrKind, BdAddr, ConnHandle, DisconnectReason, LeConnRole, PhyKind, Status};
use embassy_time::Duration;

use crate::connection::{ConnParams, ConnectionEvent};
use crate::Address;

/// A line longer than this, up to its `|`, is bad.
const LINE_MAX: usize = 1_200;
const PEERS_MAX: usize = 16;

/// Each with its arguments in the order of its line; a lock, grant or ticket carries slot and life.
pub enum Call {
    /// The last are the packets of the pool.
    New(u8, u32, u32),
    Connect(ConnHandle, Address, LeConnRole, ConnParams),
    PollAccept(LeConnRole, Vec<Address>),
    GetConnectedHandle(ConnHandle),
    GetConnectionByPeerAddress(Address),
    IncRef(u8),
    DecRef(u8),
    RequestDisconnect(u8, DisconnectReason),
    RequestHandleDisconnect(ConnHandle, DisconnectReason),
    PollDisconnecting,
    Confirm(u8, ConnHandle, DisconnectReason, u32),
    Disconnected(ConnHandle, Status),
    /// The event is taken out when the call is run: it is no Copy type.
    PostHandleEvent(ConnHandle, Option<ConnectionEvent>),
    Next(u8),
    PollAcquireAclSendLock(ConnHandle),
    UnlockAclSend(ConnHandle, u8, u32),
    PollRequestToSend(ConnHandle, usize),
    GrantConfirm(ConnHandle, usize, u8, u32, usize),
    GrantEnd(ConnHandle, usize, u8, u32),
    ConfirmSent(ConnHandle, usize),
    SetLinkCredits(usize),
    HasLinkCredits(ConnHandle, usize),
    ExchangeAttMtu(ConnHandle, u16),
    GetAttMtuHandle(ConnHandle),
    AcquireIndicationSlot(u8),
    ReleaseIndicationSlot(u8),
    SignalIndicationConfirmation(ConnHandle),
    WaitIndicationConfirmation(u8),
    TotalLost,
}

/// The line without anything from ` |` on; `|` is meant as a word. Nothing before the `|` is an empty line.
pub fn text(line: &[u8]) -> &[u8] {
    let alone = |i: usize| (i == 0 || line[i - 1] == b' ') && line.get(i + 1).is_none_or(|b| *b == b' ');
    match (0..line.len()).find(|i| line[*i] == b'|' && alone(*i)) {
        Some(i) => &line[..i.saturating_sub(1)],
        None => line,
    }
}

/// The call of a line, or None where it is not of a form that is run here: messages, the roster and the pool are not in
/// the Rust.
pub fn call(text: &[u8]) -> Option<Call> {
    if text.len() > LINE_MAX {
        return None;
    }
    let mut words = Words(text.split(|b| *b == b' '));
    let w = &mut words;
    let call = match w.word()? {
        b"new" => Call::New(w.byte()?, w.long()?, w.long()?),
        b"connect" => Call::Connect(w.handle()?, w.address()?, w.role()?, w.params()?),
        b"poll_accept" => {
            let role = w.role()?;
            let mut peers = Vec::new();
            while let Some(kind) = w.word() {
                if peers.len() == PEERS_MAX {
                    return None;
                }
                peers.push(w.address_of(number(kind, 0xFF)? as u8)?);
            }
            Call::PollAccept(role, peers)
        }
        b"get_connected_handle" => Call::GetConnectedHandle(w.handle()?),
        b"get_connection_by_peer_address" => Call::GetConnectionByPeerAddress(w.address()?),
        b"inc_ref" => Call::IncRef(w.byte()?),
        b"dec_ref" => Call::DecRef(w.byte()?),
        b"request_disconnect" => Call::RequestDisconnect(w.byte()?, w.reason()?),
        b"request_handle_disconnect" => Call::RequestHandleDisconnect(w.handle()?, w.reason()?),
        b"poll_disconnecting" => Call::PollDisconnecting,
        b"confirm" => Call::Confirm(w.byte()?, w.handle()?, w.reason()?, w.long()?),
        b"disconnected" => Call::Disconnected(w.handle()?, Status(w.byte()?)),
        b"post_handle_event" => Call::PostHandleEvent(w.handle()?, Some(w.event()?)),
        b"next" => Call::Next(w.byte()?),
        b"poll_acquire_acl_send_lock" => Call::PollAcquireAclSendLock(w.handle()?),
        b"unlock_acl_send" => Call::UnlockAclSend(w.handle()?, w.byte()?, w.long()?),
        b"poll_request_to_send" => Call::PollRequestToSend(w.handle()?, w.packets()?),
        b"grant_confirm" => Call::GrantConfirm(w.handle()?, w.packets()?, w.byte()?, w.long()?, w.packets()?),
        b"grant_end" => Call::GrantEnd(w.handle()?, w.packets()?, w.byte()?, w.long()?),
        b"confirm_sent" => Call::ConfirmSent(w.handle()?, w.packets()?),
        b"set_link_credits" => Call::SetLinkCredits(w.packets()?),
        b"has_link_credits" => Call::HasLinkCredits(w.handle()?, w.packets()?),
        b"exchange_att_mtu" => Call::ExchangeAttMtu(w.handle()?, w.short()?),
        b"get_att_mtu_handle" => Call::GetAttMtuHandle(w.handle()?),
        b"acquire_indication_slot" => Call::AcquireIndicationSlot(w.byte()?),
        b"release_indication_slot" => Call::ReleaseIndicationSlot(w.byte()?),
        b"signal_indication_confirmation" => Call::SignalIndicationConfirmation(w.handle()?),
        b"wait_indication_confirmation" => Call::WaitIndicationConfirmation(w.byte()?),
        b"total_lost" => Call::TotalLost,
        _ => return None,
    };
    match w.word() {
        None => Some(call),
        Some(_) => None,
    }
}

/// Decimal digits, of any length, up to `max`.
fn number(word: &[u8], max: u64) -> Option<u64> {
    if word.is_empty() {
        return None;
    }
    let mut n: u64 = 0;
    for digit in word {
        if !digit.is_ascii_digit() {
            return None;
        }
        n = n.checked_mul(10)?.checked_add(u64::from(digit - b'0'))?;
    }
    (n <= max).then_some(n)
}

struct Words<I>(I);

impl<'a, I: Iterator<Item = &'a [u8]>> Words<I> {
    fn word(&mut self) -> Option<&'a [u8]> {
        self.0.next()
    }

    fn number(&mut self, max: u64) -> Option<u64> {
        number(self.word()?, max)
    }

    fn byte(&mut self) -> Option<u8> {
        self.number(0xFF).map(|n| n as u8)
    }

    fn short(&mut self) -> Option<u16> {
        self.number(0xFFFF).map(|n| n as u16)
    }

    fn long(&mut self) -> Option<u32> {
        self.number(0xFFFF_FFFF).map(|n| n as u32)
    }

    fn packets(&mut self) -> Option<usize> {
        self.long().map(|n| n as usize)
    }

    fn handle(&mut self) -> Option<ConnHandle> {
        self.short().map(ConnHandle)
    }

    fn time(&mut self) -> Option<Duration> {
        self.number(u64::MAX).map(Duration::from_micros)
    }

    fn address(&mut self) -> Option<Address> {
        let kind = self.byte()?;
        self.address_of(kind)
    }

    /// Twelve hexadecimal digits, most significant byte first; `BdAddr` has them as on the wire.
    fn address_of(&mut self, kind: u8) -> Option<Address> {
        let word = self.word()?;
        if word.len() != 12 {
            return None;
        }
        let mut bytes = [0; 6];
        for (i, digit) in word.iter().enumerate() {
            let value = (*digit as char).to_digit(16)? as u8;
            let byte = &mut bytes[5 - i / 2];
            *byte = *byte << 4 | value;
        }
        Some(Address {
            kind: AddrKind(kind),
            addr: BdAddr(bytes),
        })
    }

    fn role(&mut self) -> Option<LeConnRole> {
        match self.byte()? {
            0 => Some(LeConnRole::Central),
            1 => Some(LeConnRole::Peripheral),
            _ => None,
        }
    }

    fn reason(&mut self) -> Option<DisconnectReason> {
        use DisconnectReason::*;
        let n = self.byte()?;
        [
            AuthenticationFailure,
            RemoteUserTerminatedConn,
            RemoteDeviceTerminatedConnLowResources,
            RemoteDeviceTerminatedConnPowerOff,
            UnsupportedRemoteFeature,
            PairingWithUnitKeyNotSupported,
            UnacceptableConnParameters,
        ]
        .into_iter()
        .find(|reason| *reason as u8 == n)
    }

    fn phy(&mut self) -> Option<PhyKind> {
        match self.byte()? {
            1 => Some(PhyKind::Le1M),
            2 => Some(PhyKind::Le2M),
            3 => Some(PhyKind::LeCoded),
            _ => None,
        }
    }

    fn params(&mut self) -> Option<ConnParams> {
        Some(ConnParams {
            conn_interval: self.time()?,
            peripheral_latency: self.short()?,
            supervision_timeout: self.time()?,
        })
    }

    fn event(&mut self) -> Option<ConnectionEvent> {
        Some(match self.byte()? {
            0 => ConnectionEvent::Disconnected {
                reason: Status(self.byte()?),
            },
            1 => ConnectionEvent::PhyUpdated {
                tx_phy: self.phy()?,
                rx_phy: self.phy()?,
            },
            2 => ConnectionEvent::ConnectionParamsUpdated {
                conn_interval: self.time()?,
                peripheral_latency: self.short()?,
                supervision_timeout: self.time()?,
            },
            3 => ConnectionEvent::SubratingParamsUpdated {
                subrate_factor: self.short()?,
                peripheral_latency: self.short()?,
                continuation_number: self.short()?,
                supervision_timeout: self.time()?,
            },
            4 => ConnectionEvent::DataLengthUpdated {
                max_tx_octets: self.short()?,
                max_tx_time: self.short()?,
                max_rx_octets: self.short()?,
                max_rx_time: self.short()?,
            },
            5 => ConnectionEvent::ConnectionRateChanged {
                conn_interval: self.time()?,
                subrate_factor: self.short()?,
                peripheral_latency: self.short()?,
                continuation_number: self.short()?,
                supervision_timeout: self.time()?,
            },
            _ => return None,
        })
    }
}
