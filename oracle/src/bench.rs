//! The calls that `oracle/bench` times, the same as in crates/bench/src/kinds.rt. All go to one link, and leave the table as they
//! found it once each was made.

use bt_hci::param::{AddrKind, BdAddr, ConnHandle, DisconnectReason, LeConnRole, Status};
use embassy_time::Duration;

use crate::connection::{ConnParams, ConnectionEvent};
use crate::history::Call;
use crate::Address;

pub const CREDITS: usize = 10;

const REASON: DisconnectReason = DisconnectReason::RemoteUserTerminatedConn;

/// The handle of the link in slot `i`.
fn handle(i: u8) -> ConnHandle {
    ConnHandle(64 + u16::from(i))
}

fn peer(i: u8) -> Address {
    Address {
        kind: AddrKind(1),
        addr: BdAddr([i, 34, 51, 68, 85, 102]),
    }
}

pub fn connect(i: u8) -> Call {
    let params = ConnParams {
        conn_interval: Duration::from_micros(30_000),
        peripheral_latency: 0,
        supervision_timeout: Duration::from_micros(2_000_000),
    };
    Call::Connect(handle(i), peer(i), LeConnRole::Peripheral, params)
}

pub fn accept() -> Call {
    Call::PollAccept(LeConnRole::Peripheral, Vec::new())
}

fn updated() -> ConnectionEvent {
    ConnectionEvent::ConnectionParamsUpdated {
        conn_interval: Duration::from_micros(30_000),
        peripheral_latency: 0,
        supervision_timeout: Duration::from_micros(2_000_000),
    }
}

/// The calls in which a link is closed and made again: eight to a life.
fn life(n: u64, i: u8) -> Call {
    match n % 8 {
        0 => Call::RequestHandleDisconnect(handle(i), REASON),
        1 => Call::PollDisconnecting,
        2 => Call::Confirm(i, handle(i), REASON, 1 + (n / 8) as u32),
        3 => Call::Disconnected(handle(i), Status(19)),
        4 => Call::Next(i),
        5 => Call::DecRef(i),
        6 => connect(i),
        _ => accept(),
    }
}

/// The n-th call of a kind.
pub fn call(kind: u64, n: u64, i: u8) -> Call {
    match (kind, n % 2) {
        (0, 0) => Call::PollAcquireAclSendLock(handle(i)),
        (0, _) => Call::UnlockAclSend(handle(i), i, 1),
        (1, 0) => Call::PollRequestToSend(handle(i), 1),
        (1, _) => Call::GrantEnd(handle(i), 1, i, 1),
        (2, 0) => Call::ConfirmSent(handle(i), 0),
        (2, _) => Call::HasLinkCredits(handle(i), 1),
        (3, 0) => Call::IncRef(i),
        (3, _) => Call::DecRef(i),
        (4, 0) => Call::GetConnectedHandle(handle(i)),
        (4, _) => Call::DecRef(i),
        (5, 0) => Call::GetConnectionByPeerAddress(peer(i)),
        (5, _) => Call::DecRef(i),
        (6, 0) => Call::PostHandleEvent(handle(i), Some(updated())),
        (6, _) => Call::Next(i),
        (7, 0) => Call::ExchangeAttMtu(handle(i), 185),
        (7, _) => Call::GetAttMtuHandle(handle(i)),
        (8, 0) => Call::AcquireIndicationSlot(i),
        (8, _) => Call::ReleaseIndicationSlot(i),
        (9, 0) => Call::SignalIndicationConfirmation(handle(i)),
        (9, _) => Call::WaitIndicationConfirmation(i),
        (11, _) => life(n, i),
        (_, 0) => Call::SetLinkCredits(CREDITS),
        (_, _) => Call::PollDisconnecting,
    }
}
