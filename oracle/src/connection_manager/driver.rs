//! Runs histories on the connection manager and prints, call by call, the answer, the waiters and the table.

use core::cell::{Cell, RefCell};
use core::future::Future;
use core::hint::black_box;
use core::mem::forget;
use core::pin::pin;
use core::ptr;
use core::task::{Context, Poll, Waker};
use std::io::{self, BufRead, Write};
use std::panic::{catch_unwind, set_hook, take_hook, AssertUnwindSafe};

use super::*;
use crate::bench;
use crate::history::{self, Call};
use crate::{stop, Packet};

/// Packet buffers are not compared; none is ever made.
pub struct Buffer;

impl AsRef<[u8]> for Buffer {
    fn as_ref(&self) -> &[u8] {
        &[]
    }
}

impl AsMut<[u8]> for Buffer {
    fn as_mut(&mut self) -> &mut [u8] {
        &mut []
    }
}

impl Packet for Buffer {}

/// The packet MTU is a constant of the pool's type, so each one is a copy of all that is generic over the pool.
struct Pool<const MTU: usize>;

impl<const MTU: usize> PacketPool for Pool<MTU> {
    type Packet = Buffer;
    const MTU: usize = MTU;
}

type Slots = RefCell<[ConnectionStorage<Buffer>]>;

/// For each packet MTU here there is a copy.
macro_rules! packet_mtus {
    ($($mtu:literal)*) => {
        pub const PACKET_MTUS: &[u32] = &[$($mtu),*];

        fn with_packet_mtu(mtu: u32, run: &mut Run, slots: &Slots) -> Option<Setup> {
            match mtu {
                $($mtu => run.table::<$mtu>(slots),)*
                _ => run.fail(&format!("packet MTU {mtu} is not among those built in: {PACKET_MTUS:?}")),
            }
        }
    };
}

packet_mtus! { 4 5 6 23 26 27 28 100 251 255 259 260 521 4099 32772 65535 65538 65539 }

fn with_slots<R>(count: u8, f: impl FnOnce(&Slots) -> R) -> R {
    fn slots<const N: usize>() -> RefCell<[ConnectionStorage<Buffer>; N]> {
        RefCell::new([const { ConnectionStorage::new() }; N])
    }
    macro_rules! by_count {
        ($($n:literal)*) => {
            match count {
                $($n => f(&slots::<$n>()),)*
                _ => unreachable!("the slot count was looked at"),
            }
        };
    }
    by_count! { 1 2 3 4 5 6 7 8 9 10 11 12 13 14 15 16 }
}

// ---- answers

#[derive(Clone, Copy)]
struct Answer {
    number: u8,
    values: [u64; 6],
    count: usize,
}

impl Answer {
    fn and(mut self, more: &[u64]) -> Self {
        self.values[self.count..][..more.len()].copy_from_slice(more);
        self.count += more.len();
        self
    }
}

fn refused(number: u8) -> Answer {
    Answer {
        number,
        values: [0; 6],
        count: 0,
    }
}

fn done(given: &[u64]) -> Answer {
    refused(0).and(given)
}

fn of(result: Result<(), Error>) -> Answer {
    match result {
        Ok(()) => done(&[]),
        Err(error) => refused(number(error)),
    }
}

/// The numbers of document 01.
fn number(error: Error) -> u8 {
    match error {
        Error::NotFound => 2,
        Error::Disconnected => 3,
        Error::OutOfMemory => 4,
        other => stop(&format!("an error that no call may answer: {other:?}")),
    }
}

const PENDING: u8 = 5;
const CREDITS: u8 = 7;
const SETUP: u8 = 8;

/// An event's kind and fields, as in the history format.
fn event_values(event: &ConnectionEvent) -> Answer {
    match *event {
        ConnectionEvent::Disconnected { reason } => done(&[0, reason.0.into()]),
        ConnectionEvent::PhyUpdated { tx_phy, rx_phy } => done(&[1, tx_phy as u64, rx_phy as u64]),
        ConnectionEvent::ConnectionParamsUpdated {
            conn_interval,
            peripheral_latency,
            supervision_timeout,
        } => done(&[
            2,
            conn_interval.as_micros(),
            peripheral_latency.into(),
            supervision_timeout.as_micros(),
        ]),
        ConnectionEvent::SubratingParamsUpdated {
            subrate_factor,
            peripheral_latency,
            continuation_number,
            supervision_timeout,
        } => done(&[
            3,
            subrate_factor.into(),
            peripheral_latency.into(),
            continuation_number.into(),
            supervision_timeout.as_micros(),
        ]),
        ConnectionEvent::DataLengthUpdated {
            max_tx_octets,
            max_tx_time,
            max_rx_octets,
            max_rx_time,
        } => done(&[
            4,
            max_tx_octets.into(),
            max_tx_time.into(),
            max_rx_octets.into(),
            max_rx_time.into(),
        ]),
        ConnectionEvent::ConnectionRateChanged {
            conn_interval,
            subrate_factor,
            peripheral_latency,
            continuation_number,
            supervision_timeout,
        } => done(&[
            5,
            conn_interval.as_micros(),
            subrate_factor.into(),
            peripheral_latency.into(),
            continuation_number.into(),
            supervision_timeout.as_micros(),
        ]),
        ref other => stop(&format!("an event that no history has: {other:?}")),
    }
}

// ---- one call

fn once<F: Future>(future: F) -> Poll<F::Output> {
    pin!(future).poll(&mut Context::from_waker(Waker::noop()))
}

/// A link's index; its reference stays, since drops happen only where the history says.
fn kept<P: PacketPool>(connection: Connection<'_, P>) -> Answer {
    let index = connection.index();
    forget(connection);
    done(&[index.into()])
}

/// The lives have no counterpart in the Rust: a slot's is how often its queue was cleared, which `connect` alone does.
fn life<P>(slot: &ConnectionStorage<P>) -> u32 {
    slot.events.cleared()
}

/// A lock, grant or ticket that was given, with what the Rust does not say of it: slot and life, or the life. The slot is the
/// one that the Rust's own search finds. This is no part of the call, since calls are timed too.
fn with_life<P: PacketPool>(manager: &ConnectionManager<'_, P>, call: &Call, answer: Answer) -> Answer {
    match *call {
        _ if answer.number != 0 => answer,
        Call::PollAcquireAclSendLock(handle) | Call::PollRequestToSend(handle, _) => {
            let found = manager.connection_by_handle(handle).expect("it was found");
            let slots = manager.connections.borrow();
            let index = slots.iter().position(|slot| ptr::eq(slot, &*found)).expect("a slot");
            answer.and(&[index as u64, life(&found).into()])
        }
        Call::PollDisconnecting => answer.and(&[life(&manager.connection(answer.values[0] as u8)).into()]),
        _ => answer,
    }
}

/// The Rust has credits of 64 bits here; a sum past 32 bits is 7 and is not run.
fn too_many<P: PacketPool>(manager: &ConnectionManager<'_, P>, handle: ConnHandle, packets: usize) -> bool {
    manager
        .connection_by_handle(handle)
        .is_some_and(|storage| storage.link_credits + packets > u32::MAX as usize)
}

fn call<'d, P: PacketPool>(manager: &'d ConnectionManager<'d, P>, call: &mut Call) -> Answer {
    let mut context = Context::from_waker(Waker::noop());
    let cx = Some(&mut context);
    match *call {
        Call::New(..) => unreachable!("a new table is made outside"),
        Call::Connect(handle, peer, role, params) => of(manager.connect(handle, peer, role, params)),
        Call::PollAccept(role, ref peers) => match manager.poll_accept(role, peers, cx) {
            Poll::Ready(connection) => kept(connection),
            Poll::Pending => refused(PENDING),
        },
        Call::GetConnectedHandle(handle) => match manager.get_connected_handle(handle) {
            Some(connection) => kept(connection),
            None => refused(number(Error::NotFound)),
        },
        Call::GetConnectionByPeerAddress(peer) => match manager.get_connection_by_peer_address(peer) {
            Some(connection) => kept(connection),
            None => refused(number(Error::NotFound)),
        },
        Call::IncRef(index) => {
            manager.inc_ref(index);
            done(&[])
        }
        Call::DecRef(index) => {
            manager.dec_ref(index);
            done(&[])
        }
        Call::RequestDisconnect(index, reason) => {
            manager.request_disconnect(index, reason);
            done(&[])
        }
        Call::RequestHandleDisconnect(handle, reason) => {
            manager.request_handle_disconnect(handle, reason);
            done(&[])
        }
        Call::PollDisconnecting => match manager.poll_disconnecting(cx) {
            Poll::Ready(ticket) => done(&[ticket.index as u64, ticket.handle().0.into(), ticket.reason() as u64]),
            Poll::Pending => refused(PENDING),
        },
        Call::Confirm(index, handle, reason, _) => {
            DisconnectRequest {
                index: index.into(),
                handle,
                reason,
                connections: manager.connections,
            }
            .confirm();
            done(&[])
        }
        Call::Disconnected(handle, status) => of(manager.disconnected(handle, status)),
        Call::PostHandleEvent(handle, ref mut event) => {
            of(manager.post_handle_event(handle, event.take().expect("a call is run once")))
        }
        Call::Next(index) => match once(manager.next(index)) {
            Poll::Ready(event) => event_values(&event),
            Poll::Pending => refused(PENDING),
        },
        Call::PollAcquireAclSendLock(handle) => match manager.poll_acquire_acl_send_lock(handle, cx) {
            Poll::Ready(Ok(lock)) => {
                let handle = lock.handle;
                forget(lock);
                done(&[handle.0.into()])
            }
            Poll::Ready(Err(error)) => refused(number(error)),
            Poll::Pending => refused(PENDING),
        },
        Call::UnlockAclSend(handle, ..) => {
            manager.unlock_acl_send(handle);
            done(&[])
        }
        Call::PollRequestToSend(handle, packets) => {
            // The Rust asks for a lock's token, not for the lock.
            let lock = AclSendLock::new(handle, manager);
            let asked = lock.poll_request_to_send(packets, cx);
            forget(lock);
            match asked {
                Poll::Ready(Ok(grant)) => {
                    let values = [grant.handle.0.into(), grant.packets as u64];
                    forget(grant);
                    done(&values)
                }
                Poll::Ready(Err(error)) => refused(number(error)),
                Poll::Pending => refused(PENDING),
            }
        }
        Call::GrantConfirm(handle, packets, index, life, sent) => {
            let mut grant = PacketGrant::new(handle, manager, packets);
            grant.confirm(sent);
            let values = [grant.handle.0.into(), grant.packets as u64, index.into(), life.into()];
            forget(grant);
            done(&values)
        }
        Call::GrantEnd(handle, packets, ..) => {
            if too_many(manager, handle, packets) {
                return refused(CREDITS);
            }
            drop(PacketGrant::new(handle, manager, packets));
            done(&[])
        }
        Call::ConfirmSent(handle, packets) => {
            if too_many(manager, handle, packets) {
                return refused(CREDITS);
            }
            of(manager.confirm_sent(handle, packets))
        }
        Call::SetLinkCredits(credits) => {
            manager.set_link_credits(credits);
            done(&[])
        }
        Call::HasLinkCredits(handle, packets) => done(&[manager.has_link_credits(handle, packets).into()]),
        Call::ExchangeAttMtu(handle, mtu) => done(&[manager.exchange_att_mtu(handle, mtu).into()]),
        Call::GetAttMtuHandle(handle) => done(&[manager.get_att_mtu_handle(handle).into()]),
        Call::AcquireIndicationSlot(index) => match once(manager.acquire_indication_slot(index)) {
            Poll::Ready(result) => of(result),
            Poll::Pending => refused(PENDING),
        },
        Call::ReleaseIndicationSlot(index) => {
            manager.release_indication_slot(index);
            done(&[])
        }
        Call::SignalIndicationConfirmation(handle) => {
            manager.signal_indication_confirmation(handle);
            done(&[])
        }
        Call::WaitIndicationConfirmation(index) => match once(manager.wait_indication_confirmation(index)) {
            Poll::Ready(result) => of(result),
            Poll::Pending => refused(PENDING),
        },
        Call::TotalLost => done(&[total_lost(manager).into()]),
    }
}

// ---- ends

/// Index and life of the one open slot with this handle: going by that slot and searching by the handle are then the same.
fn only_open<P>(slots: &[ConnectionStorage<P>], handle: ConnHandle) -> Option<(u8, u32)> {
    let is_open = |slot: &ConnectionStorage<P>| slot.handle == handle && slot.state != ConnectionState::Disconnected;
    let mut open = slots.iter().enumerate().filter(|(_, slot)| is_open(slot));
    match (open.next(), open.next()) {
        (Some((index, slot)), None) => Some((index as u8, life(slot))),
        _ => None,
    }
}

/// The present life of a slot, which its ticket must have; 0 where there is no such slot and any life will do.
fn ticket_life<P>(slots: &[ConnectionStorage<P>], index: u8) -> u32 {
    slots.get(usize::from(index)).map_or(0, life)
}

/// Whether an end means the same in the Rust, where a lock or grant has no slot and nothing has a life.
fn has_counterpart<P>(slots: &[ConnectionStorage<P>], call: &Call) -> bool {
    match *call {
        Call::UnlockAclSend(handle, index, life) | Call::GrantEnd(handle, _, index, life) => {
            only_open(slots, handle) == Some((index, life))
        }
        Call::Confirm(index, _, _, life) => usize::from(index) >= slots.len() || ticket_life(slots, index) == life,
        _ => true,
    }
}

// ---- panics

std::thread_local! {
    static CALLING: Cell<bool> = const { Cell::new(false) };
    static PANIC: RefCell<String> = const { RefCell::new(String::new()) };
}

/// Of a panic inside a call nothing is printed; its message is kept.
pub fn listen() {
    let usual = take_hook();
    set_hook(Box::new(move |info| {
        if CALLING.get() {
            let text = info.payload_as_str().unwrap_or("");
            PANIC.with_borrow_mut(|kept| text.clone_into(kept));
        } else {
            usual(info);
        }
    }));
}

/// Runs a call, or gives the message of its panic. Then the states go back to what they were: `poll_accept` sets one before
/// it panics.
fn caught<'d, P: PacketPool>(manager: &'d ConnectionManager<'d, P>, next: &mut Call) -> Result<Answer, String> {
    let mut states = [ConnectionState::Disconnected; 16];
    for (kept, slot) in states.iter_mut().zip(manager.connections.borrow().iter()) {
        *kept = slot.state;
    }
    CALLING.set(true);
    let result = catch_unwind(AssertUnwindSafe(|| call(manager, next)));
    CALLING.set(false);
    result.map_err(|_| {
        for (slot, kept) in manager.connections.borrow_mut().iter_mut().zip(states) {
            slot.state = kept;
        }
        PANIC.take()
    })
}

/// 1 or 6, by the panic's message; every other panic is an error of the driver or of the Rust.
fn panicked(message: &str) -> Option<Answer> {
    let begins = |start: &str| message.starts_with(start);
    if begins("index out of bounds") {
        Some(refused(1))
    } else if begins("unwrap failed: Too many references to the same connection")
        || begins("unwrap failed: bug: dropping a connection with refcount 0")
        || begins("assertion `left == right` failed")
    {
        Some(refused(6))
    } else {
        None
    }
}

// ---- text

fn put_number(out: &mut Vec<u8>, mut n: u64) {
    let mut digits = [0; 20];
    let mut at = digits.len();
    loop {
        at -= 1;
        digits[at] = b'0' + (n % 10) as u8;
        n /= 10;
        if n == 0 {
            break;
        }
    }
    out.extend_from_slice(&digits[at..]);
}

fn put_hex(out: &mut Vec<u8>, byte: u8) {
    let digit = |n: u8| b"0123456789ABCDEF"[n as usize];
    out.extend_from_slice(&[digit(byte >> 4), digit(byte & 15)]);
}

fn put_words(out: &mut Vec<u8>, numbers: &[u64]) {
    for n in numbers {
        out.push(b' ');
        put_number(out, *n);
    }
}

/// The lost counts have no counterpart in the Rust: a slot's is how many events its queue has handed back since `connect`
/// cleared it, in 32 bits.
fn lost<P>(slot: &ConnectionStorage<P>) -> u32 {
    slot.events.refused() as u32
}

/// No call of the Rust: the lost counts of all slots together, in 32 bits.
fn total_lost<P: PacketPool>(manager: &ConnectionManager<'_, P>) -> u32 {
    let slots = manager.connections.borrow();
    slots.iter().fold(0, |sum: u32, slot| sum.wrapping_add(lost(slot)))
}

fn put_slot(out: &mut Vec<u8>, slot: &ConnectionStorage<Buffer>) {
    match slot.state {
        ConnectionState::Disconnected => out.push(b'D'),
        ConnectionState::DisconnectRequest(reason) => {
            out.push(b'R');
            put_hex(out, reason as u8);
        }
        ConnectionState::Disconnecting(reason) => {
            out.push(b'G');
            put_hex(out, reason as u8);
        }
        ConnectionState::Connecting => out.push(b'C'),
        ConnectionState::Connected => out.push(b'O'),
    }
    let peer = &slot.peer_identity.addr;
    put_words(
        out,
        &[
            slot.handle.0.into(),
            life(slot).into(),
            slot.role as u64,
            peer.kind.0.into(),
        ],
    );
    out.push(b' ');
    for byte in peer.addr.0.iter().rev() {
        put_hex(out, *byte);
    }
    let params = &slot.params;
    put_words(
        out,
        &[
            params.conn_interval.as_micros(),
            params.peripheral_latency.into(),
            params.supervision_timeout.as_micros(),
        ],
    );
    out.push(b' ');
    match slot.subrating_params {
        Some(pair) => {
            put_number(out, pair.subrate_factor.into());
            out.push(b',');
            put_number(out, pair.continuation_number.into());
        }
        None => out.push(b'-'),
    }
    out.push(b' ');
    match slot.att_mtu {
        Some(mtu) => put_number(out, mtu.get().into()),
        None => out.push(b'-'),
    }
    put_words(
        out,
        &[
            slot.link_credits as u64,
            slot.acl_send_locked.into(),
            slot.refcount.into(),
            // 32 bits in document 01; no history is long enough for more.
            slot.metrics.blocked_sends as u32 as u64,
            lost(slot).into(),
            // packets held of the pool of document 02: no call here draws on it
            0,
            slot.indication_in_flight.into(),
            slot.indication_cfm_received.into(),
        ],
    );
    out.extend_from_slice(b" [");
    slot.events.look(|events| {
        for (i, event) in events.iter().enumerate() {
            if i > 0 {
                out.push(b';');
            }
            let fields = event_values(event);
            for (j, n) in fields.values[..fields.count].iter().enumerate() {
                if j > 0 {
                    out.push(b',');
                }
                put_number(out, *n);
            }
        }
    });
    out.push(b']');
}

/// The pool of document 02 has no counterpart in the Rust, whose `PacketPool` is something else: its packets stay free, nobody
/// waits, and nobody was granted any.
fn put_table<P: PacketPool<Packet = Buffer>>(out: &mut Vec<u8>, manager: &ConnectionManager<'_, P>, packets: u32) {
    let slots = manager.connections.borrow();
    put_number(out, manager.state.borrow().default_link_credits as u64);
    put_words(out, &[manager.default_att_mtu().into(), total_lost(manager).into()]);
    put_words(out, &[packets.into(), packets.into(), 0]);
    out.extend_from_slice(b" -");
    for slot in slots.iter() {
        out.extend_from_slice(b" / ");
        put_slot(out, slot);
    }
}

/// Who was woken since the last call, in the order of the history format. The GATT client's waker is not among them.
fn put_waiters<P: PacketPool<Packet = Buffer>>(out: &mut Vec<u8>, manager: &ConnectionManager<'_, P>) {
    let start = out.len();
    let mut name = |woken: bool, name: &str, index: Option<usize>| {
        if woken {
            if out.len() > start {
                out.push(b',');
            }
            out.extend_from_slice(name.as_bytes());
            if let Some(index) = index {
                out.push(b'@');
                put_number(out, index as u64);
            }
        }
    };
    let mut state = manager.state.borrow_mut();
    name(state.central_waker.take_woken(), "central", None);
    name(state.peripheral_waker.take_woken(), "peripheral", None);
    name(state.disconnect_waker.take_woken(), "disconnect", None);
    for (i, slot) in manager.connections.borrow_mut().iter_mut().enumerate() {
        name(slot.link_credit_waker.take_woken(), "link_credit", Some(i));
        name(slot.acl_send_lock_waker.take_woken(), "acl_send_lock", Some(i));
        name(slot.indication_slot_waker.take_woken(), "indication_slot", Some(i));
        name(slot.indication_cfm_waker.take_woken(), "indication_cfm", Some(i));
    }
    if out.len() == start {
        out.push(b'-');
    }
}

// ---- a run

/// Slot count, packet MTU and packets of the pool, within their bounds.
type Setup = (u8, u32, u32);

fn within_bounds((slots, mtu, packets): Setup) -> bool {
    (1..=16).contains(&slots) && (4..=65_539).contains(&mtu) && (1..=255).contains(&packets)
}

struct Run<'a> {
    input: &'a mut dyn BufRead,
    out: &'a mut dyn Write,
    error: Option<io::Error>,
    line: Vec<u8>,
    number: u64,
    /// Packets of the pool of the table at hand.
    packets: u32,
}

pub fn replay(input: &mut dyn BufRead, out: &mut dyn Write) -> io::Result<bool> {
    let mut run = Run {
        input,
        out,
        error: None,
        line: Vec::new(),
        number: 0,
        packets: 0,
    };
    let mut setup = None;
    while let Some(call) = run.next_call() {
        match call {
            Call::New(slots, mtu, packets) => {
                setup = Some((slots, mtu, packets));
                break;
            }
            // Before the first table no call can be run.
            _ => run.bad(),
        }
    }
    while let Some((count, mtu, packets)) = setup {
        run.packets = packets;
        setup = with_slots(count, |slots| with_packet_mtu(mtu, &mut run, slots));
    }
    match run.error {
        Some(error) => Err(error),
        None => Ok(true),
    }
}

impl Run<'_> {
    /// Runs calls on a fresh table until the next one is made.
    fn table<const MTU: usize>(&mut self, slots: &Slots) -> Option<Setup> {
        let manager = ConnectionManager::<Pool<MTU>>::new(slots);
        let mut text = Vec::new();
        let mut before = Vec::new();
        self.answer(&mut text, &done(&[]), &manager, &mut before);
        while let Some(mut next) = self.next_call() {
            if let Call::New(slots, mtu, packets) = next {
                return Some((slots, mtu, packets));
            }
            if !has_counterpart(&manager.connections.borrow(), &next) {
                self.fail("this end has no counterpart in the Rust");
            }
            match caught(&manager, &mut next) {
                Ok(answer) => {
                    let answer = with_life(&manager, &next, answer);
                    self.answer(&mut text, &answer, &manager, &mut before)
                }
                Err(message) => {
                    let Some(answer) = panicked(&message) else {
                        self.fail(&format!("a panic that stands for no refusal: {message}"))
                    };
                    let old = before.clone();
                    self.answer(&mut text, &answer, &manager, &mut before);
                    if before != old {
                        self.fail("a panic left the table changed");
                    }
                }
            }
        }
        None
    }

    /// Writes the line of a call; `table` is left holding the table's text.
    fn answer<P: PacketPool<Packet = Buffer>>(
        &mut self,
        text: &mut Vec<u8>,
        answer: &Answer,
        manager: &ConnectionManager<'_, P>,
        table: &mut Vec<u8>,
    ) {
        text.clear();
        text.extend_from_slice(history::text(&self.line));
        text.extend_from_slice(b" | ");
        put_number(text, answer.number.into());
        put_words(text, &answer.values[..answer.count]);
        text.extend_from_slice(b" | ");
        put_waiters(text, manager);
        text.extend_from_slice(b" | ");
        table.clear();
        put_table(table, manager, self.packets);
        text.extend_from_slice(table);
        text.push(b'\n');
        self.write(text);
    }

    /// The next call that can be run on a table, or the next table that can be made. All other lines are answered here.
    fn next_call(&mut self) -> Option<Call> {
        while self.read() {
            let text = history::text(&self.line);
            if text.is_empty() || text[0] == b'#' {
                continue;
            }
            match history::call(text) {
                None => self.bad(),
                Some(Call::New(slots, mtu, packets)) if !within_bounds((slots, mtu, packets)) => {
                    let mut text = history::text(&self.line).to_vec();
                    text.extend_from_slice(b" | ");
                    put_number(&mut text, SETUP.into());
                    text.push(b'\n');
                    self.write(&text);
                }
                Some(call) => return Some(call),
            }
        }
        None
    }

    /// Reads a line without its LF; false at the end, and after an error.
    fn read(&mut self) -> bool {
        self.line.clear();
        self.number += 1;
        if self.error.is_some() {
            return false;
        }
        match self.input.read_until(b'\n', &mut self.line) {
            Ok(0) => false,
            Ok(_) => {
                if self.line.last() == Some(&b'\n') {
                    self.line.pop();
                }
                true
            }
            Err(error) => {
                self.error = Some(error);
                false
            }
        }
    }

    fn bad(&mut self) {
        let text = format!("? {}\n", self.number);
        self.write(text.as_bytes());
    }

    /// Ends the run at a line for which there is no answer.
    fn fail(&mut self, message: &str) -> ! {
        let _ = self.out.flush();
        stop(&format!("line {}: {message}", self.number))
    }

    fn write(&mut self, text: &[u8]) {
        if let Err(error) = self.out.write_all(text) {
            self.error.get_or_insert(error);
        }
    }
}

// ---- makers of histories

/// A table on which a history is run while it is made, so that its ends are of open links. The packet MTU does not matter
/// to them.
pub struct Links<'d>(ConnectionManager<'d, Pool<251>>);

pub fn with_links<R>(count: u8, f: impl FnOnce(&Links) -> R) -> R {
    with_slots(count, |slots| f(&Links(ConnectionManager::new(slots))))
}

impl Links<'_> {
    /// Runs a line; one that is no call on this table is passed over. What is answered is for `replay` to say.
    pub fn run(&self, line: &str) {
        match history::call(history::text(line.as_bytes())) {
            None | Some(Call::New(..)) => {}
            Some(mut call) => {
                let _ = caught(&self.0, &mut call);
            }
        }
    }

    /// A line of a call. The end of a lock or grant is given without its slot and life, that of a ticket without its life;
    /// they are put behind it, and it is None where the end would have no counterpart in the Rust.
    pub fn complete(&self, call: &str) -> Option<String> {
        let slots = self.0.connections.borrow();
        let words: Vec<&str> = call.split(' ').collect();
        let number = || words[1].parse::<u16>().expect("a handle or an index");
        Some(match words[0] {
            "unlock_acl_send" | "grant_end" => {
                let (index, life) = only_open(&slots, ConnHandle(number()))?;
                format!("{call} {index} {life}")
            }
            "confirm" => format!("{call} {}", ticket_life(&slots, number() as u8)),
            _ => call.to_string(),
        })
    }
}

// ---- speed

/// Makes the calls of one kind many times, without text, on the last slot of a table in which every slot has a link, and writes what
/// the slot then holds, as crates/bench does.
pub fn repeat(kind: u64, count: u8, calls: u64, out: &mut dyn Write) -> io::Result<bool> {
    with_slots(count, |slots| {
        let manager = ConnectionManager::<Pool<251>>::new(slots);
        manager.set_link_credits(bench::CREDITS);
        for i in 0..count {
            call(&manager, &mut bench::connect(i));
            call(&manager, &mut bench::accept());
        }
        for n in 0..calls {
            black_box(call(&manager, &mut bench::call(kind, n, count - 1)).number);
        }
        let slots = manager.connections.borrow();
        let slot = &slots[usize::from(count) - 1];
        let events = slot.events.look(|events| events.len());
        let mtu = slot.att_mtu.map_or(0, |mtu| mtu.get());
        writeln!(out, "{}\n{}\n{}\n{}", slot.refcount, slot.link_credits, events, mtu)?;
        Ok(true)
    })
}
