//! Writes random histories. The same seed gives the same text.

use std::io::{self, Write};

use crate::connection_manager::driver::{with_links, Links, PACKET_MTUS};

/// xorshift64*
struct Random(u64);

impl Random {
    fn new(seed: u64) -> Self {
        let mut random = Self(seed.wrapping_mul(0x9E37_79B9_7F4A_7C15) ^ 0x0123_4567_89AB_CDEF);
        if random.0 == 0 {
            random.0 = 1;
        }
        for _ in 0..8 {
            random.next();
        }
        random
    }

    fn next(&mut self) -> u64 {
        self.0 ^= self.0 >> 12;
        self.0 ^= self.0 << 25;
        self.0 ^= self.0 >> 27;
        self.0.wrapping_mul(0x2545_F491_4F6C_DD1D)
    }

    fn below(&mut self, n: u64) -> u64 {
        (self.next() >> 11) % n
    }

    fn one_in(&mut self, n: u64) -> bool {
        self.below(n) == 0
    }

    fn pick<T: Copy>(&mut self, from: &[T]) -> T {
        from[self.below(from.len() as u64) as usize]
    }
}

const MAX32: u64 = 0xFFFF_FFFF;
const REASONS: [u64; 7] = [5, 19, 20, 21, 26, 41, 59];

/// Few values for each argument, so that calls meet; each kind has its limits among them.
struct Maker<'a> {
    random: Random,
    out: &'a mut dyn Write,
    links: &'a Links<'a>,
    slots: u64,
    mtu: u64,
    pool: u64,
    handles: Vec<u64>,
    peers: Vec<(u64, String)>,
    intervals: Vec<u64>,
    packets: Vec<u64>,
    left: u64,
}

pub fn random(seed: u64, histories: u64, calls: u64, out: &mut dyn Write) -> io::Result<bool> {
    for i in 0..histories {
        history(seed.wrapping_mul(1_000_003).wrapping_add(i), calls, 16, out)?;
    }
    Ok(true)
}

/// The cases of document 01 that are calls on a table, then random histories on few slots, some 3,000 lines in all.
pub fn sample(out: &mut dyn Write) -> io::Result<bool> {
    out.write_all(CASES.as_bytes())?;
    out.write_all("inc_ref 0\n".repeat(254).as_bytes())?;
    out.write_all(AT_255.as_bytes())?;
    for line in ODD.iter().map(|line| line.to_string()).chain(LONG.map(|long| long())) {
        writeln!(out, "{line}")?;
    }
    for i in 0..16 {
        history(20_260 + i, 150, 3, out)?;
    }
    Ok(true)
}

fn history(seed: u64, calls: u64, most_slots: u64, out: &mut dyn Write) -> io::Result<()> {
    let mut random = Random::new(seed);
    let most_slots = if random.one_in(3) {
        most_slots
    } else {
        most_slots.min(4)
    };
    let slots = 1 + random.below(most_slots);
    with_links(slots as u8, |links| {
        Maker::new(random, links, slots, out).history(calls)
    })
}

const CASES: &str = "\
# Before the first table
inc_ref 0
# Packet MTU 4 and 65,539, 3 and 65,540; slots; packets of the pool 1 and 255, 0 and 256
new 1 3 10
new 1 65540 10
new 0 251 10
new 17 251 10
new 1 251 0
new 1 251 256
new 1 251 4294967295
new 1 4 1
new 1 65539 255
# The example of the format
new 1 251 10
connect 64 1 112233445566 1 30000 0 2000000
exchange_att_mtu 64 185
get_att_mtu_handle 64
poll_accept 1
disconnected 64 19
# One slot, a second connect
new 1 251 10
connect 64 1 112233445566 1 30000 0 2000000
connect 65 1 112233445566 1 30000 0 2000000
# Accepted, disconnected, connect: taken only after the drop
new 1 251 10
connect 64 1 112233445566 0 30000 0 2000000
poll_accept 0
disconnected 64 8
connect 65 0 112233445567 0 30000 0 2000000
dec_ref 0
connect 65 0 112233445567 0 30000 0 2000000
# Accepted, drop: a request with 0x13; another drop
new 1 251 10
connect 64 1 112233445566 1 30000 0 2000000
poll_accept 1
dec_ref 0
dec_ref 0
poll_disconnecting
confirm 0 64 41 1
# Exchange 0 on a live link, and on none
exchange_att_mtu 64 0
new 1 251 10
exchange_att_mtu 64 0
connect 64 1 112233445566 1 30000 0 2000000
exchange_att_mtu 64 0
# Four events, then new parameters
new 1 251 10
connect 64 1 112233445566 1 30000 0 2000000
poll_accept 1
post_handle_event 64 0 22
post_handle_event 64 1 2 3
post_handle_event 64 3 4 1 2 3000000
post_handle_event 64 4 251 2120 27 328
post_handle_event 64 2 50000 3 4000000
post_handle_event 64 5 50000 2 0 1 4000000
next 0
post_handle_event 64 5 50000 2 0 1 4000000
# Credits 3: ask 4; ask 3, confirm 1, end
new 1 251 10
set_link_credits 3
connect 64 1 112233445566 1 30000 0 2000000
poll_request_to_send 64 4
poll_request_to_send 64 3
grant_confirm 64 3 0 1 1
grant_end 64 2 0 1
# Accept of a slot with references
new 2 251 10
connect 64 1 112233445566 1 30000 0 2000000
connect 65 1 112233445566 1 30000 0 2000000
inc_ref 0
poll_accept 1
poll_accept 1 0 112233445566
poll_accept 1 0 112233445566 1 112233445566
# Two open slots with one handle: the lower one Connecting, the other Connected
new 2 251 10
connect 64 1 112233445566 1 30000 0 2000000
connect 64 0 AABBCCDDEEFF 0 30000 0 2000000
poll_accept 0
request_handle_disconnect 64 19
get_connected_handle 64
exchange_att_mtu 64 185
get_att_mtu_handle 64
post_handle_event 64 3 2 0 1 2000000
disconnected 64 8
disconnected 64 19
disconnected 64 19
# Credits and the lock at their limits
new 1 251 10
set_link_credits 4294967295
connect 64 1 112233445566 1 30000 0 2000000
confirm_sent 64 0
confirm_sent 64 1
grant_end 64 1 0 1
grant_end 64 0 0 1
poll_acquire_acl_send_lock 64
poll_acquire_acl_send_lock 64
unlock_acl_send 64 0 1
unlock_acl_send 64 0 1
poll_request_to_send 64 4294967295
poll_request_to_send 64 1
grant_end 64 4294967295 0 1
disconnected 64 8
poll_request_to_send 64 0
# Indications: confirmed is looked at before Disconnected
new 1 251 10
signal_indication_confirmation 64
connect 64 1 112233445566 1 30000 0 2000000
acquire_indication_slot 0
acquire_indication_slot 0
wait_indication_confirmation 0
signal_indication_confirmation 64
wait_indication_confirmation 0
signal_indication_confirmation 64
disconnected 64 8
wait_indication_confirmation 0
acquire_indication_slot 0
release_indication_slot 0
# A full queue at `disconnected`, and every kind of event refused
new 1 251 10
connect 64 1 112233445566 1 30000 0 2000000
poll_accept 1
post_handle_event 64 0 0
post_handle_event 64 0 1
post_handle_event 64 0 2
post_handle_event 64 0 3
post_handle_event 64 0 4
post_handle_event 64 1 1 2
post_handle_event 64 2 7500 1 3000000
post_handle_event 64 3 9 1 2 3000000
post_handle_event 64 4 1 2 3 4
post_handle_event 64 5 1 2 3 4 5
disconnected 64 8
next 0
next 0
next 0
next 0
next 0
# Every reason
new 1 251 10
connect 64 1 112233445566 1 30000 0 2000000
poll_accept 1
request_disconnect 0 5
confirm 0 64 19 1
disconnected 64 8
dec_ref 0
connect 64 1 112233445566 1 30000 0 2000000
poll_accept 1
request_disconnect 0 20
confirm 0 64 21 2
disconnected 64 8
dec_ref 0
connect 64 1 112233445566 1 30000 0 2000000
poll_accept 1
request_disconnect 0 21
confirm 0 64 20 3
disconnected 64 8
dec_ref 0
connect 64 1 112233445566 1 30000 0 2000000
poll_accept 1
request_handle_disconnect 64 26
poll_disconnecting
confirm 0 64 41 4
disconnected 64 8
dec_ref 0
connect 64 1 112233445566 1 30000 0 2000000
poll_accept 1
request_disconnect 0 41
confirm 0 64 26 5
disconnected 64 8
dec_ref 0
connect 64 1 112233445566 1 30000 0 2000000
poll_accept 1
request_disconnect 0 59
confirm 0 64 5 6
disconnected 64 8
dec_ref 0
connect 64 1 112233445566 1 30000 0 2000000
poll_accept 1
request_disconnect 0 19
confirm 0 64 59 7
# References up to 255
new 1 251 10
connect 64 1 112233445566 1 30000 0 2000000
poll_accept 1
";

const AT_255: &str = "\
inc_ref 0
get_connected_handle 64
get_connection_by_peer_address 1 112233445566
dec_ref 0
get_connected_handle 64
get_connected_handle 64
";

impl<'a> Maker<'a> {
    fn new(mut random: Random, links: &'a Links<'a>, slots: u64, out: &'a mut dyn Write) -> Self {
        let r = &mut random;
        let mtu = u64::from(r.pick(PACKET_MTUS));
        let pool = match r.below(3) {
            0 => r.pick(&[1, 2, 9, 10, 99, 100, 254, 255]),
            _ => 1 + r.below(255),
        };
        let count = 1 + r.below(3);
        let handles = (0..count)
            .map(|_| r.pick(&[0, 1, 2, 64, 0xEFF, 0xFFF, 0x1000, 0xFFFF]))
            .collect();
        // Addresses that differ in the kind or in one byte.
        let base = r.next();
        let count = 1 + r.below(4);
        let peers = (0..count)
            .map(|_| {
                let changed = if r.one_in(3) { base } else { base ^ 1 << r.below(48) };
                (
                    r.pick(&[0, 0, 1, 1, 2, 255]),
                    format!("{:012X}", changed & 0xFFFF_FFFF_FFFF),
                )
            })
            .collect();
        let intervals = vec![r.pick(&[0, 7_500, 30_000]), r.pick(&[1, 30_000, u64::MAX])];
        let packets = match r.below(4) {
            0 => vec![0, 1, MAX32 - 1, MAX32],
            1 => vec![0, 1, 0x7FFF_FFFF, 0x8000_0000, 0x8000_0001],
            _ => vec![0, 1, 2, 3, 5],
        };
        Self {
            random,
            out,
            links,
            slots,
            mtu,
            pool,
            handles,
            peers,
            intervals,
            packets,
            left: 0,
        }
    }

    fn history(&mut self, calls: u64) -> io::Result<()> {
        self.left = calls;
        if self.random.one_in(10) {
            self.refused_new()?;
        }
        let line = format!("new {} {} {}", self.slots, self.mtu, self.pool);
        self.say(&line)?;
        if !self.random.one_in(3) {
            let n = self.packets();
            self.say(&format!("set_link_credits {n}"))?;
        }
        while self.left > 0 {
            self.act()?;
        }
        Ok(())
    }

    /// Writes a call, an end with the slot and life of its link. One without a counterpart in the Rust is not written.
    fn say(&mut self, call: &str) -> io::Result<()> {
        match self.links.complete(call) {
            Some(line) => self.write(&line),
            None => Ok(()),
        }
    }

    fn write(&mut self, line: &str) -> io::Result<()> {
        self.left = self.left.saturating_sub(1);
        self.links.run(line);
        self.out.write_all(line.as_bytes())?;
        self.out.write_all(b"\n")
    }

    // ---- arguments

    fn handle(&mut self) -> u64 {
        match self.random.below(24) {
            0 => self.random.below(0x1_0000),
            1 => self.random.pick(&[0, 1, 64, 0xFFFF]),
            _ => self.random.pick(&self.handles),
        }
    }

    fn index(&mut self) -> u64 {
        match self.random.below(40) {
            0 => self.slots,
            1 => self.random.pick(&[15, 16, 17, 127, 128, 255]),
            n if n < 20 => 0,
            _ => self.random.below(self.slots),
        }
    }

    fn peer(&mut self) -> String {
        let i = self.random.below(self.peers.len() as u64) as usize;
        let (kind, address) = &self.peers[i];
        if self.random.one_in(16) {
            format!("{kind} {}", address.to_lowercase())
        } else {
            format!("{kind} {address}")
        }
    }

    fn reason(&mut self) -> u64 {
        self.random.pick(&REASONS)
    }

    fn byte(&mut self) -> u64 {
        match self.random.below(4) {
            0 => self.random.below(0x100),
            _ => self.random.pick(&[0, 8, 19, 22, 255]),
        }
    }

    fn short(&mut self) -> u64 {
        match self.random.below(4) {
            0 => self.random.below(0x1_0000),
            _ => self.random.pick(&[0, 1, 2, 499, 0xFFFF]),
        }
    }

    fn time(&mut self) -> u64 {
        match self.random.below(6) {
            0 => self.random.pick(&[0, 1, MAX32, MAX32 + 1, u64::MAX]),
            1 => self.random.next(),
            _ => self.random.pick(&self.intervals),
        }
    }

    fn packets(&mut self) -> u64 {
        match self.random.below(16) {
            0 => self.random.pick(&[0, MAX32]),
            1 => self.random.below(MAX32 + 1),
            _ => self.random.pick(&self.packets),
        }
    }

    fn mtu(&mut self) -> u64 {
        let default = self.mtu - 4;
        match self.random.below(3) {
            0 => self.short(),
            1 => self.random.pick(&[0, 1, 22, 23, 24, 185, 247, 517, 0xFFFF]),
            _ => self
                .random
                .pick(&[default.saturating_sub(1), default, (default + 1).min(0xFFFF)]),
        }
    }

    fn event(&mut self) -> String {
        match self.random.below(6) {
            0 => format!("0 {}", self.byte()),
            1 => format!("1 {} {}", 1 + self.random.below(3), 1 + self.random.below(3)),
            2 => format!("2 {} {} {}", self.time(), self.short(), self.time()),
            3 => {
                let factor = self.random.pick(&[0, 1, 2, 3, 500, 0xFFFF]);
                format!("3 {factor} {} {} {}", self.short(), self.short(), self.time())
            }
            4 => format!("4 {} {} {} {}", self.short(), self.short(), self.short(), self.short()),
            _ => format!(
                "5 {} {} {} {} {}",
                self.time(),
                self.short(),
                self.short(),
                self.short(),
                self.time()
            ),
        }
    }

    // ---- calls

    fn connect(&mut self, role: u64) -> String {
        let (handle, peer) = (self.handle(), self.peer());
        format!(
            "connect {handle} {peer} {role} {} {} {}",
            self.time(),
            self.short(),
            self.time()
        )
    }

    fn poll_accept(&mut self, role: u64) -> String {
        let count = match self.random.below(12) {
            0 => 16,
            n if n < 8 => 0,
            n => n - 7,
        };
        let mut line = format!("poll_accept {role}");
        for _ in 0..count {
            line += " ";
            line += &self.peer();
        }
        line
    }

    fn any_call(&mut self) -> String {
        match self.random.below(39) {
            0..=2 => {
                let role = self.random.below(2);
                self.connect(role)
            }
            3..=5 => {
                let role = self.random.below(2);
                self.poll_accept(role)
            }
            6 => format!("get_connected_handle {}", self.handle()),
            7 => format!("get_connection_by_peer_address {}", self.peer()),
            8 => format!("inc_ref {}", self.index()),
            9..=10 => format!("dec_ref {}", self.index()),
            11..=12 => format!("request_disconnect {} {}", self.index(), self.reason()),
            13 => format!("request_handle_disconnect {} {}", self.handle(), self.reason()),
            14 => "poll_disconnecting".to_string(),
            15 => format!("confirm {} {} {}", self.index(), self.handle(), self.reason()),
            16 => format!("disconnected {} {}", self.handle(), self.byte()),
            17..=18 => format!("post_handle_event {} {}", self.handle(), self.event()),
            19..=20 => format!("next {}", self.index()),
            21 => format!("poll_acquire_acl_send_lock {}", self.handle()),
            22 => format!("unlock_acl_send {}", self.handle()),
            23..=24 => format!("poll_request_to_send {} {}", self.handle(), self.packets()),
            25 => {
                let (handle, packets, sent) = (self.handle(), self.packets(), self.packets());
                format!(
                    "grant_confirm {handle} {packets} {} {} {sent}",
                    self.byte(),
                    self.packets()
                )
            }
            26 => format!("grant_end {} {}", self.handle(), self.packets()),
            27 => format!("confirm_sent {} {}", self.handle(), self.packets()),
            28 => format!("set_link_credits {}", self.packets()),
            29 => format!("has_link_credits {} {}", self.handle(), self.packets()),
            30 => format!("exchange_att_mtu {} {}", self.handle(), self.mtu()),
            31 => format!("get_att_mtu_handle {}", self.handle()),
            32..=33 => format!("acquire_indication_slot {}", self.index()),
            34 => format!("release_indication_slot {}", self.index()),
            35 => format!("signal_indication_confirmation {}", self.handle()),
            36 => "total_lost".to_string(),
            _ => format!("wait_indication_confirmation {}", self.index()),
        }
    }

    /// One call, or some that lead to states which single calls reach seldom.
    fn act(&mut self) -> io::Result<()> {
        match self.random.below(60) {
            // A link opened.
            0..=9 => {
                let role = self.random.below(2);
                let line = self.connect(role);
                self.say(&line)?;
                let line = self.poll_accept(role);
                self.say(&line)
            }
            // A link closed, in one of several ways, and its references dropped.
            10..=13 => {
                let (index, handle) = (self.index(), self.handle());
                match self.random.below(3) {
                    0 => {
                        let reason = self.reason();
                        self.say(&format!("request_disconnect {index} {reason}"))?;
                    }
                    1 => {
                        let reason = self.reason();
                        self.say(&format!("request_handle_disconnect {handle} {reason}"))?;
                    }
                    _ => self.say(&format!("dec_ref {index}"))?,
                }
                self.say("poll_disconnecting")?;
                if !self.random.one_in(4) {
                    let reason = self.reason();
                    self.say(&format!("confirm {index} {handle} {reason}"))?;
                }
                let status = self.byte();
                self.say(&format!("disconnected {handle} {status}"))?;
                self.drops(index)
            }
            14 => {
                let index = self.index();
                self.drops(index)
            }
            // Slots closed and their references dropped, so that links can be opened again.
            15 => {
                for handle in self.handles.clone() {
                    let status = self.byte();
                    self.say(&format!("disconnected {handle} {status}"))?;
                }
                for index in 0..self.slots {
                    self.say(&format!("dec_ref {index}"))?;
                }
                Ok(())
            }
            // Events up to a full queue and past it.
            16..=17 => {
                let handle = self.handle();
                for _ in 0..3 + self.random.below(4) {
                    let event = self.event();
                    self.say(&format!("post_handle_event {handle} {event}"))?;
                }
                if self.random.one_in(3) {
                    let status = self.byte();
                    self.say(&format!("disconnected {handle} {status}"))?;
                }
                Ok(())
            }
            18 => {
                let index = self.index();
                for _ in 0..1 + self.random.below(6) {
                    self.say(&format!("next {index}"))?;
                }
                Ok(())
            }
            // An indication from its start to its end.
            19..=20 => {
                let (index, handle) = (self.index(), self.handle());
                self.say(&format!("acquire_indication_slot {index}"))?;
                self.say(&format!("signal_indication_confirmation {handle}"))?;
                if self.random.one_in(3) {
                    let status = self.byte();
                    self.say(&format!("disconnected {handle} {status}"))?;
                }
                self.say(&format!("wait_indication_confirmation {index}"))?;
                self.say(&format!("release_indication_slot {index}"))
            }
            // A lock and a grant, at times ended on a link that is to be closed, and the lock let go of twice.
            21..=22 => {
                let (handle, packets) = (self.handle(), self.packets());
                self.say(&format!("poll_acquire_acl_send_lock {handle}"))?;
                self.say(&format!("poll_request_to_send {handle} {packets}"))?;
                let (index, life, sent) = (self.byte(), self.packets(), self.packets());
                self.say(&format!("grant_confirm {handle} {packets} {index} {life} {sent}"))?;
                if self.random.one_in(4) {
                    let reason = self.reason();
                    self.say(&format!("request_handle_disconnect {handle} {reason}"))?;
                }
                self.say(&format!("grant_end {handle} {}", packets.saturating_sub(sent)))?;
                for _ in 0..1 + self.random.below(2) {
                    self.say(&format!("unlock_acl_send {handle}"))?;
                }
                Ok(())
            }
            // References to 255 and beyond.
            23 if self.left > 300 && self.random.one_in(8) => {
                let (index, handle) = (self.index(), self.handle());
                for _ in 0..253 + self.random.below(4) {
                    self.say(&format!("inc_ref {index}"))?;
                }
                let peer = self.peer();
                self.say(&format!("get_connected_handle {handle}"))?;
                self.say(&format!("get_connection_by_peer_address {peer}"))?;
                self.say(&format!("inc_ref {index}"))?;
                if self.random.one_in(2) {
                    for _ in 0..250 + self.random.below(8) {
                        self.say(&format!("dec_ref {index}"))?;
                    }
                }
                Ok(())
            }
            24 if self.random.one_in(4) => self.odd_line(),
            25 if self.random.one_in(8) => self.refused_new(),
            _ => {
                let line = self.any_call();
                self.say(&line)
            }
        }
    }

    fn drops(&mut self, index: u64) -> io::Result<()> {
        for _ in 0..1 + self.random.below(2) {
            self.say(&format!("dec_ref {index}"))?;
        }
        Ok(())
    }

    fn refused_new(&mut self) -> io::Result<()> {
        let (mut slots, mut mtu, mut pool) = (self.slots, self.mtu, self.pool);
        let which = self.random.below(4);
        if [0, 3].contains(&which) {
            slots = self.random.pick(&[0, 17, 18, 255]);
        }
        if [1, 3].contains(&which) {
            mtu = self.random.pick(&[0, 1, 3, 65_540, 65_541, 131_072, MAX32]);
        }
        if [2, 3].contains(&which) {
            pool = self.random.pick(&[0, 256, 257, 511, 65_536, 65_537, MAX32]);
        }
        self.say(&format!("new {slots} {mtu} {pool}"))
    }

    /// Lines that are bad or passed over, and good ones that look odd.
    fn odd_line(&mut self) -> io::Result<()> {
        let n = self.random.below((ODD.len() + LONG.len()) as u64) as usize;
        let line = match ODD.get(n) {
            Some(line) => line.to_string(),
            None => LONG[n - ODD.len()](),
        };
        self.write(&line)
    }
}

/// 16 peers and 17; 1,200 bytes and 1,201; long lines that are good.
const LONG: [fn() -> String; 6] = [
    || format!("poll_accept 1{}", " 0 112233445566".repeat(16)),
    || format!("poll_accept 1{}", " 0 112233445566".repeat(17)),
    || format!("inc_ref {}", "0".repeat(1_192)),
    || format!("inc_ref {}", "0".repeat(1_193)),
    || format!("# {}", "x".repeat(1_500)),
    || format!("next 0 | {}", "x".repeat(1_500)),
];

const ODD: &[&str] = &[
    "",
    "#",
    "# inc_ref 0",
    "nonsense",
    "? 5",
    "inc_ref",
    "inc_ref ",
    "inc_ref  0",
    " inc_ref 0",
    "inc_ref 0 ",
    "inc_ref 0 0",
    "inc_ref 256",
    "inc_ref -1",
    "inc_ref +1",
    "inc_ref 0x1",
    "inc_ref a",
    "inc_ref\t0",
    "inc_ref 0\r",
    "\r",
    "Inc_ref 0",
    "inc_refs 0",
    "inc_ref 0 |x",
    "inc_ref 0| x",
    "inc_ref 0 || x",
    "inc_ref 0  | x",
    "inc_ref 00000000000000000000000000000000000",
    "inc_ref 18446744073709551616",
    "inc_ref 340282366920938463463374607431768211456",
    "dec_ref 0 |",
    "dec_ref 0 | 0 | - |",
    "dec_ref 0 | x | y",
    "next 0 |  ",
    "new",
    "new 1",
    "new 1 251",
    "new 1 251 ",
    "new 1 251 1 0",
    "new 256 251 1",
    "new 1 4294967296 1",
    "new 1 251 4294967296",
    "new 1 251 18446744073709551616",
    "new -1 251 1",
    "new 1 251 -1",
    "new 1 251 0",
    "new 01 0251 0000000256",
    "connect 65536 1 112233445566 1 30000 0 2000000",
    "connect 64 256 112233445566 1 30000 0 2000000",
    "connect 64 1 11223344556 1 30000 0 2000000",
    "connect 64 1 1122334455667 1 30000 0 2000000",
    "connect 64 1 11223344556G 1 30000 0 2000000",
    "connect 64 1 112233445566 2 30000 0 2000000",
    "connect 64 1 112233445566 1 18446744073709551616 0 2000000",
    "connect 64 1 112233445566 1 30000 65536 2000000",
    "connect 64 1 112233445566 1 30000 0 18446744073709551616",
    "connect 64 1 112233445566 1 30000 0",
    "connect 64 1 112233445566 1 30000 0 2000000 0",
    "connect 064 001 aAbBcCdDeEfF 01 030000 00 02000000",
    "connect 0 255 FFFFFFFFFFFF 0 18446744073709551615 65535 18446744073709551615",
    "poll_accept",
    "poll_accept 2",
    "poll_accept 1 0",
    "poll_accept 1 0 112233445566 1",
    "poll_accept 1 112233445566",
    "poll_accept 00 000 112233445566",
    "get_connected_handle 65536",
    "get_connection_by_peer_address 0",
    "get_connection_by_peer_address 0 0x1122334455",
    "request_disconnect 0 0",
    "request_disconnect 0 6",
    "request_disconnect 0 22",
    "request_disconnect 0 0x13",
    "request_disconnect 0 019",
    "request_disconnect 0 275",
    "request_handle_disconnect 64 58",
    "poll_disconnecting 0",
    "poll_disconnecting ",
    "confirm 0 64",
    "confirm 0 64 4",
    "confirm 0 64 19",
    "confirm 256 64 19",
    "confirm 256 64 19 1",
    "confirm 0 64 19 4294967296",
    "confirm 0 64 19 1 0",
    "confirm 0255 064 019 04294967295",
    "disconnected 64 256",
    "disconnected 64",
    "post_handle_event 64",
    "post_handle_event 64 6",
    "post_handle_event 64 6 1",
    "post_handle_event 64 0",
    "post_handle_event 64 0 256",
    "post_handle_event 64 0 1 1",
    "post_handle_event 64 1 0 1",
    "post_handle_event 64 1 1 4",
    "post_handle_event 64 1 1",
    "post_handle_event 64 2 1 65536 1",
    "post_handle_event 64 3 65536 1 1 1",
    "post_handle_event 64 4 1 1 1 65536",
    "post_handle_event 64 5 1 1 1 1",
    "post_handle_event 64 256 1 1 1 1",
    "next 256",
    "poll_request_to_send 64 4294967296",
    "unlock_acl_send 64",
    "unlock_acl_send 64 0",
    "unlock_acl_send 64 256 1",
    "unlock_acl_send 64 0 4294967296",
    "unlock_acl_send 64 0 1 0",
    "grant_confirm 64 1 1",
    "grant_confirm 64 1 0 1",
    "grant_confirm 64 1 256 1 1",
    "grant_confirm 64 1 0 4294967296 1",
    "grant_confirm 64 4294967295 0 1 4294967296",
    "grant_confirm 64 1 0 1 1 0",
    "grant_confirm 64 4294967295 255 4294967295 4294967295",
    "grant_end 64 1",
    "grant_end 64 1 0",
    "grant_end 64 4294967296",
    "grant_end 64 4294967296 0 1",
    "grant_end 64 1 256 1",
    "grant_end 64 1 0 4294967296",
    "grant_end 64 1 0 1 0",
    "confirm_sent 64 4294967296",
    "set_link_credits 4294967296",
    "set_link_credits 04294967295",
    "has_link_credits 64",
    "exchange_att_mtu 64 65536",
    "get_att_mtu_handle",
    "acquire_indication_slot 256",
    "signal_indication_confirmation 65536",
];
