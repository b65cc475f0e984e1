//! Writes every short history over a small alphabet: two slots, two handles, each call with two or three arguments.
//! From each beginning there are
//!
//! - every history of two calls;
//! - every history of three calls whose first two are among the calls that can change the table. A call that only
//!   looks, or that is refused for its index, leaves the table as it was, which its own line shows: after it come the
//!   histories of two calls again. So does a `new` that is refused, as the line after it shows.
//!
//! The ends of locks, grants and tickets stand here without slot and life; the table before them gives these. A history
//! with an end that has no counterpart in the Rust is left out: without that end it is among the shorter ones.

use std::io::{self, Write};

use crate::connection_manager::driver::with_links;

const CHANGE: &[&str] = &[
    "connect 1 0 00000000000A 0 10 0 100",
    "connect 2 1 00000000000B 1 20 1 200",
    "connect 1 0 00000000000B 1 10 0 100",
    "poll_accept 0",
    "poll_accept 1",
    "poll_accept 0 1 00000000000A 0 00000000000A",
    "get_connected_handle 1",
    "get_connected_handle 2",
    "get_connection_by_peer_address 0 00000000000A",
    "get_connection_by_peer_address 1 00000000000B",
    "inc_ref 0",
    "inc_ref 1",
    "dec_ref 0",
    "dec_ref 1",
    "request_disconnect 0 19",
    "request_disconnect 1 5",
    "request_handle_disconnect 1 59",
    "request_handle_disconnect 2 19",
    "confirm 0 1 20",
    "confirm 1 2 41",
    "disconnected 1 8",
    "disconnected 2 19",
    "post_handle_event 1 0 8",
    "post_handle_event 1 1 1 3",
    "post_handle_event 1 2 10 5 300",
    "post_handle_event 1 2 30 5 300",
    "post_handle_event 1 3 2 1 3 400",
    "post_handle_event 1 3 1 1 3 400",
    "post_handle_event 1 4 27 328 251 2120",
    "post_handle_event 1 5 10 2 0 1 100",
    "post_handle_event 2 2 20 0 200",
    "next 0",
    "next 1",
    "poll_acquire_acl_send_lock 1",
    "poll_acquire_acl_send_lock 2",
    "unlock_acl_send 1",
    "unlock_acl_send 2",
    "poll_request_to_send 1 0",
    "poll_request_to_send 1 2",
    "poll_request_to_send 2 1",
    "grant_end 1 0",
    "grant_end 1 1",
    "grant_end 2 1",
    "confirm_sent 1 0",
    "confirm_sent 1 1",
    "confirm_sent 2 4294967295",
    "set_link_credits 2",
    "set_link_credits 4294967295",
    "exchange_att_mtu 1 0",
    "exchange_att_mtu 1 24",
    "exchange_att_mtu 2 300",
    "acquire_indication_slot 0",
    "acquire_indication_slot 1",
    "release_indication_slot 0",
    "release_indication_slot 1",
    "signal_indication_confirmation 1",
    "signal_indication_confirmation 2",
    "wait_indication_confirmation 0",
    "wait_indication_confirmation 1",
];

const LOOK: &[&str] = &[
    "poll_disconnecting",
    "grant_confirm 1 2 0 1 1",
    "grant_confirm 2 1 255 4294967295 2",
    "has_link_credits 1 1",
    "has_link_credits 2 0",
    "get_att_mtu_handle 1",
    "get_att_mtu_handle 2",
    "inc_ref 2",
    "dec_ref 2",
    "request_disconnect 2 19",
    "confirm 2 1 19",
    "next 2",
    "acquire_indication_slot 2",
    "release_indication_slot 2",
    "wait_indication_confirmation 2",
    "new 2 28 0",
    "new 2 28 256",
];

const SLOTS: u8 = 2;
const OPEN: &str = "connect 1 0 00000000000A 0 10 0 100\npoll_accept 0\n";

pub fn all(out: &mut dyn Write) -> io::Result<bool> {
    let new = |packets: u8| format!("new {SLOTS} 28 {packets}\n");
    let accepted = |packets: u8| format!("{}{OPEN}", new(packets));
    let every: Vec<&str> = CHANGE.iter().chain(LOOK).copied().collect();
    let beginnings = [
        new(1),
        accepted(255),
        // a request
        format!("{}request_disconnect 0 19\n", accepted(2)),
        // a full queue
        format!(
            "{}post_handle_event 1 0 1\npost_handle_event 1 1 2 2\npost_handle_event 1 3 2 0 1 100\n\
             post_handle_event 1 4 1 2 3 4\n",
            accepted(10)
        ),
        // two open slots with one handle, the lower one Connecting
        format!(
            "{}connect 1 0 00000000000A 0 10 0 100\nconnect 1 1 00000000000B 1 20 0 100\npoll_accept 1\n",
            new(99)
        ),
        // a closed slot with a reference
        format!("{}disconnected 1 8\n", accepted(100)),
        // credits at their limit
        format!("{}set_link_credits 4294967295\n{OPEN}", new(254)),
        // 255 references
        format!("{}{}", accepted(255), "inc_ref 0\n".repeat(254)),
    ];
    for beginning in &beginnings {
        histories(out, beginning, &[&every, &every])?;
        histories(out, beginning, &[CHANGE, CHANGE, &every])?;
    }
    Ok(true)
}

/// Every history that goes on from `begun` with one call of each of `steps`.
fn histories(out: &mut dyn Write, begun: &str, steps: &[&[&str]]) -> io::Result<()> {
    let Some((calls, steps)) = steps.split_first() else {
        return out.write_all(begun.as_bytes());
    };
    let lines: Vec<String> = with_links(SLOTS, |links| {
        begun.lines().for_each(|line| links.run(line));
        calls.iter().filter_map(|call| links.complete(call)).collect()
    });
    lines
        .iter()
        .try_for_each(|line| histories(out, &format!("{begun}{line}\n"), steps))
}
