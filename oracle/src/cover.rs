//! Counts what occurs in answers: each call with each number, event kinds, waiters, states and reasons. What can occur
//! and does not is named, and then the exit status is 1.

use std::collections::BTreeMap;
use std::io::{self, BufRead, Write};

/// Each call with the numbers that it can answer on a table within its bounds.
const CALLS: &[(&str, &[u8])] = &[
    ("new", &[0, 8]),
    ("connect", &[0, 2]),
    ("poll_accept", &[0, 5, 6]),
    ("get_connected_handle", &[0, 2, 6]),
    ("get_connection_by_peer_address", &[0, 2, 6]),
    ("inc_ref", &[0, 1, 6]),
    ("dec_ref", &[0, 1, 6]),
    ("request_disconnect", &[0, 1]),
    ("request_handle_disconnect", &[0]),
    ("poll_disconnecting", &[0, 5]),
    ("confirm", &[0, 1]),
    ("disconnected", &[0, 2]),
    ("post_handle_event", &[0, 2, 4]),
    ("next", &[0, 1, 5]),
    ("poll_acquire_acl_send_lock", &[0, 2, 5]),
    ("unlock_acl_send", &[0]),
    ("poll_request_to_send", &[0, 3, 5]),
    ("grant_confirm", &[0]),
    ("grant_end", &[0, 7]),
    ("confirm_sent", &[0, 2, 7]),
    ("set_link_credits", &[0]),
    ("has_link_credits", &[0]),
    ("exchange_att_mtu", &[0]),
    ("get_att_mtu_handle", &[0]),
    ("acquire_indication_slot", &[0, 1, 3, 5]),
    ("release_indication_slot", &[0, 1]),
    ("signal_indication_confirmation", &[0]),
    ("wait_indication_confirmation", &[0, 1, 3, 5]),
    ("total_lost", &[0]),
];

const WAITERS: &[&str] = &[
    "-",
    "central",
    "peripheral",
    "disconnect",
    "link_credit",
    "acl_send_lock",
    "indication_slot",
    "indication_cfm",
];

/// Calls that are accepted with and without waking someone.
const WAKE_OR_NOT: &[&str] = &[
    "grant_end",
    "unlock_acl_send",
    "request_disconnect",
    "request_handle_disconnect",
    "dec_ref",
    "signal_indication_confirmation",
];

/// The ends of locks, grants and tickets: which word is the slot's index, and in which states of the slot they are made.
const ENDS: &[(&str, usize, &[&str])] = &[
    ("unlock_acl_send", 2, &["C", "O", "R", "G"]),
    ("grant_end", 3, &["C", "O", "R", "G"]),
    ("confirm", 1, &["D", "C", "O", "R", "G"]),
];

const OTHERS: &[&str] = &[
    "has_link_credits says 0",
    "has_link_credits says 1",
    "bad line",
    "references 255",
    "subrating",
    "a lost event",
    "an event lost by disconnected",
    "two slots with lost events",
    "a lost count begun anew by connect",
    "a pool of 1",
    "a pool of 255",
    "a pool of 0 refused",
    "a pool of 256 refused",
];

const REASONS: &[&str] = &["05", "13", "14", "15", "1A", "29", "3B"];

pub fn cover(input: &mut dyn BufRead, out: &mut dyn Write) -> io::Result<bool> {
    let mut seen: BTreeMap<String, u64> = BTreeMap::new();
    let mut wanted: Vec<String> = Vec::new();
    for (call, numbers) in CALLS {
        wanted.extend(numbers.iter().map(|n| format!("{call} answers {n}")));
    }
    wanted.extend(WAITERS.iter().map(|waiter| format!("waiter {waiter}")));
    for way in ["posted", "refused with 4", "answered by next", "queued"] {
        // A Disconnected event is queued by `disconnected` too; it can be posted all the same.
        wanted.extend((0..6).map(|kind| format!("event {kind} {way}")));
    }
    wanted.extend(["D", "C", "O"].map(|state| format!("state {state}")));
    for state in ["R", "G"] {
        wanted.extend(REASONS.iter().map(|reason| format!("state {state}{reason}")));
    }
    for (call, _, states) in ENDS {
        wanted.extend(states.iter().map(|state| format!("{call} in state {state}")));
        wanted.push(format!("{call} in a later life"));
    }
    wanted.extend(OTHERS.iter().map(|what| what.to_string()));
    for call in WAKE_OR_NOT {
        wanted.push(format!("{call} wakes"));
        wanted.push(format!("{call} wakes nobody"));
    }

    let mut line = String::new();
    let mut raw = Vec::new();
    let mut lines = 0u64;
    let mut lost: Vec<u32> = Vec::new();
    // The slots' states before the call, without reasons.
    let mut states: Vec<String> = Vec::new();
    loop {
        raw.clear();
        if input.read_until(b'\n', &mut raw)? == 0 {
            break;
        }
        lines += 1;
        line.clear();
        line += String::from_utf8_lossy(&raw).trim_end_matches('\n');
        let mut note = |what: String| *seen.entry(what).or_insert(0) += 1;
        if line.starts_with("? ") {
            note("bad line".to_string());
            continue;
        }
        let parts: Vec<&str> = line.split(" | ").collect();
        let words: Vec<&str> = parts[0].split(' ').collect();
        let answer: Vec<&str> = parts[1].split(' ').collect();
        let call = words[0];
        note(format!("{call} answers {}", answer[0]));
        if call == "new" && ["0", "1", "255", "256"].contains(&words[3]) {
            let refused = if answer[0] == "0" { "" } else { " refused" };
            note(format!("a pool of {}{refused}", words[3]));
        }
        if parts.len() < 4 {
            continue;
        }
        for waiter in parts[2].split(',') {
            note(format!("waiter {}", waiter.split('@').next().unwrap_or("")));
        }
        note(format!("{call} wakes{}", if parts[2] == "-" { " nobody" } else { "" }));
        match (call, answer[0]) {
            ("post_handle_event", "0") => note(format!("event {} posted", words[2])),
            ("post_handle_event", "4") => note(format!("event {} refused with 4", words[2])),
            ("next", "0") => note(format!("event {} answered by next", answer[1])),
            ("has_link_credits", "0") => note(format!("has_link_credits says {}", answer[1])),
            _ => {}
        }
        let end = ENDS.iter().find(|(end, ..)| *end == call);
        if let Some(state) = end.and_then(|(_, index, _)| states.get(words[*index].parse::<usize>().ok()?)) {
            note(format!("{call} in state {state}"));
            if !["0", "1"].contains(&words[words.len() - 1]) {
                note(format!("{call} in a later life"));
            }
        }
        let slots: Vec<Vec<&str>> = parts[3]
            .split(" / ")
            .skip(1)
            .map(|slot| slot.split(' ').collect())
            .collect();
        let counts: Vec<u32> = slots.iter().map(|fields| fields[15].parse().unwrap_or(0)).collect();
        let mut changed = counts.iter().zip(&lost).filter(|(now, before)| now != before);
        match (call, changed.next()) {
            ("disconnected", Some(_)) => note("an event lost by disconnected".to_string()),
            ("connect", Some(_)) => note("a lost count begun anew by connect".to_string()),
            ("post_handle_event", Some(_)) => note("a lost event".to_string()),
            _ => {}
        }
        if counts.iter().filter(|n| **n > 0).count() > 1 {
            note("two slots with lost events".to_string());
        }
        lost = counts;
        states = slots.iter().map(|fields| fields[0][..1].to_string()).collect();
        for fields in slots {
            note(format!("state {}", fields[0]));
            if fields[9] != "-" {
                note("subrating".to_string());
            }
            if fields[13] == "255" {
                note("references 255".to_string());
            }
            for event in fields[19]
                .trim_matches(['[', ']'])
                .split(';')
                .filter(|event| !event.is_empty())
            {
                note(format!("event {} queued", event.split(',').next().unwrap_or("")));
            }
        }
    }

    for (what, count) in &seen {
        writeln!(out, "{count:>10}  {what}")?;
    }
    let missing: Vec<&String> = wanted.iter().filter(|what| !seen.contains_key(*what)).collect();
    for what in &missing {
        writeln!(out, "   MISSING  {what}")?;
    }
    let strange: Vec<&String> = seen
        .keys()
        .filter(|what| what.contains(" answers ") && !wanted.contains(what))
        .collect();
    for what in &strange {
        writeln!(out, "   STRANGE  {what}")?;
    }
    writeln!(
        out,
        "{lines} lines; {} of {} things wanted occur",
        wanted.len() - missing.len(),
        wanted.len()
    )?;
    Ok(missing.is_empty() && strange.is_empty())
}
