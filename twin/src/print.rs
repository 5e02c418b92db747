//! How stations, headends, bytes and refusals print.

use crate::headend::{Headend, Request};
use crate::refusal::Refusal;
use crate::station::{State, Station};

pub fn numbers(values: &[u32]) -> String {
    let words: Vec<String> = values.iter().map(u32::to_string).collect();
    words.join(" ")
}

pub fn hex(bytes: &[u8]) -> String {
    let digits: String = bytes.iter().map(|byte| format!("{byte:02x}")).collect();
    format!("x{digits}")
}

pub fn refused(refusal: Refusal) -> String {
    format!("refused {} {}", refusal.number, refusal.element)
}

/// SID CHANNEL COUNT R KNOWN END STATE SIZE EXPONENT LEFT RETRIES TIME
pub fn station(station: &Station) -> String {
    let state = match station.state {
        State::Idle => [0, 0, 0, 0, 0, 0],
        State::Wanting { size } => [1, size, 0, 0, 0, 0],
        State::Deferring {
            size,
            exponent,
            left,
            retries,
        } => [2, size, exponent, left, retries, 0],
        State::Waiting {
            size,
            exponent,
            retries,
            time,
        } => [3, size, exponent, 0, retries, time],
    };
    let mut fields = vec![
        station.sid,
        u32::from(station.channel),
        u32::from(station.count),
        station.r,
        u32::from(station.end.is_some()),
        station.end.unwrap_or(0),
    ];
    fields.extend(state);
    numbers(&fields)
}

/// NEXT ACK CHANNEL COUNT RS RE DS DE SHORT HELD, then SID SIZE FIRST each
pub fn headend(headend: &Headend) -> String {
    places(headend, headend.requests())
}

/// The same with the places given, spare ones too.
pub fn places(headend: &Headend, places: &[Request]) -> String {
    let mut fields = vec![
        headend.next,
        headend.ack,
        u32::from(headend.channel),
        u32::from(headend.count),
    ];
    fields.extend(headend.backoffs.map(u32::from));
    fields.extend([headend.short, headend.held]);
    for request in places {
        fields.extend([request.sid, request.size, request.first]);
    }
    numbers(&fields)
}
