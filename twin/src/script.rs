//! A script of calls: the places, and the answer of each line.

use crate::headend::{Headend, Request, MOST_HELD};
use crate::line::{parse, Line};
use crate::message::{self, Element, Map};
use crate::print;
use crate::station::{hear_table, State, Station};
use crate::time;

const STATIONS: usize = 40;
const HEADENDS: usize = 4;
const LENT: u8 = 0xA5;
const MOST_ROOM: u32 = 1_000;
const UNTOUCHED: u32 = 9_999;

pub struct Session {
    pub stations: Vec<Station>,
    pub headends: Vec<Headend>,
}

/// The answers of a whole script, each ended by a newline.
pub fn answers(script: &[u8]) -> String {
    let mut session = Session::default();
    let mut printed = String::new();
    for line in script.split(|&byte| byte == b'\n') {
        if !line.is_empty() {
            printed.push_str(&session.answer(line));
            printed.push('\n');
        }
    }
    printed
}

impl Default for Session {
    fn default() -> Session {
        let station = Station {
            sid: 0,
            channel: 0,
            count: 0,
            r: 0,
            end: None,
            state: State::Idle,
        };
        let headend = Headend {
            next: 0,
            ack: 0,
            channel: 0,
            count: 0,
            backoffs: [0; 4],
            short: 0,
            held: 0,
            places: [Request::default(); MOST_HELD],
        };
        Session {
            stations: vec![station; STATIONS],
            headends: vec![headend; HEADENDS],
        }
    }
}

/// In every call below None stands for `bad`.
impl Session {
    pub fn answer(&mut self, line: &[u8]) -> String {
        let answer = parse(line).and_then(|line| self.call(&line));
        answer.unwrap_or_else(|| "bad".to_string())
    }

    fn call(&mut self, line: &Line) -> Option<String> {
        let numbers = &line.numbers[..];
        match &line.hex {
            Some(bytes) => self.call_with_bytes(line.word, numbers, bytes),
            None => self.call_without(line.word, numbers),
        }
    }

    fn call_with_bytes(&mut self, word: &[u8], numbers: &[u32], bytes: &[u8]) -> Option<String> {
        match word {
            b"read" => read(numbers, bytes),
            b"after" => after(numbers, bytes),
            b"grant" => grant(numbers, bytes),
            b"hear" => self.hear(numbers, bytes),
            b"table" => self.table(numbers, bytes),
            _ => None,
        }
    }

    fn call_without(&mut self, word: &[u8], numbers: &[u32]) -> Option<String> {
        match word {
            b"write" => write(numbers),
            b"begins" => begins(numbers),
            b"earlier" => earlier(numbers),
            b"span" => span(numbers),
            b"station" => self.station(numbers),
            b"record" => self.record(numbers),
            b"show" => self.show(numbers),
            b"offer" => self.offer(numbers),
            b"headend" => self.headend(numbers),
            b"holding" => self.holding(numbers),
            b"held" => self.held(numbers),
            b"request" => self.request(numbers),
            b"issue" => self.issue(numbers),
            _ => None,
        }
    }

    fn station(&mut self, numbers: &[u32]) -> Option<String> {
        let [place, sid, channel, count, r] = exactly(numbers)?;
        let station = self.stations.get_mut(place as usize)?;
        match Station::new(sid, byte(channel)?, byte(count)?, r) {
            Ok(new) => *station = new,
            Err(refusal) => return Some(print::refused(refusal)),
        }
        Some(format!("station {}", print::station(station)))
    }

    fn record(&mut self, numbers: &[u32]) -> Option<String> {
        let (&place, fields) = numbers.split_first()?;
        let station = self.stations.get_mut(place as usize)?;
        *station = station_from(fields)?;
        Some(format!("station {}", print::station(station)))
    }

    fn show(&mut self, numbers: &[u32]) -> Option<String> {
        let [place] = exactly(numbers)?;
        let station = self.stations.get(place as usize)?;
        Some(format!("station {}", print::station(station)))
    }

    fn offer(&mut self, numbers: &[u32]) -> Option<String> {
        let [place, size] = exactly(numbers)?;
        let station = self.stations.get_mut(place as usize)?;
        let word = match station.offer(size) {
            Ok(()) => "offered".to_string(),
            Err(refusal) => print::refused(refusal),
        };
        Some(format!("{word} {}", print::station(station)))
    }

    fn hear(&mut self, numbers: &[u32], bytes: &[u8]) -> Option<String> {
        let [place, present, draw] = exactly(numbers)?;
        let station = self.stations.get_mut(place as usize)?;
        let draw = u16::try_from(draw).ok()?;
        let word = match station.hear(bytes, present, draw) {
            Ok(heard) => {
                let sent = heard.sent.map_or("none".to_string(), |f| f.to_string());
                format!("heard {} {sent}", heard.bursts)
            }
            Err(refusal) => print::refused(refusal),
        };
        Some(format!("{word} {}", print::station(station)))
    }

    fn table(&mut self, numbers: &[u32], bytes: &[u8]) -> Option<String> {
        let ([first, count, present, places], draws) = leading(numbers)?;
        if draws.len() > STATIONS || places as usize > STATIONS {
            return None;
        }
        let end = first.checked_add(count)?;
        let records = self.stations.get_mut(first as usize..end as usize)?;
        let draws = draws.iter().map(|&draw| u16::try_from(draw).ok());
        let draws = draws.collect::<Option<Vec<u16>>>()?;
        let mut answers = vec![UNTOUCHED; places as usize];
        let code = hear_table(records, bytes, present, &draws, &mut answers);
        answers.insert(0, code);
        Some(format!("table {}", print::numbers(&answers)))
    }

    fn headend(&mut self, numbers: &[u32]) -> Option<String> {
        let [place, next, channel, count, rs, re, ds, de, short] = exactly(numbers)?;
        let headend = self.headends.get_mut(place as usize)?;
        let backoffs = four_bytes([rs, re, ds, de])?;
        match Headend::new(next, byte(channel)?, byte(count)?, backoffs, short) {
            Ok(new) => *headend = new,
            Err(refusal) => return Some(print::refused(refusal)),
        }
        Some(format!("headend {}", print::headend(headend)))
    }

    fn holding(&mut self, numbers: &[u32]) -> Option<String> {
        let (&place, fields) = numbers.split_first()?;
        let headend = self.headends.get_mut(place as usize)?;
        *headend = headend_from(fields)?;
        Some(format!("headend {}", print::headend(headend)))
    }

    fn held(&mut self, numbers: &[u32]) -> Option<String> {
        let (&place, asked) = numbers.split_first()?;
        let headend = self.headends.get(place as usize)?;
        let printed = match asked {
            [] => print::headend(headend),
            &[places] => print::places(headend, headend.places.get(..places as usize)?),
            _ => return None,
        };
        Some(format!("headend {printed}"))
    }

    fn request(&mut self, numbers: &[u32]) -> Option<String> {
        let [place, sid, size, first] = exactly(numbers)?;
        let headend = self.headends.get_mut(place as usize)?;
        let word = match headend.request(sid, size, first) {
            Ok(()) => "taken".to_string(),
            Err(refusal) => print::refused(refusal),
        };
        Some(format!("{word} {}", print::headend(headend)))
    }

    fn issue(&mut self, numbers: &[u32]) -> Option<String> {
        let [place, ack, c, budget, room] = exactly(numbers)?;
        let headend = self.headends.get_mut(place as usize)?;
        let mut lent = lend(room)?;
        let word = match headend.issue(ack, c, budget, &mut lent) {
            Ok(size) => format!("issued {size}"),
            Err(refusal) => print::refused(refusal),
        };
        let headend = print::headend(headend);
        Some(format!("{word} {} {headend}", print::hex(&lent)))
    }
}

fn read(numbers: &[u32], bytes: &[u8]) -> Option<String> {
    let [] = exactly(numbers)?;
    let map = match message::read(bytes) {
        Ok(map) => map,
        Err(refusal) => return Some(print::refused(refusal)),
    };
    let mut fields = vec![u32::from(map.channel), u32::from(map.count)];
    fields.extend([map.elements.len() as u32, map.start, map.ack]);
    fields.extend(map.backoffs.map(u32::from));
    fields.extend([map.null() as u32, map.length()]);
    Some(format!("map {}", print::numbers(&fields)))
}

fn after(numbers: &[u32], bytes: &[u8]) -> Option<String> {
    let [] = exactly(numbers)?;
    Some(print::hex(message::after(bytes)))
}

fn grant(numbers: &[u32], bytes: &[u8]) -> Option<String> {
    let [sid, k] = exactly(numbers)?;
    Some(match message::grant(bytes, sid, k) {
        Ok(Some((first, length))) => format!("grant {first} {length}"),
        Ok(None) => "none".to_string(),
        Err(refusal) => print::refused(refusal),
    })
}

fn write(numbers: &[u32]) -> Option<String> {
    let ([room, channel, count, start, ack, rs, re, ds, de], triples) = leading(numbers)?;
    let triples = in_threes(triples, 241)?;
    let elements = triples.iter().map(|&[s, u, o]| Element::new(s, u, o));
    let map = Map {
        channel: byte(channel)?,
        count: byte(count)?,
        start,
        ack,
        backoffs: four_bytes([rs, re, ds, de])?,
        elements: elements.collect(),
    };
    let mut lent = lend(room)?;
    let word = match message::write(&map, &mut lent) {
        Ok(size) => format!("wrote {size}"),
        Err(refusal) => print::refused(refusal),
    };
    Some(format!("{word} {}", print::hex(&lent)))
}

fn begins(numbers: &[u32]) -> Option<String> {
    let [slot, m] = exactly(numbers)?;
    Some(match time::begins(slot, m) {
        Ok(timestamp) => format!("begins {timestamp}"),
        Err(refusal) => print::refused(refusal),
    })
}

fn earlier(numbers: &[u32]) -> Option<String> {
    let [a, b] = exactly(numbers)?;
    let answer = if time::earlier(a, b) { "yes" } else { "no" };
    Some(answer.to_string())
}

fn span(numbers: &[u32]) -> Option<String> {
    if numbers.len() % 2 != 0 || numbers.len() > 2 * 300 {
        return None;
    }
    let pairs = numbers.chunks(2).map(|pair| (pair[0], pair[1]));
    let taken: Vec<(u32, u32)> = pairs.filter(|p| p.1 <= message::LONGEST_MAP).collect();
    let left = numbers.len() / 2 - taken.len();
    Some(match time::span(&taken) {
        Some((from, last)) => format!("span {from} {last} {left}"),
        None => format!("span none {left}"),
    })
}

/// The numbers, where there are N of them.
fn exactly<const N: usize>(numbers: &[u32]) -> Option<[u32; N]> {
    numbers.try_into().ok()
}

/// The first N numbers, and the rest.
fn leading<const N: usize>(numbers: &[u32]) -> Option<([u32; N], &[u32])> {
    let first = exactly(numbers.get(..N)?)?;
    Some((first, &numbers[N..]))
}

fn byte(number: u32) -> Option<u8> {
    u8::try_from(number).ok()
}

fn four_bytes(numbers: [u32; 4]) -> Option<[u8; 4]> {
    let [a, b, c, d] = numbers.map(byte);
    Some([a?, b?, c?, d?])
}

fn lend(room: u32) -> Option<Vec<u8>> {
    (room <= MOST_ROOM).then(|| vec![LENT; room as usize])
}

fn in_threes(numbers: &[u32], most: usize) -> Option<Vec<[u32; 3]>> {
    if numbers.len() % 3 != 0 || numbers.len() > 3 * most {
        return None;
    }
    let threes = numbers.chunks(3);
    Some(threes.map(|t| [t[0], t[1], t[2]]).collect())
}

fn station_from(fields: &[u32]) -> Option<Station> {
    let ([sid, channel, count, r, known, end], state) = leading(fields)?;
    let end = match known {
        0 => None,
        1 => Some(end),
        _ => return None,
    };
    Some(Station {
        sid,
        channel: byte(channel)?,
        count: byte(count)?,
        r,
        end,
        state: state_from(state)?,
    })
}

fn state_from(fields: &[u32]) -> Option<State> {
    let [state, size, exponent, left, retries, time] = exactly(fields)?;
    match state {
        0 => Some(State::Idle),
        1 => Some(State::Wanting { size }),
        2 => Some(State::Deferring {
            size,
            exponent,
            left,
            retries,
        }),
        3 => Some(State::Waiting {
            size,
            exponent,
            retries,
            time,
        }),
        _ => None,
    }
}

fn headend_from(fields: &[u32]) -> Option<Headend> {
    let ([next, ack, channel, count, rs, re, ds, de, short, held], triples) = leading(fields)?;
    let mut places = [Request::default(); MOST_HELD];
    for (place, [sid, size, first]) in places.iter_mut().zip(in_threes(triples, MOST_HELD)?) {
        *place = Request { sid, size, first };
    }
    Some(Headend {
        next,
        ack,
        channel: byte(channel)?,
        count: byte(count)?,
        backoffs: four_bytes([rs, re, ds, de])?,
        short,
        held,
        places,
    })
}
