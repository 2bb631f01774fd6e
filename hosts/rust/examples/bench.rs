//! Nanoseconds for one event: `bench FILE`, where each line of the file is an event, `kind live value`: the kind from 0 to 6 as the library counts them, live 0 or 1, and
//! the bits of the value (f32) in hexadecimal digits. A station of width 8 that may switch hears the whole list, from fresh on at each turn, once event by event and once by
//! batches; what is printed is the median of the turns.

use hullathan::{Event, Station};
use std::hint::black_box;
use std::process::ExitCode;
use std::time::Instant;

const TURNS: usize = 9;

fn event(line: &str) -> Option<Event> {
    let mut fields = line.split_ascii_whitespace();
    let kind = fields.next()?;
    let live = fields.next()? != "0";
    let value = f32::from_bits(u32::from_str_radix(fields.next()?, 16).ok()?);
    if fields.next().is_some() {
        return None;
    }
    match kind {
        "0" => Some(Event::Mark { ms: value, live }),
        "1" => Some(Event::Gap { ms: value }),
        "2" => Some(Event::Finish),
        "3" => Some(Event::Seed { wpm: value }),
        "4" => Some(Event::Hint { ratio: value }),
        "5" => Some(Event::Clear),
        "6" => Some(Event::Switch),
        _ => None,
    }
}

fn event_by_event(station: &mut Station, events: &[Event]) {
    for &event in events {
        black_box(&station.call(black_box(event)));
    }
}

fn by_batches(station: &mut Station, events: &[Event]) {
    for answer in station.batches(black_box(events).iter().copied()) {
        black_box(&answer);
    }
}

/// Nanoseconds for one event of the list.
fn turn(hear: fn(&mut Station, &[Event]), events: &[Event]) -> f64 {
    let mut station = Station::start(8, true).expect("a width of 8 is not refused");
    let start = Instant::now();
    hear(&mut station, events);
    let time = start.elapsed();
    black_box(&station);
    time.as_nanos() as f64 / events.len() as f64
}

fn median(mut times: Vec<f64>) -> f64 {
    times.sort_by(f64::total_cmp);
    times[times.len() / 2]
}

fn events(file: &str) -> Result<Vec<Event>, String> {
    let text = std::fs::read_to_string(file).map_err(|e| format!("{file}: {e}"))?;
    let parsed = |(i, line)| event(line).ok_or(format!("{file}:{}: {line:?} is no event", i + 1));
    let list: Vec<Event> = text
        .lines()
        .enumerate()
        .map(parsed)
        .collect::<Result<_, _>>()?;
    if list.is_empty() {
        return Err(format!("{file} has no event"));
    }
    Ok(list)
}

fn main() -> ExitCode {
    let Some(file) = std::env::args().nth(1) else {
        eprintln!("bench FILE");
        return ExitCode::from(2);
    };
    let events = match events(&file) {
        Ok(events) => events,
        Err(message) => {
            eprintln!("bench: {message}");
            return ExitCode::FAILURE;
        }
    };
    // by turns, so that both meet the same machine
    let (one, batch): (Vec<f64>, Vec<f64>) = (0..TURNS)
        .map(|_| (turn(event_by_event, &events), turn(by_batches, &events)))
        .unzip();
    println!("rust event {:.1}", median(one));
    println!("rust batch {:.1}", median(batch));
    ExitCode::SUCCESS
}
