//! How long a message takes to be read, against the events of quick-xml alone: medians of processor time, in turn.

use std::{fs, thread};

use quick_xml::events::Event;
use quick_xml::Reader;

const ROUNDS: usize = 5;
const RUNS: usize = 40;

/// The nanoseconds that the thread was on a processor, as Linux tells them; it counts anew when the thread yields.
fn spent() -> u64 {
    thread::yield_now();
    let told = fs::read_to_string("/proc/thread-self/schedstat").unwrap_or_default();
    told.split(' ').next().and_then(|text| text.parse().ok()).unwrap_or(0)
}

fn timed<T>(times: &mut Vec<f64>, work: impl FnOnce() -> T) -> T {
    let start = spent();
    let done = work();
    times.push((spent() - start) as f64 / 1e6);
    done
}

fn events(text: &str) -> usize {
    let mut reader = Reader::from_str(text);
    let mut count = 0;
    while let Ok(event) = reader.read_event() {
        if matches!(event, Event::Eof) {
            break;
        }
        count += 1;
    }
    count
}

fn main() {
    let file = std::env::args().nth(1).unwrap_or_default();
    let text = fs::read_to_string(file).unwrap_or_default();
    println!("{} bytes", text.len());
    let read = || messages::MODULE::ROOT::from_str(&text);
    let mut first = Vec::new();
    assert!(timed(&mut first, read).is_ok());
    println!("read for the first time, into memory that is new to the process: {:.2} ms", first[0]);
    for _ in 0..ROUNDS {
        let mut times = [Vec::new(), Vec::new(), Vec::new(), Vec::new()];
        let [of_events, of_read, of_freed, of_checked] = &mut times;
        for _ in 0..RUNS {
            assert!(timed(of_events, || events(&text)) > 0);
        }
        for _ in 0..RUNS {
            let read = timed(of_read, read);
            assert!(read.is_ok());
            timed(of_freed, || drop(read));
        }
        for _ in 0..RUNS {
            assert!(timed(of_checked, || messages::MODULE::ROOT::from_str_checked(&text)).is_ok());
        }
        let [events, read, freed, checked] = times.map(|mut times| {
            times.sort_by(f64::total_cmp);
            times[RUNS / 2]
        });
        println!(
            "events {events:.2} ms, read {read:.2} ms, freed {freed:.2} ms, read, checked and freed {checked:.2} ms; read {:.2} times the events, read and freed {:.2} times",
            read / events,
            (read + freed) / events
        );
    }
}
