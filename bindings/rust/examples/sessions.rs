//! Sessions that end eight seconds after login, or after four without use, and numbers that threads share.

use ludzvek::{bytes, numbers, Error, Segments, Settings};
use std::sync::Arc;
use std::thread;
use std::time::Duration;

const SECOND: u64 = 1_000_000_000;

fn sessions() -> Result<(), Error> {
    let mut sessions = bytes::Cache::new(&Settings {
        max_capacity: Some(100),
        time_to_live: Some(Duration::from_secs(8)),
        time_to_idle: Some(Duration::from_secs(4)),
        ..Settings::default()
    })?;
    sessions.insert(b"s1", b"Alice", 0)?;
    sessions.insert(b"s2", b"Bob", SECOND)?;
    for seconds in [2, 5, 8] {
        let now = seconds * SECOND;
        let user = sessions.get(b"s1", now)?;
        println!("s1 at {seconds} s: {:?}", user.as_deref().map(String::from_utf8_lossy));
        sessions.run_pending_tasks(now);
        while let Some(notice) = sessions.take_notice() {
            println!("session of {}: {:?}", String::from_utf8_lossy(&notice.value), notice.cause);
        }
    }
    Ok(())
}

fn squares() -> Result<(), Error> {
    let settings = Settings { max_capacity: Some(10_000), ..Settings::default() };
    let squares: Arc<Segments<numbers::Cache>> = Arc::new(Segments::new(&settings)?);
    let workers: Vec<_> = (0..4)
        .map(|worker| {
            let squares = Arc::clone(&squares);
            thread::spawn(move || {
                (0..1_000u64).filter(|n| n % 4 == worker).try_for_each(|n| squares.lock(&n).insert(n, n * n, 0))
            })
        })
        .collect();
    for worker in workers {
        worker.join().expect("no worker panics")?;
    }
    println!("12 * 12 = {:?}", squares.lock(&12).get(12, 0)?);
    let count: u64 = squares.segments().iter().map(|segment| segment.lock().entry_count()).sum();
    println!("{count} squares");
    Ok(())
}

fn main() -> Result<(), Error> {
    sessions()?;
    squares()
}
