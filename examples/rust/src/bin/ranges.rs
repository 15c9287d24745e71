//! Readings of sensors by time. A key is a sensor's name and a number, so that keys are in the order of time.
use hot::{key_of, values_of, Hot};

fn print((key, value): (Vec<u8>, u64)) {
    if let Some((sensor, time)) = values_of::<(String, u64)>(key) {
        println!("{sensor} {time}: {value}");
    }
}

fn main() -> Result<(), hot::Error> {
    let handle = Hot::with_capacity(3000, 11, 1)?.handle()?;
    for sensor in ["a", "b", "c"] {
        handle.extend((0..1000u64).map(|time| (key_of((sensor, time)), time * 7 % 100)))?;
    }
    // From a time on and before another.
    handle
        .range(key_of(("b", 254u64))..key_of(("b", 258u64)))
        .for_each(print);
    // The last three of a sensor, the latest first.
    handle.prefix(key_of("a")).rev().take(3).for_each(print);
    // All of a sensor.
    let readings: Vec<u64> = handle.prefix(key_of("c")).map(|(_, value)| value).collect();
    println!(
        "c: {} readings, {} in all",
        readings.len(),
        readings.iter().sum::<u64>()
    );
    Ok(())
}
