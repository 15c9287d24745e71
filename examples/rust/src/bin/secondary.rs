//! An index of rows by a value that several rows may have. A key is the value and the row's number, so the keys of one value are
//! together, in the order of the rows, and no two rows have the same key.
use hot::{key_of, values_of, Hot, Range};

fn print(what: &str, pairs: Range) {
    let rows: Vec<_> = pairs.map(|(_, row)| row.to_string()).collect();
    println!("{what}: {}", rows.join(" "));
}

fn main() -> Result<(), hot::Error> {
    let rows = [21.5, -3.0, 21.5, 0.0, -3.0, 30.25];
    let by_value = Hot::with_capacity(100, 16, 1)?.handle()?;
    by_value.extend((0..).zip(rows).map(|(row, value)| (key_of((value, row)), row)))?;
    print("-3", by_value.prefix(key_of(-3.0)));
    print("from -3 and below 21.5", by_value.range(key_of(-3.0)..key_of(21.5)));
    // The greatest value, read from its key.
    let last = by_value.last_key_value();
    if let Some((value, row)) = last.and_then(|(key, _)| values_of::<(f64, u64)>(key)) {
        println!("the greatest: {value} of row {row}");
    }
    // Row 2 gets the value -3. It has both keys for a moment, so that no reader misses it.
    by_value.insert(key_of((-3.0, 2u64)), 2)?;
    by_value.remove(key_of((rows[2], 2u64)))?;
    print("-3 later", by_value.prefix(key_of(-3.0)));
    print("21.5 later", by_value.prefix(key_of(21.5)));
    Ok(())
}
