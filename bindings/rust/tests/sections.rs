//! Sections: what holds a moment back, and boxes that threads read, replace and take out.
use hot::{Error, Handle, Hot, Retirement};
use std::collections::VecDeque;
use std::thread;

#[test]
fn a_section_holds_moments_back() -> Result<(), Error> {
    let (hot, other) = (Hot::with_capacity(10, 8, 2)?, Hot::with_capacity(10, 8, 1)?);
    let (one, two) = (hot.handle()?, hot.handle()?);
    let before = one.retired();
    let section = one.enter()?;
    assert_eq!(one.enter().map(|_| ()), Err(Error::Inside));
    let within = two.retired();
    for handle in [&one, &two] {
        assert_eq!((handle.is_past(&before)?, handle.is_past(&within)?), (true, false));
    }
    drop(section);
    assert!(one.is_past(&within)? && two.is_past(&within)?);
    assert_eq!(other.handle()?.is_past(&within), Err(Error::OtherIndex));
    // A section that is forgotten ends with its handle.
    std::mem::forget(one.enter()?);
    let forgotten = two.retired();
    assert!(!two.is_past(&forgotten)?);
    drop(one);
    assert!(two.is_past(&forgotten)?);
    drop((hot.handle()?, two));
    Ok(())
}

/// What values point to.
struct Row(String);

/// Boxes that are out of the map, oldest first.
#[derive(Default)]
struct Retired(VecDeque<(Retirement, Box<Row>)>);

impl Retired {
    fn add(&mut self, handle: &Handle, value: u64) {
        // SAFETY: the value is of a box that `change_boxes` put in, and it came out of the map once.
        let owned = unsafe { Box::from_raw(value as *mut Row) };
        self.0.push_back((handle.retired(), owned));
    }

    fn free_past(&mut self, handle: &Handle) -> Result<usize, Error> {
        while let Some((moment, _)) = self.0.front() {
            if !handle.is_past(moment)? {
                break;
            }
            self.0.pop_front();
        }
        Ok(self.0.len())
    }
}

fn change_boxes(handle: &Handle, of: u8) -> Result<(), Error> {
    let mut old = Retired::default();
    for turn in 0..3000u64 {
        let key = [of, (turn % 3) as u8];
        let had = if turn % 4 == 3 {
            handle.remove(key)?
        } else {
            let new = Box::new(Row(format!("{of}")));
            handle.insert(key, Box::into_raw(new) as u64)?
        };
        if let Some(value) = had {
            old.add(handle, value);
        }
        old.free_past(handle)?;
    }
    for last in 0..3 {
        if let Some(value) = handle.remove([of, last])? {
            old.add(handle, value);
        }
    }
    while old.free_past(handle)? > 0 {
        thread::yield_now();
    }
    Ok(())
}

#[test]
fn readers_have_what_they_found() -> Result<(), Error> {
    let hot = Hot::with_capacity(100, 8, 4)?;
    thread::scope(|scope| {
        for of in 0..2 {
            let (writer, reader) = (hot.handle().unwrap(), hot.handle().unwrap());
            scope.spawn(move || change_boxes(&writer, of).unwrap());
            scope.spawn(move || {
                for turn in 0..3000 {
                    let _section = reader.enter().unwrap();
                    if let Some(value) = reader.get([of, (turn % 3) as u8]) {
                        // SAFETY: the box is freed once the sections that were open when it was taken out have been left.
                        let found = unsafe { &*(value as *const Row) };
                        assert_eq!(found.0, format!("{of}"));
                    }
                }
            });
        }
    });
    assert!(hot.handle()?.is_empty());
    Ok(())
}
