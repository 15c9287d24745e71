//! A log-structured store, whose key directory is the index. Values lie in a log, which only grows; the index has the place of each
//! key's last record: twice its offset, and one more if the record deletes the key. Several threads may write and read at once.
//!
//!     store LOG THREADS     put KEY VALUE     get KEY     del KEY     list PREFIX     fill COUNT
//!
//! A put is in the log when it returns; a store that must outlive the machine calls `sync_data`, too.
use hot::{Handle, Hot, MAX_KEY};
use std::error::Error;
use std::fs::{File, OpenOptions};
use std::io::{self, BufRead};
use std::os::unix::fs::FileExt;
use std::sync::atomic::{AtomicU64, Ordering};
use std::sync::Mutex;
use std::thread;

type Result<T> = std::result::Result<T, Box<dyn Error + Send + Sync>>;

/// No record goes from one block of the log into the next, so that threads can read the blocks of a log side by side.
const BLOCK: u64 = 1 << 16;
/// A record begins with a sum of what follows, the lengths of key and value, and whether it deletes the key: 4 bytes each.
const HEAD: usize = 16;

struct Record {
    key: Vec<u8>,
    value: Vec<u8>,
    is_deletion: bool,
}

/// FNV-1a.
fn sum(bytes: &[u8]) -> u32 {
    bytes.iter().fold(2_166_136_261, |sum: u32, byte| {
        (sum ^ u32::from(*byte)).wrapping_mul(16_777_619)
    })
}

impl Record {
    fn size(&self) -> u64 {
        (HEAD + self.key.len() + self.value.len()) as u64
    }

    fn to_bytes(&self) -> Vec<u8> {
        let numbers = [
            self.key.len() as u32,
            self.value.len() as u32,
            u32::from(self.is_deletion),
        ];
        let mut bytes: Vec<u8> = numbers.iter().flat_map(|it| it.to_ne_bytes()).collect();
        bytes.extend([&self.key[..], &self.value[..]].concat());
        [&sum(&bytes).to_ne_bytes()[..], &bytes].concat()
    }

    /// The record with which these bytes begin, if it is whole.
    fn read(bytes: &[u8]) -> Option<Record> {
        let number = |at: usize| bytes.get(4 * at..4 * at + 4)?.try_into().ok().map(u32::from_ne_bytes);
        let (key, value) = (number(1)? as usize, number(2)? as usize);
        let all = bytes.get(4..HEAD + key + value)?;
        if key == 0 || key > MAX_KEY || number(0)? != sum(all) {
            return None;
        }
        let (key, value) = all[HEAD - 4..].split_at(key);
        Some(Record {
            key: key.to_vec(),
            value: value.to_vec(),
            is_deletion: number(3)? == 1,
        })
    }
}

struct Store {
    file: File,
    directory: Hot,
    /// Where the next record goes, held during an append.
    end: Mutex<u64>,
    threads: u64,
}

/// A thread's way to the store.
struct Session<'a> {
    store: &'a Store,
    directory: Handle,
}

impl Store {
    /// The directory grows: a record that is in the log has room when it is opened again, however many there are.
    fn open(path: &str, threads: u64) -> Result<Store> {
        if threads == 0 {
            // Nothing would be read of the log, and it would be written over.
            return Err("a store has one thread at least".into());
        }
        let directory = Hot::growing(usize::MAX, threads as usize + 1)?;
        let file = OpenOptions::new()
            .read(true)
            .write(true)
            .create(true)
            .truncate(false)
            .open(path)?;
        let store = Store {
            file,
            directory,
            end: Mutex::new(0),
            threads,
        };
        let next_block = AtomicU64::new(0);
        store.side_by_side(|_, session| session.recover(&next_block))?;
        Ok(store)
    }

    fn session(&self) -> Result<Session<'_>> {
        Ok(Session {
            store: self,
            directory: self.directory.handle()?,
        })
    }

    /// Has each thread do its part, which is told by its number.
    fn side_by_side(&self, work: impl Fn(u64, &Session) -> Result<()> + Sync) -> Result<()> {
        thread::scope(|scope| {
            let work = &work;
            let start = |of| scope.spawn(move || work(of, &self.session()?));
            let started: Vec<_> = (0..self.threads).map(start).collect();
            started
                .into_iter()
                .try_for_each(|it| it.join().expect("no thread panics"))
        })
    }
}

impl Session<'_> {
    fn put(&self, key: &str, value: &str) -> Result<()> {
        self.change(&Record {
            key: key.into(),
            value: value.into(),
            is_deletion: false,
        })
    }

    fn delete(&self, key: &str) -> Result<()> {
        self.change(&Record {
            key: key.into(),
            value: Vec::new(),
            is_deletion: true,
        })
    }

    fn get(&self, key: &str) -> Result<Option<Vec<u8>>> {
        match self.directory.get(key) {
            Some(place) if place % 2 == 0 => {
                let mut bytes = vec![0; BLOCK as usize];
                let got = self.store.file.read_at(&mut bytes, place / 2)?;
                let record = Record::read(&bytes[..got]).ok_or("the log is damaged")?;
                Ok(Some(record.value))
            }
            _ => Ok(None),
        }
    }

    /// The keys with a prefix, in order.
    fn list(&self, prefix: &str) -> impl Iterator<Item = Vec<u8>> + '_ {
        self.directory
            .prefix(prefix)
            .filter(|(_, place)| place % 2 == 0)
            .map(|(key, _)| key)
    }

    fn change(&self, record: &Record) -> Result<()> {
        if record.key.is_empty() || record.key.len() > MAX_KEY || record.size() > BLOCK {
            return Err("a key or value of this length can't be kept".into());
        }
        let offset = {
            let mut end = self.store.end.lock().expect("no thread panics");
            let is_whole = *end % BLOCK + record.size() <= BLOCK;
            let offset = if is_whole { *end } else { (*end / BLOCK + 1) * BLOCK };
            self.store.file.write_all_at(&record.to_bytes(), offset)?;
            *end = offset + record.size();
            offset
        };
        self.point(record, offset)
    }

    /// Lets the directory have a key's record at this place, unless it has a later one. So it does not matter in which order threads
    /// come here, after their appends or when they read a log again.
    fn point(&self, record: &Record, offset: u64) -> Result<()> {
        let place = 2 * offset + u64::from(record.is_deletion);
        self.directory.fetch_update(&record.key, |had| had.max(Some(place)))?;
        Ok(())
    }

    /// Takes block after block that no other thread has taken, and brings its records into the directory: up to one that was torn.
    fn recover(&self, next_block: &AtomicU64) -> Result<()> {
        let mut block = vec![0; BLOCK as usize];
        loop {
            let start = BLOCK * next_block.fetch_add(1, Ordering::Relaxed);
            let length = self.store.file.read_at(&mut block, start)?;
            let mut at = 0;
            while let Some(record) = Record::read(&block[at..length]) {
                self.point(&record, start + at as u64)?;
                at += record.size() as usize;
            }
            if at > 0 {
                let mut end = self.store.end.lock().expect("no thread panics");
                *end = (*end).max(start + at as u64);
            }
            if length == 0 {
                return Ok(());
            }
        }
    }
}

/// Runs a command.
fn answer(store: &Store, session: &Session, line: &str) -> Result<()> {
    let mut words = line.splitn(3, ' ');
    let (verb, key, value) = (words.next(), words.next().unwrap_or(""), words.next().unwrap_or(""));
    match verb {
        Some("put") => session.put(key, value),
        Some("del") => session.delete(key),
        Some("get") => {
            let value = session.get(key)?.unwrap_or_else(|| b"absent".to_vec());
            println!("{}", String::from_utf8_lossy(&value));
            Ok(())
        }
        Some("list") => {
            session
                .list(key)
                .for_each(|key| println!("{}", String::from_utf8_lossy(&key)));
            Ok(())
        }
        Some("fill") => {
            let count = key.parse()?;
            store.side_by_side(|of, session| {
                let mut mine = (of..count).step_by(store.threads as usize);
                mine.try_for_each(|n: u64| session.put(&format!("fill/{n:06}"), &format!("value {n}")))
            })
        }
        _ => Err("unknown command".into()),
    }
}

fn main() -> Result<()> {
    let words: Vec<String> = std::env::args().skip(1).collect();
    let (log, threads) = match &words[..] {
        [log, threads] => (log, threads.parse()?),
        _ => return Err("usage: store LOG THREADS".into()),
    };
    let store = Store::open(log, threads)?;
    let session = store.session()?;
    for line in io::stdin().lock().lines() {
        answer(&store, &session, &line?)?;
    }
    Ok(())
}
