//! Checkpoints: saved, loaded, truncated and changed.

use std::io::{self, Read, Write};

use antientropy::{CheckpointError, Clock, Config, Damage, Refusal, Replica};

use crate::support::{live, with_limit, NONE};

/// The checkpoint of the page `docs/FORMATS.md`: its head, the offset of its row, and its length.
const PAGE_HEAD: &[u8] = b"antient\x01\x01\x00\x00\x00";
const PAGE_LEN: usize = 2113;

/// A file that reads and writes a few bytes at a time.
struct Trickle(Vec<u8>);

impl Read for Trickle {
    fn read(&mut self, out: &mut [u8]) -> io::Result<usize> {
        let some = out.len().min(100).min(self.0.len());
        out[..some].copy_from_slice(&self.0[..some]);
        self.0.drain(..some);
        Ok(some)
    }
}

impl Write for Trickle {
    fn write(&mut self, data: &[u8]) -> io::Result<usize> {
        self.0.write(&data[..data.len().min(100)])
    }

    fn flush(&mut self) -> io::Result<()> {
        Ok(())
    }
}

/// A file that can be neither read nor written.
struct Broken;

impl Read for Broken {
    fn read(&mut self, _: &mut [u8]) -> io::Result<usize> {
        Err(io::ErrorKind::PermissionDenied.into())
    }
}

impl Write for Broken {
    fn write(&mut self, _: &[u8]) -> io::Result<usize> {
        Err(io::ErrorKind::PermissionDenied.into())
    }

    fn flush(&mut self) -> io::Result<()> {
        Ok(())
    }
}

fn shopping() -> Replica {
    let mut replica = with_limit(1000);
    replica.put(1, b"cart", &b"milk".repeat(1000), &NONE).unwrap();
    replica.accept(b"cart", &live([(2, 1)], b"eggs")).unwrap();
    replica.delete(1, b"list", &NONE).unwrap();
    replica
}

fn saved() -> Vec<u8> {
    let mut file = Vec::new();
    assert_eq!(shopping().save(&mut file).unwrap(), 3);
    file
}

fn load(mut file: &[u8]) -> Result<Replica, CheckpointError> {
    Replica::load(&mut file, 1000)
}

/// Returns the damage that a load finds.
#[track_caller]
fn damage(file: &[u8]) -> Damage {
    match load(file) {
        Err(CheckpointError::Damaged(damage)) => damage,
        Err(error) => panic!("another error: {error}"),
        Ok(_) => panic!("the file was loaded"),
    }
}

/// Returns the file with another byte at a place.
fn changed(mut file: Vec<u8>, place: usize) -> Vec<u8> {
    file[place] ^= 0x10;
    file
}

fn find(file: &[u8], word: &[u8]) -> usize {
    file.windows(word.len()).position(|window| window == word).unwrap()
}

#[test]
fn checkpoint_of_the_page() {
    let mut replica = Replica::new(Config { format: 1, ..Config::default() }).unwrap();
    replica.put(1, b"a", b"x", &NONE).unwrap();
    let mut file = Vec::new();
    assert_eq!(replica.save(&mut file).unwrap(), 1);
    let row = replica.row(b"a").unwrap().unwrap();
    let leaves = &file[PAGE_HEAD.len() + 32..];
    let expected = [&[0; 12 * 8][..], &21u64.to_be_bytes(), &row, &[0; 243 * 8]].concat();
    assert_eq!((file.len(), &file[..PAGE_HEAD.len()]), (PAGE_LEN, PAGE_HEAD));
    assert_eq!(file[PAGE_HEAD.len()..][..32], replica.root().unwrap());
    assert_eq!(leaves, expected);
}

#[test]
fn save_and_load() {
    let (mut replica, mut loaded) = (shopping(), load(&saved()).unwrap());
    assert_eq!(loaded.root(), replica.root());
    assert_eq!(loaded.get(b"cart"), replica.get(b"cart"));
    let counts = loaded.count().unwrap();
    assert_eq!((counts.entries, counts.limit, counts.dirty), (3, 1000, 0));
}

#[test]
fn range_of_the_file() {
    let mut file = Vec::new();
    Replica::new(Config { bits: 4, range: 9, ..Config::default() }).unwrap().save(&mut file).unwrap();
    let about = load(&file).unwrap().about().unwrap();
    assert_eq!((about.format, about.bits, about.range), (2, 4, 9));
}

#[test]
fn log_after_the_checkpoint() {
    let mut replica = shopping();
    let logged = replica.save(&mut Vec::new()).unwrap();
    replica.put(1, b"later", b"", &Clock::new()).unwrap();
    assert_eq!(replica.entries(logged).unwrap().map(|entry| entry.unwrap().key).collect::<Vec<_>>(), [b"later"]);
}

#[test]
fn file_without_a_buffer() {
    let mut file = Trickle(Vec::new());
    shopping().save(&mut file).unwrap();
    assert!(file.0 == saved());
    assert_eq!(Replica::load(&mut file, 1000).unwrap().root(), shopping().root());
}

#[test]
fn file_that_is_a_trait_object() {
    let (mut out, file) = (Vec::new(), saved());
    shopping().save(&mut out as &mut dyn Write).unwrap();
    assert!(Replica::load(&mut file.as_slice() as &mut dyn Read, 1000).is_ok());
}

#[test]
fn broken_file() {
    assert!(matches!(shopping().save(&mut Broken), Err(CheckpointError::Io(_))));
    let error = Replica::load(&mut Broken, 1000).err().unwrap();
    assert!(matches!(error, CheckpointError::Io(_)));
    assert!(std::error::Error::source(&error).is_some());
}

#[test]
fn truncated() {
    let file = saved();
    for len in [0, 7, 8, 43, 44, 50, file.len() / 2, file.len() - 1] {
        assert_eq!(damage(&file[..len]), Damage::Truncated);
    }
}

#[test]
fn too_long() {
    assert_eq!(damage(&[&saved()[..], b"\0"].concat()), Damage::TooLong);
}

#[test]
fn changed_head() {
    for place in 0..9 {
        assert_eq!(damage(&changed(saved(), place)), Damage::NotCheckpoint);
    }
    assert_eq!(damage(&changed(saved(), 20)), Damage::Root);
    for place in 9..12 {
        let error = load(&changed(saved(), place)).err().unwrap();
        assert!(matches!(error, CheckpointError::Refused(Refusal::BadRing)));
    }
}

#[test]
fn changed_rows() {
    let file = saved();
    assert_eq!(damage(&changed(file.clone(), find(&file, b"eggs"))), Damage::Root);
    let error = damage(&changed(file.clone(), find(&file, b"cart") - 1));
    let leaf = antientropy::place(2, 0, b"cart").unwrap().leaf;
    assert_eq!(error, Damage::Leaf(leaf));
    assert!(error.to_string().contains(&format!("leaf {leaf} ")));
}

#[test]
fn huge_length() {
    let mut file = saved();
    file[44..52].fill(0xff);
    assert_eq!(damage(&file), Damage::Truncated);
}

#[test]
fn limit() {
    let error = Replica::load(&mut saved().as_slice(), 2).err().unwrap();
    assert!(matches!(error, CheckpointError::Refused(Refusal::JournalFull)));
    assert_eq!(error.to_string(), format!("the checkpoint is refused: {}", Refusal::JournalFull));
}
