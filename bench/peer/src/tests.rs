//! Tests of what scripts don't show: messages, late digests, forged answers, and passes.
use crate::clock::Clock;
use crate::format::Format;
use crate::journal::{Source, ENTRIES_MAX};
use crate::message::{Answer, Ask, Offer};
use crate::offers::{MemoryLink, OfferPool};
use crate::pass::Pass;
use crate::range::{Config, Range};
use crate::refusal::Refusal;
use crate::rows::Rows;
use crate::session::State;
use crate::shape::Shape;
use crate::shared::SharedRange;
use crate::tree::{hash, Digest, NodeAt, Tree};
use crate::version::{Version, VERSIONS_MAX};
use std::io::Write;

const CONFIG: Config = Config { format: Format::One, bits: 0, number: 0, limit: ENTRIES_MAX };

fn put(range: &mut Range, key: &str, context: &[(u64, u64)], value: &str) -> Result<u64, Refusal> {
    let new = CONFIG.put(1, key.as_bytes(), &Clock::from_pairs(context)?, Some(value.as_bytes()))?;
    range.put(0, new).map(|receipt| receipt.number)
}

fn leaf_of_a() -> NodeAt {
    NodeAt { depth: 2, index: 12 }
}

/// Returns a clean range that has the key `a`.
fn range_of_a() -> Range {
    let mut range = Range::new(CONFIG);
    assert_eq!(put(&mut range, "a", &[], "x"), Ok(0));
    assert_eq!(range.rehash(), 273);
    range
}

fn text_at(tree: &Tree, at: NodeAt) -> Vec<u8> {
    let mut text = Vec::new();
    tree.write_text_at(at, CONFIG.format, &mut text).expect("the tree is clean");
    text
}

fn offer_of(root: Digest) -> Offer {
    Offer { number: 1, format: 1, range: 0, root }
}

#[test]
fn messages_have_the_documented_bytes() {
    let ask = Ask { offer: 1, at: leaf_of_a() };
    let bytes = ask.encode();
    assert_eq!(bytes, [2, 0, 0, 0, 1, 2, 0, 12]);
    assert!(Ask::decode(&bytes).is_ok_and(|read| read.at == ask.at && read.offer == 1));
    for broken in [&bytes[..7], &[2, 0, 0, 0, 1, 2, 1, 0], &[2, 0, 0, 0, 1, 4, 0, 0], &[2, 0, 0, 0, 1, 2, 0, 12, 0]] {
        assert!(matches!(Ask::decode(broken), Err(Refusal::BadMessage)));
    }
    let ask = Ask { offer: 1, at: NodeAt { depth: 2, index: 0 } };
    let answer = ask.answer(|out| out.write_all(&[0]).ok()).expect("the text is written");
    assert_eq!(answer, [3, 0, 0, 0, 1, 2, 0, 0, 0, 0, 0, 0, 0, 0, 0, 1, 0]);
    assert!(Answer::decode(&answer).is_ok_and(|answer| answer.text == [0]));
    let offer = offer_of([7; 32]);
    assert!(Offer::decode(&offer.encode()).is_ok_and(|read| read.root == offer.root && read.number == 1));
}

#[test]
fn a_late_digest_is_stale() {
    let mut range = range_of_a();
    assert_eq!(put(&mut range, "a", &[(1, 1)], "y"), Ok(1));
    let job = range.take_job(0).expect("the leaf is dirty");
    let digest = job.run().expect("a leaf has no children");
    assert_eq!(put(&mut range, "a", &[(1, 2)], "z"), Ok(2));
    assert_eq!(range.install(job, digest), Err(Refusal::Stale));
    assert_eq!(range.digest_at(leaf_of_a()), None);
    let job = range.take_job(0).expect("the leaf is dirty");
    let digest = job.run().expect("a leaf has no children");
    assert_eq!(range.install(job, digest), Ok(()));
    assert_eq!(range.digest_at(leaf_of_a()), Some(digest));
}

#[test]
fn a_snapshot_stays() {
    let mut range = range_of_a();
    let snapshot = range.snapshot().expect("the range is clean");
    let text = text_at(&snapshot, leaf_of_a());
    assert_eq!(put(&mut range, "a", &[(1, 1)], "y"), Ok(1));
    assert!(range.snapshot().is_err_and(|refusal| refusal == Refusal::Dirty));
    assert_eq!(text_at(&snapshot, leaf_of_a()), text);
    assert_eq!(snapshot.digest_at(leaf_of_a()), Some(hash(&text)));
}

#[test]
fn forged_answers_are_refused() {
    let partner = range_of_a().snapshot().expect("the range is clean");
    let mut range = Range::new(CONFIG);
    range.rehash();
    let id = range.open_session(&offer_of(partner.root().expect("it is clean"))).expect("the range is clean");
    let text = text_at(&partner, NodeAt::ROOT);
    let take = |range: &mut Range, id, text: &[u8]| {
        range.take_answer(0, id, NodeAt::ROOT, text, hash(text)).map(|taken| taken.receipts.len())
    };
    assert_eq!(take(&mut range, id, &text[1..]), Err(Refusal::WrongDigest));
    assert_eq!(take(&mut range, id, &text), Ok(0));
    assert_eq!(take(&mut range, id, &text), Err(Refusal::NotAsked));
    let id = range.open_session(&offer_of(hash(b"abc"))).expect("the range is clean");
    assert_eq!(take(&mut range, id, b"abc"), Err(Refusal::NotCanonical));
    assert!(range.session(id).is_ok_and(|session| session.state == State::Failed));
    assert_eq!(take(&mut range, id, b"abc"), Err(Refusal::NotAsked));
}

#[test]
fn a_key_holds_64_versions() {
    let mut range = Range::new(CONFIG);
    for node in 100..100 + VERSIONS_MAX as u64 {
        assert!(put(&mut range, "a", &[(node, 1)], "x").is_ok());
    }
    assert_eq!(put(&mut range, "a", &[(200, 1)], "x"), Err(Refusal::Crowded));
    let clock = Clock::from_pairs(&[(300, 1)]).expect("it is a clock");
    let copy = CONFIG.copy(Version::new(b"a", &clock, Some(b"x"))).expect("there is only one range");
    assert!(range.accept(0, Source::Copy, copy).is_err_and(|refusal| refusal == Refusal::Crowded));
}

#[test]
fn rows_are_in_the_order_of_their_keys() {
    let (shape, mut rows, mut keys) = (Shape { key_bytes: 36, value_bytes: 1 }, Rows::default(), Vec::new());
    for number in 0..1_000 {
        let key = shape.key(number);
        let spot = rows.find(&key);
        assert!(rows.held(spot).is_empty());
        rows.add(spot, Version::new(&key, &Clock::default(), Some(b"x")));
        keys.push(key);
    }
    keys.sort();
    assert!(rows.iter().map(|versions| versions[0].key()).eq(keys.iter().map(Vec::as_slice)));
    assert!(keys.iter().all(|key| rows.get(key).versions().len() == 1));
}

#[test]
fn a_close_finds_a_pass_of_another_range() {
    let (range, other) = (SharedRange::new(1, CONFIG), SharedRange::new(1, CONFIG));
    let (mut pass, mut stranger) = (Pass::new(0), Pass::new(0));
    let context = Clock::default();
    for key in ["a", "b"] {
        assert_eq!(range.put_kept(&mut pass, key.as_bytes(), &context, b"x"), Ok(()));
        assert_eq!(other.put_kept(&mut stranger, key.as_bytes(), &context, b"y"), Ok(()));
        assert!(range.get_kept(&mut pass, key.as_bytes()).is_ok());
        assert!(range.get_kept(&mut pass, b"c").is_ok_and(|held| held.versions().is_empty()));
    }
    assert!(!other.close(&[pass]));
    assert!(!range.close(&[stranger]));
}

#[test]
fn a_close_agrees_with_its_passes() {
    let (range, partner) = (SharedRange::new(1, CONFIG), SharedRange::new(2, CONFIG));
    let (mut writer, mut syncer, mut reader) = (Pass::new(0), Pass::new(1), Pass::new(0));
    assert_eq!(range.put_kept(&mut writer, b"a", &Clock::default(), b"x"), Ok(()));
    assert_eq!(partner.put_kept(&mut reader, b"a", &Clock::default(), b"y"), Ok(()));
    assert_eq!((range.rehash(), partner.rehash()), (273, 273));
    let pool = OfferPool::default();
    let snapshot = partner.snapshot().expect("the range is clean");
    assert!(pool.publish(CONFIG.format, CONFIG.number, snapshot).is_ok());
    let synced = range.sync(&mut MemoryLink(&pool), 1, 600, |receipt| syncer.keep(receipt));
    assert!(synced.is_ok_and(|synced| synced.state == State::Finished && synced.asked == 3 && synced.accepted == 1));
    assert!(range.get_kept(&mut writer, b"a").is_ok_and(|held| held.versions().len() == 2));
    assert!(range.close(&[writer, syncer]));
}
