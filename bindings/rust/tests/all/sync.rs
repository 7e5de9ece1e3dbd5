//! Complete syncs.

use std::panic::{catch_unwind, AssertUnwindSafe};

use antientropy::{Bounds, Refusal, Replica, Report, Synced};

use crate::support::{crowded_pair, filled, live, replica, serve, sessions, NONE};

/// The SHA-256 of `junk`.
const JUNK: [u8; 32] = [
    0xef, 0x87, 0x5a, 0x17, 0x05, 0xa5, 0xfd, 0xac, 0x20, 0x6b, 0xe9, 0x96, 0xf4, 0xdc, 0x1f, 0x72, 0x6e, 0xa6, 0xb6,
    0x88, 0x61, 0xeb, 0x74, 0x1c, 0x37, 0xde, 0xf7, 0x27, 0x7f, 0x17, 0x9e, 0x37,
];

type Answers = Vec<Option<Vec<u8>>>;

/// Syncs a replica from a partner, by a link that changes lists of answers.
fn sync_over(
    replica: &mut Replica,
    partner: &mut Replica,
    bounds: Bounds,
    mut change: impl FnMut(Answers) -> Answers,
) -> Result<Synced, Refusal> {
    let snapshot = partner.snapshot().unwrap();
    let offer = snapshot.offer(1).unwrap();
    replica.sync_within(bounds, 9, &offer, |asks| change(serve(&snapshot, 1, asks)))
}

fn lie(mut answer: Vec<u8>) -> Vec<u8> {
    *answer.last_mut().unwrap() ^= 1;
    answer
}

#[test]
fn both_ways() {
    let (mut a, mut b) = (filled(300), replica());
    b.put(2, b"other", b"", &NONE).unwrap();
    let few_at_once = |answers: Answers| {
        assert!(answers.len() <= 10);
        answers
    };
    let synced = sync_over(&mut b, &mut a, Bounds { asks: 10, ..Bounds::default() }, few_at_once).unwrap();
    assert_eq!((synced.accepted, synced.known, synced.bad, synced.lost), (300, 0, 0, 0));
    assert_eq!((synced.report, synced.finished(), sessions(&b)), (Report::Finished, true, (0, 0)));
    assert_eq!(sync_over(&mut a, &mut b, Bounds::default(), |answers| answers).unwrap().accepted, 1);
    assert_eq!(a.root(), b.root());
    assert_eq!(sync_over(&mut a, &mut b, Bounds::default(), |_| panic!("equal roots")).unwrap().asks, 0);
}

#[test]
fn a_partner_that_lies() {
    let (mut a, mut b) = (filled(300), replica());
    let lies = |answers: Answers| answers.into_iter().map(|answer| answer.map(lie)).collect();
    let synced = sync_over(&mut b, &mut a, Bounds { bad: 5, ..Bounds::default() }, lies).unwrap();
    assert_eq!((synced.report, synced.bad, synced.asks, synced.lost), (Report::TooManyBad, 6, 6, 0));
    assert_eq!((b.count().unwrap().entries, sessions(&b)), (0, (0, 0)));
}

/// Returns a replica with 40 long values. Of each fourth key it holds this version, and of the others the first one.
fn versions(version: u64) -> Replica {
    let mut replica = replica();
    for n in 0..40 {
        let counter = if n % 4 == 0 { version } else { 1 };
        assert!(replica.accept(format!("key {n}").as_bytes(), &live([(1, counter)], &[b'v'; 300])).unwrap());
    }
    replica
}

fn is_patch(answer: &[u8]) -> bool {
    answer[0] == 5
}

/// An outline is sent for each leaf that differs: a row has over 255 bytes. One that brings no text isn't counted.
#[test]
fn patches_are_taken() {
    let (mut a, mut b) = (versions(2), versions(1));
    let mut answered: Answers = vec![];
    let noted = |answers: Answers| {
        answered.extend_from_slice(&answers);
        answers
    };
    let synced = sync_over(&mut b, &mut a, Bounds::default(), noted).unwrap();
    let leaves = answered.iter().flatten().filter(|answer| is_patch(answer) && answer[5] == 3).count();
    assert_eq!((synced.report, synced.accepted, leaves), (Report::Finished, 10, 10));
    assert_eq!((synced.asks, a.root()), (answered.len() as u64, b.root()));
}

/// Within plain bounds no ask is an outline.
#[test]
fn plain_asks() {
    let (mut a, mut b) = (versions(2), versions(1));
    let plain = |answers: Answers| {
        assert!(!answers.iter().flatten().any(|answer| is_patch(answer)));
        answers
    };
    let synced = sync_over(&mut b, &mut a, Bounds { plain: true, ..Bounds::default() }, plain).unwrap();
    assert_eq!(synced.accepted, 10);
}

/// A partner whose patches are all wrong, and an older one, which refuses outlines.
#[test]
fn outlines_without_a_text() {
    for lies in [true, false] {
        let (mut a, mut b) = (versions(2), versions(1));
        let link = |answer: Vec<u8>| match is_patch(&answer) {
            true => lies.then(|| lie(answer)),
            false => Some(answer),
        };
        let over = |answers: Answers| answers.into_iter().map(|answer| answer.and_then(link)).collect();
        let synced = sync_over(&mut b, &mut a, Bounds::default(), over).unwrap();
        assert_eq!((synced.report, synced.accepted, synced.bad, synced.lost), (Report::Finished, 10, 0, 0));
    }
}

#[test]
fn a_lost_link() {
    let (mut a, mut b) = (filled(300), replica());
    let synced = sync_over(&mut b, &mut a, Bounds { lost: 8, ..Bounds::default() }, |_| vec![]).unwrap();
    assert_eq!((synced.report, synced.lost, synced.asks, synced.bad), (Report::TooManyLost, 9, 9, 0));
}

#[test]
fn an_answer_that_is_no_node() {
    let offer = [&[1, 0, 0, 0, 7, 2, 0][..], &JUNK].concat();
    let answer = [&[3, 0, 0, 0, 7, 0, 0, 0][..], &4u64.to_be_bytes(), b"junk"].concat();
    let mut replica = replica();
    assert_eq!(replica.sync(1, &offer, |_| vec![Some(answer.clone())]), Err(Refusal::NotCanonical));
    assert_eq!(sessions(&replica), (0, 0));
}

#[test]
fn a_link_that_panics() {
    let (mut a, mut b) = (filled(30), replica());
    let panicked = catch_unwind(AssertUnwindSafe(|| sync_over(&mut b, &mut a, Bounds::default(), |_| panic!("link"))));
    assert!(panicked.is_err());
    assert_eq!(sessions(&b), (0, 0));
}

#[test]
fn a_crowded_leaf_is_left() {
    let (mut a, mut b, leaf) = crowded_pair(20);
    let backwards = |answers: Answers| answers.into_iter().rev().collect();
    let synced = sync_over(&mut b, &mut a, Bounds::default(), backwards).unwrap();
    assert_eq!((synced.accepted, synced.bad, synced.report, synced.left), (20, 0, Report::Left, vec![leaf]));
    assert_eq!(sessions(&b), (0, 0));
}
