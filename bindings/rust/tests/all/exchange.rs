//! Exchanges that are polled.

use antientropy::{Bounds, Clock, Config, Progress, Refusal, Replica, Report, Snapshot, Source, Verdict, VerdictKind};

use crate::support::{crowded_pair, filled, replica, serve, sessions, with_limit, NONE};

/// Returns a snapshot of 50 keys, with its offer of number 7.
fn offered() -> (Snapshot, Vec<u8>) {
    let snapshot = filled(50).snapshot().unwrap();
    let offer = snapshot.offer(7).unwrap();
    (snapshot, offer)
}

#[test]
fn answers_in_any_order_and_a_lost_ask() {
    let (snapshot, offer) = offered();
    let mut replica = replica();
    let mut exchange = replica.exchange(1, &offer, Bounds { asks: 4, ..Bounds::default() }).unwrap();
    let root = exchange.asks(&replica).unwrap();
    assert_eq!((root.len(), exchange.asks(&replica).unwrap().len()), (1, 0));
    exchange.lose(&root[0]).unwrap();
    assert_eq!(exchange.lose(b"no ask"), Err(Refusal::BadMessage));
    let mut taken = 0;
    loop {
        let asks = exchange.asks(&replica).unwrap();
        assert!(asks.len() <= 4);
        if asks.is_empty() {
            break;
        }
        for answer in serve(&snapshot, 7, &asks).iter().rev().flatten() {
            let verdict = exchange.take(&mut replica, answer).unwrap();
            assert_eq!((verdict.kind, verdict.cause, verdict.known), (VerdictKind::Taken, None, 0));
            taken += verdict.accepted;
        }
        let late = Verdict { kind: VerdictKind::Late, cause: None, accepted: 0, known: 0 };
        assert_eq!(exchange.take(&mut replica, &snapshot.serve(7, &asks[0]).unwrap()), Ok(late));
    }
    let progress = exchange.progress(&replica).unwrap();
    assert_eq!((progress.report, progress.cause, progress.bad, progress.lost), (Report::Finished, None, 0, 1));
    assert_eq!((taken, progress.accepted, progress.known), (50, 50, 0));
    assert_eq!((progress.in_flight, progress.bytes_in_flight, sessions(&replica)), (0, 0, (1, 0)));
    assert!(replica.entries(0).unwrap().all(|entry| entry.unwrap().source == Source::Partner));
    exchange.close(&mut replica).unwrap();
    assert_eq!((sessions(&replica), replica.root()), ((0, 0), snapshot.root()));
    assert!(replica.entries(0).unwrap().all(|entry| entry.unwrap().source == Source::Copy));
}

#[test]
fn equal_roots() {
    let (_, offer) = offered();
    let mut replica = filled(50);
    let mut exchange = replica.exchange(1, &offer, Bounds::default()).unwrap();
    assert_eq!(exchange.progress(&replica).unwrap().report, Report::Finished);
    assert_eq!((exchange.asks(&replica).unwrap().len(), sessions(&replica)), (0, (0, 0)));
}

/// A partner that returns the crowded leaf's text for each ask for a leaf. The crowded leaf is asked for first.
#[test]
fn a_leaf_is_left_for_its_own_answer() {
    let (mut a, mut b, leaf) = crowded_pair(20);
    let snapshot = a.snapshot().unwrap();
    let crowded = |ask: &[u8]| [&ask[..6], &leaf.to_be_bytes()].concat();
    let mut exchange = b.exchange(1, &snapshot.offer(7).unwrap(), Bounds::default()).unwrap();
    while exchange.progress(&b).unwrap().report == Report::Waiting {
        let asks = exchange.asks(&b).unwrap();
        for ask in &asks {
            let ask = if ask[5] == 3 { crowded(ask) } else { ask.clone() };
            exchange.take(&mut b, &snapshot.serve(7, &ask).unwrap()).unwrap();
            assert!(exchange.left(&b).unwrap().iter().all(|left| *left == leaf));
        }
        asks.iter().for_each(|ask| exchange.lose(ask).unwrap());
    }
    let Progress { report, accepted, bad, .. } = exchange.progress(&b).unwrap();
    assert_eq!((report, accepted, bad), (Report::TooManyLost, 0, 0));
    assert_eq!(exchange.left(&b), Ok(vec![leaf]));
}

/// 1,100 keys of 100,000 differ. Each tick has time for one batch of asks.
#[test]
fn a_sync_under_a_deadline() {
    let mut b = Replica::new(Config::default()).unwrap();
    let keys: Vec<_> = (0..100_000).map(|n| format!("key {n}").into_bytes()).collect();
    for key in &keys {
        b.put(1, key, &[b'o'; 100], &NONE).unwrap();
    }
    let mut a = b.renew(1_000_000).unwrap();
    for key in &keys[..1_100] {
        a.put(1, key, &[b'n'; 100], &Clock::from([(1, 1)])).unwrap();
    }
    let snapshot = a.snapshot().unwrap();
    let offer = snapshot.offer(7).unwrap();
    let (mut sent, mut ticks) = (offer.len(), 0);
    let mut exchange = b.exchange(1, &offer, Bounds::default()).unwrap();
    while exchange.progress(&b).unwrap().report == Report::Waiting {
        for ask in exchange.asks(&b).unwrap() {
            let answer = snapshot.serve(7, &ask).unwrap();
            sent += ask.len() + answer.len();
            exchange.take(&mut b, &answer).unwrap();
        }
        ticks += 1;
        b.put(2, format!("own {ticks}").as_bytes(), b"", &NONE).unwrap();
    }
    let progress = exchange.progress(&b).unwrap();
    assert_eq!((progress.report, progress.accepted, sessions(&b)), (Report::Finished, 1_100, (1, 0)));
    assert!(ticks > 3 && sent <= 4_000_000, "{ticks} ticks, {sent} bytes");
    exchange.close(&mut b).unwrap();
    assert!(keys[..1_100].iter().all(|key| b.row(key) == a.row(key)));
}

#[test]
fn a_full_journal() {
    let (snapshot, offer) = offered();
    let mut small = with_limit(10);
    let sync = |replica: &mut Replica| replica.sync(1, &offer, |asks| serve(&snapshot, 7, asks));
    assert_eq!((sync(&mut small), sessions(&small)), (Err(Refusal::JournalFull), (0, 0)));
    let mut exchange = small.exchange(1, &offer, Bounds::default()).unwrap();
    let mut refused = 0;
    while exchange.progress(&small).unwrap().report == Report::Waiting {
        for answer in serve(&snapshot, 7, &exchange.asks(&small).unwrap()).iter().flatten() {
            let verdict = exchange.take(&mut small, answer).unwrap();
            assert_eq!(verdict.cause.is_some(), verdict.kind == VerdictKind::Refused);
            refused += u64::from(verdict.cause == Some(Refusal::JournalFull));
        }
    }
    let progress = exchange.progress(&small).unwrap();
    assert_eq!((progress.report, progress.cause), (Report::Stopped, Some(Refusal::JournalFull)));
    exchange.go_on().unwrap();
    let Progress { report, lost, .. } = exchange.progress(&small).unwrap();
    assert_eq!((report, lost), (Report::Waiting, refused));
    let mut renewed = small.renew(100).unwrap();
    assert_eq!(exchange.progress(&renewed).unwrap().report, Report::Gone);
    let taken = small.count().unwrap().entries;
    assert!(0 < taken && taken <= 10);
    assert_eq!(sync(&mut renewed).unwrap().accepted, 50 - taken);
}
