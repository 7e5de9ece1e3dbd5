//! An outage and its repair: two replicas accept writes separately, sync, and merge the key that both wrote.

use antientropy::{merge, Clock, Config, Refusal, Replica, Synced};

const A: u16 = 1;
const B: u16 = 2;

/// Syncs from the partner. Its snapshot is called directly here; in production the messages travel over a network.
fn sync(replica: &mut Replica, partner: &mut Replica, node: u16) -> Result<Synced, Refusal> {
    let snapshot = partner.snapshot()?;
    let offer = snapshot.offer(1)?;
    replica.sync(node, &offer, |asks| asks.iter().map(|ask| snapshot.serve(1, ask).ok()).collect())
}

/// Formats a number of versions.
fn count(number: u64) -> String {
    match number {
        1 => "1 version".to_owned(),
        _ => format!("{number} versions"),
    }
}

/// Returns "yes" if the roots are equal.
fn equal(a: &mut Replica, b: &mut Replica) -> Result<&'static str, Refusal> {
    Ok(if a.root()? == b.root()? { "yes" } else { "no" })
}

/// Returns the values of a key.
fn values(replica: &Replica, key: &[u8]) -> Result<String, Refusal> {
    let versions = replica.get(key)?;
    let values: Vec<_> =
        versions.iter().flat_map(|version| &version.value).map(|v| String::from_utf8_lossy(v)).collect();
    Ok(values.join(" | "))
}

fn main() -> Result<(), Refusal> {
    let (mut a, mut b) = (Replica::new(Config::default())?, Replica::new(Config::default())?);
    a.put(A, b"order", b"paid", &Clock::new())?;
    sync(&mut b, &mut a, A)?;
    a.put(A, b"cart", b"milk", &Clock::new())?;
    a.put(A, b"gift", b"wrapped", &Clock::new())?;
    b.put(B, b"cart", b"eggs", &Clock::new())?;
    println!("a has {} keys, b has {}", a.keys().count(), b.keys().count());
    println!("roots equal: {}", equal(&mut a, &mut b)?);
    println!("b took {}", count(sync(&mut b, &mut a, A)?.accepted));
    println!("a took {}", count(sync(&mut a, &mut b, B)?.accepted));
    let both = values(&a, b"cart")?;
    if both == values(&b, b"cart")? {
        println!("cart at both: {both}");
    }
    let versions = a.get(b"cart")?;
    let context = merge(versions.iter().map(|version| &version.clock))?;
    a.put(A, b"cart", b"milk, eggs", &context)?;
    sync(&mut b, &mut a, A)?;
    println!("merged: {}", values(&b, b"cart")?);
    println!("roots equal: {}", equal(&mut a, &mut b)?);
    Ok(())
}
