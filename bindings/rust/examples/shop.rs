//! A shop: four threads sell fruit, and print what was sold.

use githoppu::{Error, Session, Store};
use std::thread;

fn sell(session: &mut Session) -> Result<(), Error> {
    for _ in 0..1000 {
        session.add("sold", 1)?;
    }
    Ok(())
}

fn main() -> Result<(), Error> {
    let mut sessions = Store::open(1024, 4)?;
    sessions[0].put("fruit", "\"apple\"")?;
    thread::scope(|scope| {
        let sellers: Vec<_> = sessions.iter_mut().map(|session| scope.spawn(move || sell(session))).collect();
        sellers.into_iter().try_for_each(|seller| seller.join().expect("a seller ends"))
    })?;
    println!("sold {}", sessions[1].get("sold")?.unwrap_or_default());
    println!("of {}", sessions[2].get("fruit")?.unwrap_or_default());
    Ok(())
}
