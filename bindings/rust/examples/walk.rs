//! A walk over all keys, in their order: each key with its document. Each step is a read of its own, so a key that others put or delete during the walk
//! may be there or not, and every other key is there once.

use githoppu::{Error, Session, Store};

/// Each key with its document, in the order of the keys.
fn all(session: &mut Session) -> Result<Vec<(String, String)>, Error> {
    let mut pairs = Vec::new();
    let mut last = String::new();
    // from "" on, which is below every key, to the next one until there is none
    while let Some(key) = session.next(&last)? {
        // a key that was deleted since has no document
        if let Some(document) = session.get(&key)? {
            pairs.push((key.clone(), document));
        }
        last = key;
    }
    Ok(pairs)
}

fn main() -> Result<(), Error> {
    let mut session = Store::open(64, 1)?.pop().expect("one session was asked for");
    for (i, fruit) in ["quince", "apple", "pear", "fig", "plum"].into_iter().enumerate() {
        session.put(fruit, &format!("{}", 10 * (i + 1)))?;
    }
    for (key, document) in all(&mut session)? {
        println!("{key} {document}");
    }
    Ok(())
}
