//! A shop on a disk: four threads sell, each sale is answered when it is on the disk, and the process is killed at some moment. The next one opens the same
//! file: every sale that was answered is there, the sum is right, and each thread learns what its last sale was, also where the process was killed before the
//! answer came. So it goes 20 times.

use githoppu::disk::{Options, Store};
use githoppu::{Add, Reply};
use std::env;
use std::error::Error;
use std::fs;
use std::io::{BufRead, BufReader, Write};
use std::path::Path;
use std::process::{self, Command, Stdio};
use std::thread;
use std::time::Duration;

const SELLERS: usize = 4;
const KILLS: usize = 20;

fn open(path: &Path) -> Result<Store, Box<dyn Error>> {
    let options = Options { lines: Some(256), gather: Duration::from_micros(300), ..Options::default() };
    Ok(Store::open(path, options)?)
}

/// How many sales of each seller are there; none is below what was answered.
fn learned(store: &Store, answered: &[u64; SELLERS]) -> Result<[u64; SELLERS], Box<dyn Error>> {
    let mut last = [0; SELLERS];
    let mut sum = 0;
    for seller in 0..SELLERS {
        let Some(outcome) = store.outcome(seller as u32)? else { continue };
        let Reply::Sum(told) = outcome.reply else { panic!("the last sale has no sum") };
        last[seller] = outcome.number;
        sum = sum.max(told);
    }
    assert!(last.iter().zip(answered).all(|(there, before)| there >= before), "a sale is lost that was answered");
    let sold: i64 = store.get("sold")?.map_or(0, |text| text.parse().expect("a number was sold"));
    // each sale added 1, and the greatest sum that was answered is that of the last sale
    assert_eq!((sold, sum), (last.iter().sum::<u64>() as i64, sold));
    Ok(last)
}

/// Sells until it is killed. A line tells that it begins, and then one after each sale whose it was; a line that the kill cut off was of a sale that was
/// answered, and tells nothing more than that.
fn run(path: &Path, answered: &[u64; SELLERS]) -> Result<(), Box<dyn Error>> {
    let store = open(path)?;
    learned(&store, answered)?;
    println!("open");
    thread::scope(|scope| {
        for seller in 0..SELLERS {
            let store = &store;
            scope.spawn(move || {
                while let Ok(Add::Sum(_)) = store.add(seller as u32, "sold", 1) {
                    let mut out = std::io::stdout().lock();
                    writeln!(out, "{seller}").and_then(|()| out.flush()).expect("somebody listens");
                }
                panic!("a sale has no sum");
            });
        }
    });
    Ok(())
}

fn numbers(text: &str) -> Option<[u64; SELLERS]> {
    let numbers: Vec<u64> = text.split(' ').map(str::parse).collect::<Result<_, _>>().ok()?;
    numbers.try_into().ok()
}

fn main() -> Result<(), Box<dyn Error>> {
    let words: Vec<String> = env::args().collect();
    if let [_, path, answered] = &words[..] {
        return run(Path::new(path), &numbers(answered).ok_or("no numbers")?);
    }
    let folder = env::temp_dir().join(format!("shop_on_disk.{}", process::id()));
    fs::create_dir_all(&folder)?;
    let path = folder.join("shop");
    let mut answered = [0; SELLERS];
    let mut seed = 1u32;
    let mut learned_more = 0;
    for _ in 0..KILLS {
        let told = answered.map(|number| number.to_string()).join(" ");
        let mut shop = Command::new(env::current_exe()?).arg(&path).arg(told).stdout(Stdio::piped()).spawn()?;
        let mut lines = BufReader::new(shop.stdout.take().expect("it is piped")).lines();
        assert_eq!(lines.next().transpose()?.as_deref(), Some("open"));
        seed = seed.wrapping_mul(1_103_515_245).wrapping_add(12_345);
        thread::sleep(Duration::from_millis(u64::from(seed >> 16) % 100));
        assert!(shop.try_wait()?.is_none(), "a shop ended by itself");
        shop.kill()?;
        shop.wait()?;
        for line in lines {
            answered[line?.parse::<usize>()?] += 1;
        }
        let store = open(&path)?;
        let last = learned(&store, &answered)?;
        learned_more += last.iter().zip(answered).map(|(there, before)| there - before).sum::<u64>();
        answered = last;
        store.close()?;
    }
    fs::remove_dir_all(&folder)?;
    assert!(answered.iter().any(|number| *number > 0), "nothing was sold");
    println!("killed {KILLS} times: no sale is lost that was answered, and each seller learned its last one");
    eprintln!("sales {answered:?}, {learned_more} of them learned");
    Ok(())
}
