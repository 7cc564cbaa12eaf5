//! A shop that is saved while it sells: four threads sell, and a fifth saves the running store to a file every 100 ms. The process is killed at some moment, and
//! the next one loads the file: everything that was answered before the last save is there, the sum is right, and each thread learns from the image what its
//! last sale was. So it goes 20 times.

use githoppu::{Add, FileError, Image, Reply, Session, Store};
use std::env;
use std::error::Error;
use std::fs;
use std::io::{self, BufRead, BufReader, Write};
use std::path::Path;
use std::process::{self, Command, Stdio};
use std::sync::atomic::{AtomicU64, Ordering};
use std::thread;
use std::time::Duration;

const SELLERS: usize = 4;
const KILLS: usize = 20;

/// How many sales of each seller were answered, over all runs.
type Sales = [u64; SELLERS];

fn text_of(sales: &Sales) -> String {
    sales.map(|number| number.to_string()).join(" ")
}

fn sales_in(text: &str) -> Option<Sales> {
    let numbers: Vec<u64> = text.split(' ').map(str::parse).collect::<Result<_, _>>().ok()?;
    numbers.try_into().ok()
}

/// What the last sales were, by the file: their numbers, of which none is below what was answered before the file was saved.
fn learned(path: &Path, saved: &Sales) -> Result<(Sales, Vec<Session>), FileError> {
    let image = Image::load(path)?;
    let mut last = Sales::default();
    let mut sum = 0;
    for seller in 0..SELLERS {
        let Some(outcome) = image.outcome(seller)? else { continue };
        let Reply::Sum(answered) = outcome.reply else { panic!("the last sale has no sum") };
        last[seller] = outcome.number;
        sum = sum.max(answered);
    }
    assert!(last.iter().zip(saved).all(|(there, before)| there >= before), "a sale is lost that was answered before the save");
    let mut sessions = Store::recover(&image, SELLERS + 1)?;
    let sold: i64 = sessions[SELLERS].get("sold")?.map_or(0, |text| text.parse().expect("a number was sold"));
    // each sale added 1, and the greatest sum that was answered is that of the last sale
    assert_eq!((sold, sum), (last.iter().sum::<u64>() as i64, sold));
    Ok((last, sessions))
}

fn sell(mut session: Session, answered: &AtomicU64) {
    loop {
        match session.add("sold", 1) {
            Ok(Add::Sum(_)) => answered.fetch_add(1, Ordering::SeqCst),
            // the others were in the way for longer than `PATIENCE`, as on a machine that does much else: nothing was sold, and it can be tried again
            Err(githoppu::Error::Busy) => continue,
            other => panic!("a sale has no sum: {other:?}"),
        };
    }
}

/// Sells and saves until it is killed. After each save it tells the sales that were answered before it.
fn run(path: &Path, saved: &Sales) -> Result<(), Box<dyn Error>> {
    let (last, mut sessions) = match path.exists() {
        true => learned(path, saved)?,
        false => (Sales::default(), Store::open(256, SELLERS + 1)?),
    };
    let mut saver = sessions.pop().expect("there are five");
    let answered = last.map(AtomicU64::new);
    thread::scope(|scope| {
        for (session, answered) in sessions.into_iter().zip(&answered) {
            scope.spawn(move || sell(session, answered));
        }
        loop {
            let before: Sales = std::array::from_fn(|seller| answered[seller].load(Ordering::SeqCst));
            saver.save(path).expect("the shop is saved");
            println!("{}", text_of(&before));
            io::stdout().flush().expect("somebody listens");
            thread::sleep(Duration::from_millis(100));
        }
    })
}

fn main() -> Result<(), Box<dyn Error>> {
    let words: Vec<String> = env::args().collect();
    if let [_, path, saved] = &words[..] {
        return run(Path::new(path), &sales_in(saved).ok_or("no sales")?);
    }
    let folder = env::temp_dir().join(format!("saved_shop.{}", process::id()));
    fs::create_dir_all(&folder)?;
    let path = folder.join("shop");
    let mut saved = Sales::default();
    let (mut seed, mut saves) = (1u32, 0);
    for _ in 0..KILLS {
        let mut shop = Command::new(env::current_exe()?).arg(&path).arg(text_of(&saved)).stdout(Stdio::piped()).spawn()?;
        let mut told = BufReader::new(shop.stdout.take().expect("it is piped")).lines();
        // the first one is killed only after its first save, however slow the machine is
        if saves == 0 {
            saved = sales_in(&told.next().expect("the first shop is saved")?).unwrap_or(saved);
            saves += 1;
        }
        seed = seed.wrapping_mul(1_103_515_245).wrapping_add(12_345);
        thread::sleep(Duration::from_millis(50 + u64::from(seed >> 16) % 200));
        assert!(shop.try_wait()?.is_none(), "a shop ended by itself");
        shop.kill()?;
        shop.wait()?;
        for line in told {
            saved = sales_in(&line?).unwrap_or(saved);
            saves += 1;
        }
    }
    learned(&path, &saved)?;
    fs::remove_dir_all(&folder)?;
    println!("killed {KILLS} times: no sale is lost that was answered before a save");
    eprintln!("saves {saves}, sales {}", text_of(&saved));
    Ok(())
}
