//! Reads the announcements and the first payment of a script, and prints the payment's route, which another thread finds in
//! the map as it was published.
//!
//!     LGM_LIBRARY_DIR=$PWD/../out cargo run --offline --example route -- ../payments.txt

use lgm::{Fault, Funding, Map, Payment, Point, Sig};
use std::error::Error;
use std::{array, env, fs, thread};

/// The bytes of digits.
fn bytes(digits: &str) -> Result<Vec<u8>, Box<dyn Error>> {
    let pairs = (0..digits.len()).step_by(2);
    pairs.map(|at| Ok(u8::from_str_radix(digits.get(at..at + 2).ok_or("a digit is left")?, 16)?)).collect()
}

fn exactly<const N: usize>(digits: &str) -> Result<[u8; N], Box<dyn Error>> {
    bytes(digits)?.try_into().map_err(|_| format!("{digits} has not {N} bytes").into())
}

fn offer(map: &mut Map, message: &str, sig: &str, funding: &str) -> Result<Result<(), Fault>, Box<dyn Error>> {
    let sig = if sig == "all" { Sig::AllFour(true) } else { Sig::By(exactly::<33>(sig)?) };
    let funding = if funding == "-" { Funding::NotAsked } else { Funding::Unspent(funding.parse()?) };
    Ok(map.offer(&bytes(message)?, sig, funding))
}

fn payment(words: &[&str]) -> Result<Payment, Box<dyn Error>> {
    let [payer, payee]: [Point; 2] = [exactly(words[1])?, exactly(words[2])?];
    let (amount_msat, expiry) = (words[3].parse()?, words[4].parse()?);
    Ok(Payment { payer, payee, amount_msat, expiry, secret: exactly(words[5])? })
}

fn main() -> Result<(), Box<dyn Error>> {
    let script = fs::read_to_string(env::args().nth(1).ok_or("a script is wanted")?)?;
    // A program of a node takes random bytes here.
    let seed = array::from_fn(|i| i as u8);
    let mut map = Map::new(&[0xc1; 32], None, &seed)?;
    for line in script.lines() {
        let words: Vec<&str> = line.split(' ').collect();
        match words[0] {
            "m" => offer(&mut map, words[1], words[2], words[3])??,
            "route" => {
                let (published, payment) = (map.publish()?, payment(&words)?);
                let reader = thread::spawn(move || published.route(&payment));
                match reader.join().map_err(|_| "the reader panicked")? {
                    Ok(hops) => println!("{} msat over {} channels", hops[0].amount_msat, hops.len()),
                    Err(reason) => println!("{reason}"),
                }
                return Ok(());
            }
            _ => {}
        }
    }
    Ok(())
}
