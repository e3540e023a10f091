//! A payer: pays each payment of a script over the map of the lines before, in parts where that helps (docs/paying.md). What
//! becomes of a part is made up: a channel of an odd block carries no HTLC of more than 10,000,000 msat, and the payee takes the
//! whole once all parts have come. The payer has one channel, to PEER, which can always send 100,000,000 msat.
//!
//!     LGM_LIBRARY_DIR=$PWD/../out cargo run --offline --example payer -- PAYER PEER ../payments.txt

use lgm::{Bounds, Edge, Ending, Fault, Funding, Invoice, Map, Part, Payer, Sig, Sight, Unpaid};
use std::error::Error;
use std::{array, env, fs};

const CHAIN: [u8; 32] = [0xc1; 32];
const HEIGHT: u32 = 699_979;
const TEMPORARY_CHANNEL_FAILURE: u16 = 0x1007;
const MPP_TIMEOUT: u16 = 23;

/// The bytes of digits.
fn bytes(digits: &str) -> Result<Vec<u8>, Box<dyn Error>> {
    let pairs = (0..digits.len()).step_by(2);
    pairs.map(|at| Ok(u8::from_str_radix(digits.get(at..at + 2).ok_or("a digit is left")?, 16)?)).collect()
}

fn exactly<const N: usize>(digits: &str) -> Result<[u8; N], Box<dyn Error>> {
    bytes(digits)?.try_into().map_err(|_| format!("{digits} has not {N} bytes").into())
}

/// Sends a part, and returns the place of the node that couldn't forward it, unless the payee holds it.
fn send(part: &Part) -> Option<usize> {
    println!("{} msat over {} channels", part.hops[0].amount_msat, part.hops.len());
    (1..part.hops.len()).find(|&place| (part.hops[place].scid >> 40) % 2 == 1 && part.hops[place].amount_msat > 10_000_000)
}

/// Sends parts of a payment until all of the amount is under way, or says why none can be sent.
fn send_all(payer: &Payer, map: &Map, payment: u64, sight: &Sight) -> Result<(), Unpaid> {
    while let Some(part) = payer.next_part(map, payment, sight)? {
        if let Some(place) = send(&part) {
            let failed = payer.failed(payment, part.number, place as u8, TEMPORARY_CHANNEL_FAILURE, false);
            failed.map_err(Unpaid::Other)?;
        }
    }
    Ok(())
}

/// Has the payee give back what it holds of a payment.
fn give_back(payer: &Payer, payment: u64) -> Result<(), Fault> {
    for at in 0.. {
        let Some(part) = payer.part(payment, at)? else { break };
        if part.ending == Ending::Held {
            payer.failed(payment, part.number, part.hops.len() as u8, MPP_TIMEOUT, false)?;
        }
    }
    Ok(())
}

/// Pays an invoice, and says how that ended.
fn pay(payer: &Payer, map: &Map, invoice: &Invoice, channels: &[Edge]) -> Result<String, Fault> {
    let bounds = Bounds { least_part_msat: 1_000_000, most_parts: 8, ..Bounds::new(invoice.amount_msat / 100) };
    let sight = Sight { channels, reckoned: payer.sent(), height: HEIGHT, ..Sight::default() };
    let payment = payer.begin(invoice, &bounds)?;
    let sent = send_all(payer, map, payment, &sight);
    match sent {
        Ok(()) => payer.fulfilled(payment)?,
        Err(_) => give_back(payer, payment)?,
    }
    payer.forget(payment)?;
    Ok(sent.map_or_else(|why| why.fault().text().into(), |()| "whole".into()))
}

fn main() -> Result<(), Box<dyn Error>> {
    let words: Vec<String> = env::args().collect();
    let [_, payer, peer, script] = words.as_slice() else { return Err("usage: payer PAYER PEER SCRIPT".into()) };
    let channel = Edge::own(1, exactly(payer)?, exactly(peer)?, 100_000_000);
    // A program of a node takes random bytes here.
    let mut map = Map::new(&CHAIN, None, &array::from_fn(|i| i as u8))?;
    let payer = Payer::new(&channel.from, None)?;
    for line in fs::read_to_string(script)?.lines() {
        match line.split(' ').collect::<Vec<_>>()[..] {
            ["m", message, sig, funding] => {
                let sig = if sig == "all" { Sig::AllFour(true) } else { Sig::By(exactly(sig).unwrap_or([0; 33])) };
                let funding = funding.parse().map_or(Funding::NotAsked, Funding::Unspent);
                let _ = map.offer(&bytes(message)?, sig, funding); // what is refused changes nothing
            }
            ["route", _, payee, amount, expiry, secret] if expiry.parse::<u32>().is_ok() => {
                let invoice = Invoice { basic_mpp: true, ..Invoice::new(exactly(payee)?, amount.parse()?, exactly(secret)?) };
                println!("{}", pay(&payer, &map, &invoice, &[channel]).unwrap_or_else(|why| why.text().into()));
            }
            _ => {}
        }
    }
    Ok(())
}
