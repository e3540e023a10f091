//! A node's day: it synchronizes its map with simulated peers (gossip/peer.py), verifies what they send, serves them, prunes and
//! saves. docs/node.md explains it.
//!
//!     LGM_LIBRARY_DIR=$PWD/../out cargo run --offline --example node -- FILE PORT..

use lgm::{Fault, Funding, Lacking, Map, Sig, Signed, Signers, numbers, reads};
use std::collections::HashMap;
use std::error::Error;
use std::io::{Read, Write};
use std::net::TcpStream;
use std::{array, env, fs};

const CHAIN: [u8; 32] = [0xc1; 32];
const ALL_BLOCKS: u64 = 1 << 24;
const WEEK: u32 = 604_800;
const NOW: u32 = 1_760_000_000;
const HEIGHT: u32 = 917_000;

/// Whether a key has signed bytes: what stands for a signature in gossip/peer.py, FNV-1a of both, eight times.
fn has_signed(key: &[u8], bytes: &[u8], signature: &[u8]) -> bool {
    let mix = |found: u64, byte: &u8| (found ^ u64::from(*byte)).wrapping_mul(0x100_0000_01b3);
    let found = key.iter().chain(bytes).fold(0xcbf2_9ce4_8422_2325, mix);
    signature == found.to_be_bytes().repeat(8)
}

/// What a funding output has, in satoshi, if the chain has it.
fn funding(scid: u64) -> Funding {
    if scid & 0xffff == 9 { Funding::Spent } else { Funding::Unspent(1_000_000 + (scid >> 40)) }
}

/// The verdicts on a message: an update has the key that the map tells.
fn verdicts(read: &Signed, key: Option<[u8; 33]>) -> (Sig, Funding) {
    let is_by = |key: &[u8; 33], place: usize| has_signed(key, read.signed, &read.signatures[64 * place..][..64]);
    match (&read.signers, key) {
        (Signers::Channel(keys), _) => {
            let all = keys.iter().enumerate().all(|(place, key)| is_by(key, place));
            (Sig::AllFour(all), funding(read.scid.unwrap_or(0)))
        }
        (_, Some(key)) if is_by(&key, 0) => (Sig::By(key), Funding::NotAsked),
        _ => (Sig::Nobody, Funding::NotAsked),
    }
}

/// A connection, the block up to which the peer's replies have covered all, and what is to be asked of it.
struct Peer {
    connection: TcpStream,
    covered: u64,
    lacking: Vec<Lacking>,
}

impl Peer {
    fn send(&mut self, message: &[u8]) -> std::io::Result<()> {
        self.connection.write_all(&(message.len() as u16).to_be_bytes())?;
        self.connection.write_all(message)
    }

    fn receive(&mut self) -> Option<Vec<u8>> {
        let mut head = [0; 2];
        self.connection.read_exact(&mut head).ok()?;
        let mut message = vec![0; usize::from(u16::from_be_bytes(head))];
        self.connection.read_exact(&mut message).ok()?;
        Some(message)
    }

    /// Asks for what is lacking, and once nothing is for what comes from now on.
    fn ask(&mut self, map: &Map) -> Result<(), Box<dyn Error>> {
        let message = if self.lacking.is_empty() { map.ask_filter(NOW, u32::MAX)? } else { map.ask_ids(&self.lacking)? };
        self.lacking.drain(..self.lacking.len().min(numbers::MOST_IDS));
        Ok(self.send(&message)?)
    }

    /// Takes a message of the peer.
    fn take(&mut self, map: &mut Map, pruned: &HashMap<u64, u32>, message: &[u8]) -> Result<(), Box<dyn Error>> {
        match message.first_chunk().map_or(0, |kind| u16::from_be_bytes(*kind)) {
            264 => {
                let is_newer = |it: &Lacking| pruned.get(&it.scid).is_none_or(|time| it.timestamp_1.max(it.timestamp_2) > *time);
                self.lacking.extend(map.lacking(message)?.into_iter().filter(is_newer));
                let before = self.covered;
                self.covered = map.covered(message, before)?;
                if before < ALL_BLOCKS && self.covered >= ALL_BLOCKS { self.ask(map) } else { Ok(()) }
            }
            262 => self.ask(map),
            kind @ (261 | 263 | 265) => {
                let replies = if kind == 265 { map.filter(message)? } else { map.query(message)? };
                Ok(replies.iter().try_for_each(|reply| self.send(reply))?)
            }
            _ => {
                let key = map.wanted(message)?;
                let (sig, funding) = verdicts(&reads(message)?, key);
                Ok(map.offer(message, sig, funding)?)
            }
        }
    }
}

fn main() -> Result<(), Box<dyn Error>> {
    let [_, path, ports @ ..] = &env::args().collect::<Vec<_>>()[..] else { return Err("usage: node FILE PORT..".into()) };
    let seed = array::from_fn(|place| place as u8); // a node takes random bytes
    let mut map = match fs::read(path) {
        Ok(saved) => Map::load(&CHAIN, None, &seed, &saved)?,
        Err(_) => Map::new(&CHAIN, None, &seed)?,
    };
    let mut pruned = HashMap::new();
    for port in ports {
        // A node waits for all peers at once; here one comes after the other.
        let mut peer = Peer { connection: TcpStream::connect(("127.0.0.1", port.parse()?))?, covered: 0, lacking: Vec::new() };
        peer.send(&map.ask_range(0, u32::MAX)?)?;
        while let Some(message) = peer.receive() {
            let taken = peer.take(&mut map, &pruned, &message);
            if taken.is_err_and(|why| !why.is::<Fault>()) {
                break; // the peer has hung up; what is refused changes nothing
            }
        }
    }
    pruned.extend(map.prune(NOW - WEEK, HEIGHT - 2_016)?.iter().map(|it| (it.scid, it.timestamp)));
    fs::write(path, map.save()?)?;
    println!("{} channels, {} pruned", map.count(), pruned.len());
    Ok(())
}
