//! Tests the calls of the wrapper on a map of one channel. Prints `ok`, or panics where an answer differs.
//!
//!     LGM_LIBRARY_DIR=$PWD/../out cargo run --offline --example calls

use lgm::{Arrival, Bounds, Channel, Direction, Edge, Ending, Estimate, Estimates, Fault, Found, Funding, Hop, Invoice, Kind};
use lgm::{Lacking, Limit, Map, Node, Overlay, Payer, Payment, Preferences, Pruned, Record, Search, Sig, Sight, Signers, Unpaid};
use lgm::{Which, first_fault, numbers, reads, write_payloads};
use std::num::{NonZeroU8, NonZeroU16, NonZeroU64, NonZeroUsize};

const CHAIN: [u8; 32] = [0xc1; 32];
const SEED: [u8; 16] = [7; 16];
const A: [u8; 33] = [2; 33];
const B: [u8; 33] = [3; 33];
const C: [u8; 33] = [4; 33];
/// Channel 600000x1x0.
const SCID: u64 = 600_000 << 40 | 1 << 16;

/// A `channel_announcement` (BOLT 7), with bytes behind its last field.
fn announcement(behind: &[u8]) -> Vec<u8> {
    let scid = SCID.to_be_bytes();
    let parts: [&[u8]; 10] = [&[1, 0], &[0; 256], &[0, 0], &CHAIN, &scid, &A, &B, &A, &A, behind];
    parts.concat()
}

/// A `channel_update` by A (BOLT 7).
fn update() -> Vec<u8> {
    let (scid, minimum, maximum) = (SCID.to_be_bytes(), 1_u64.to_be_bytes(), 50_000_000_u64.to_be_bytes());
    let terms = [0, 0, 0, 5, 1, 0, 0, 40];
    let fees = [0, 0, 0, 7, 0, 0, 0, 9];
    let parts: [&[u8]; 8] = [&[1, 2], &[0; 64], &CHAIN, &scid, &terms, &minimum, &fees, &maximum];
    parts.concat()
}

/// A `node_announcement` of B, with addresses of an unknown type.
fn node(addresses: &[u8]) -> Vec<u8> {
    let len = (addresses.len() as u16).to_be_bytes();
    let parts: [&[u8]; 9] = [&[1, 1], &[0; 64], &[0, 0], &[0, 0, 0, 6], &B, &[1, 2, 3], &[b'b'; 32], &len, addresses];
    parts.concat()
}

/// A `gossip_timestamp_filter` that all messages pass.
fn everything() -> Vec<u8> {
    let parts: [&[u8]; 4] = [&[1, 9], &CHAIN, &[0; 4], &[255; 4]];
    parts.concat()
}

fn word<T>(outcome: Result<T, Fault>) -> String {
    outcome.err().map_or("accepted".into(), Fault::word)
}

/// Offers the announcement, unless the map doesn't want it.
fn announce(map: &mut Map, behind: &[u8]) -> Result<(), Fault> {
    let message = announcement(behind);
    assert_eq!(map.wanted(&message)?, None);
    map.offer(&message, Sig::AllFour(true), Funding::Unspent(100_000))
}

fn lists() -> Result<(), Fault> {
    let mut map = Map::new(&CHAIN, None, &SEED)?;
    assert_eq!(map.channels().count() + map.nodes().count() + map.banned().count(), 0);
    assert_eq!((first_fault(&announcement(&[])), first_fault(&[1, 0]).map(Fault::word)), (None, Some("cut".into())));
    let behind = vec![9; 60_000];
    announce(&mut map, &behind)?;
    assert_eq!(word(map.wanted(&announcement(&behind))), "known");
    assert_eq!(map.channels().collect::<Vec<_>>(), [SCID]);
    assert_eq!(map.message(SCID, Which::Announcement)?, Some(announcement(&behind)));
    assert_eq!(map.message(SCID, Which::Update1)?, None);
    assert_eq!(word(map.message(SCID + 1, Which::Update2)), "unknown-channel");
    assert_eq!(word(map.node_message(&A)), "not-announced");
    map.ban(&B)?;
    map.ban(&A)?;
    assert_eq!(word(map.ban(&A)), "banned");
    assert_eq!(map.banned().collect::<Vec<_>>(), [A, B]);
    assert_eq!((map.count(), map.version()), (0, 3));
    Ok(())
}

fn lookups() -> Result<(), Fault> {
    let mut map = Map::new(&CHAIN, None, &SEED)?;
    assert_eq!(word(map.channel(SCID)), "unknown-channel");
    announce(&mut map, &[])?;
    let bare = Channel { capacity_sat: 100_000, node_1: A, node_2: B, from_1: None, from_2: None };
    assert_eq!((map.channel(SCID)?, word(map.node(&B))), (bare, "not-announced".into()));
    let addresses = vec![77; 10_000];
    map.offer(&update(), Sig::By(A), Funding::NotAsked)?;
    map.offer(&node(&addresses), Sig::By(B), Funding::NotAsked)?;
    let terms = Direction {
        message_flags: 1,
        channel_flags: 0,
        cltv_expiry_delta: 40,
        timestamp: 5,
        fee_base_msat: 7,
        fee_proportional_millionths: 9,
        htlc_minimum_msat: 1,
        htlc_maximum_msat: 50_000_000,
    };
    assert!(!terms.is_disabled() && Direction { channel_flags: 3, ..terms }.is_disabled());
    assert_eq!(map.channel(SCID)?, Channel { from_1: Some(terms), ..bare });
    assert_eq!(map.node(&B)?, Node { timestamp: 6, rgb: [1, 2, 3], alias: [b'b'; 32], addresses });
    assert_eq!((word(map.node(&A)), map.nodes().collect::<Vec<_>>()), ("not-announced".into(), vec![B]));
    Ok(())
}

fn published_maps() -> Result<(), Fault> {
    let mut map = Map::new(&CHAIN, None, &SEED)?;
    let before = map.publish()?;
    announce(&mut map, &[])?;
    assert_eq!(word(map.share()), "published: not one");
    let mut after = map.publish()?.share()?;
    map.close_channel(SCID)?;
    assert_eq!((before.version(), after.version(), map.version()), (0, 1, 2));
    assert_eq!((before.count(), after.count(), map.count()), (0, 1, 0));
    assert_eq!(word(after.close_channel(SCID)), "published");
    assert_eq!(word(after.ban(&A)), "published");
    assert_eq!(word(after.mark()), "published");
    // A channel passes a filter once one of its updates does.
    assert_eq!(after.filter(&everything())?, after.news(&everything())?);
    assert_eq!(after.news_since(&before, &everything())?, Vec::<Vec<u8>>::new());
    Ok(())
}

/// What a map saves is loaded as the same, and one that lacks something gets it by messages.
fn saved_maps() -> Result<(), Fault> {
    let (mut map, mut empty) = (Map::new(&CHAIN, None, &SEED)?, Map::new(&CHAIN, None, &SEED)?);
    announce(&mut map, &[])?;
    map.offer(&update(), Sig::By(A), Funding::NotAsked)?;
    map.ban(&C)?;
    let saved = map.save()?;
    let again = Map::load(&CHAIN, None, &[8; 16], &saved)?;
    assert_eq!((again.save()?, again.banned().collect::<Vec<_>>(), again.version()), (saved.clone(), vec![C], 0));
    assert_eq!(again.news(&everything())?, Vec::<Vec<u8>>::new());
    assert_eq!(Map::load(&[1; 32], None, &SEED, &saved).err(), Some(Fault::NOT_SAVED));
    assert_eq!(word(Map::load(&CHAIN, None, &SEED, &saved[1..])), "not-saved");
    let reply = map.query(&empty.ask_range(0, u32::MAX)?)?.remove(0);
    assert_eq!(empty.covered(&reply, 0)?, u64::from(u32::MAX));
    assert_eq!(empty.covered(&announcement(&[]), 0), Err(Fault::NOT_REPLY));
    let lacking = empty.lacking(&reply)?;
    assert_eq!(lacking, [Lacking { scid: SCID, timestamp_1: 5, ..Lacking::default() }]);
    let answers = map.query(&empty.ask_ids(&lacking)?)?;
    assert_eq!(answers[..2], [announcement(&[]), update()]);
    announce(&mut empty, &[])?;
    assert_eq!(empty.lacking(&reply)?.iter().map(|channel| channel.flags).collect::<Vec<_>>(), [2]);
    assert_eq!(map.lacking(&reply)?, []);
    assert_eq!(empty.ask_filter(0, u32::MAX)?, everything());
    Ok(())
}

fn verifying() -> Result<(), Fault> {
    let (channel, terms, one) = (announcement(&[9]), update(), node(&[77]));
    let told = reads(&channel)?;
    assert_eq!((told.kind, told.scid, told.signers), (256, Some(SCID), Signers::Channel([A, B, A, A])));
    assert_eq!((told.signatures, told.signed), (&channel[2..258], &channel[258..]));
    let told = reads(&terms)?;
    assert_eq!((told.kind, told.scid, told.signers, told.signed), (258, Some(SCID), Signers::Node1, &terms[66..]));
    let told = reads(&one)?;
    assert_eq!((told.kind, told.scid, told.signers, told.signatures), (257, None, Signers::Node(B), &[0; 64][..]));
    let everything = everything();
    let told = reads(&everything)?;
    assert_eq!((told.signers, told.signatures.len() + told.signed.len()), (Signers::Nobody, 0));
    assert_eq!((word(reads(&[1, 0])), word(reads(&[1, 3]))), ("malformed".into(), "ignored".into()));
    Ok(())
}

fn pruning() -> Result<(), Fault> {
    let mut map = Map::new(&CHAIN, None, &SEED)?;
    let ids: Vec<u64> = (0..300).map(|place| SCID + (place << 16)).collect();
    for id in &ids {
        let mut message = announcement(&[]);
        message[292..300].copy_from_slice(&id.to_be_bytes());
        map.offer(&message, Sig::AllFour(true), Funding::Unspent(1))?;
    }
    map.offer(&update(), Sig::By(A), Funding::NotAsked)?;
    assert_eq!((map.prune(5, 600_000)?, word(map.publish()?.prune(6, 0))), (vec![], "published".into()));
    assert_eq!(map.prune(6, 0)?, [Pruned { scid: SCID, timestamp: 5 }]);
    assert_eq!(map.prune(0, 600_001)?, ids[1..].iter().map(|id| Pruned { scid: *id, timestamp: 0 }).collect::<Vec<_>>());
    assert_eq!((map.count(), map.version()), (0, 300 + 1 + 300));
    Ok(())
}

/// An own channel of A to B, whose terms don't matter.
fn own_channel(most_msat: u64) -> Edge {
    Edge {
        scid: SCID,
        htlc_minimum_msat: 0,
        htlc_maximum_msat: most_msat,
        fee_base_msat: 9,
        fee_proportional_millionths: 9,
        cltv_expiry_delta: 9,
        from: A,
        to: B,
    }
}

/// Over a channel of its own and a hint from B, which charges 5 msat and adds 30 blocks, A pays C, which the map lacks.
fn overlays() -> Result<(), Fault> {
    let mut map = Map::new(&CHAIN, None, &SEED)?;
    announce(&mut map, &[])?;
    let published = map.publish()?;
    let payment = Payment { payer: A, payee: C, amount_msat: 10_000, expiry: 700_000, secret: [7; 32] };
    let hint = Edge { scid: 9, htlc_maximum_msat: 50_000, fee_base_msat: 5, fee_proportional_millionths: 0,
                      cltv_expiry_delta: 30, from: B, to: C, ..own_channel(0) };
    let edges = [own_channel(10_005), hint];
    let over = Overlay { edges: &edges, ..Overlay::default() };
    let within = |blocks| Search { most_delay: NonZeroU16::new(blocks), ..Search::default() };
    for map in [&map, &published] {
        assert_eq!(word(map.route(&payment)), "no-route");
        assert_eq!(word(map.route_over(&payment, &Overlay::default(), &Search::default())), "no-route");
        let Found { hops, is_best } = map.route_over(&payment, &over, &within(30))?;
        assert!(is_best);
        let found: Vec<_> = hops.iter().map(|hop| (hop.scid, hop.amount_msat, hop.expiry, hop.from, hop.to)).collect();
        assert_eq!(found, [(SCID, 10_005, 700_030, A, B), (9, 10_000, 700_000, B, C)]);
        assert!(hops.iter().all(|hop| hop.payload.len() == 1 + usize::from(hop.payload[0])));
        let limits = [Limit { scid: SCID, most_msat: 10_004, from: A }];
        let refused = [
            (over, within(29)),
            (over, Search { most_hops: NonZeroU8::new(1), ..Search::default() }),
            (Overlay { limits: &limits, ..over }, within(30)),
            (Overlay { edges: &edges[1..], silent: &[A], ..over }, within(30)),
        ];
        for (over, search) in refused {
            assert_eq!(word(map.route_over(&payment, &over, &search)), "no-route");
        }
        let silenced = Overlay { silent: &[A, B, C], ..over };
        assert_eq!(map.route_over(&payment, &silenced, &Search::default())?, Found { hops, is_best });
        let many = vec![hint; 100_001];
        assert_eq!(word(map.route_over(&payment, &Overlay { edges: &many, ..over }, &within(30))), "edges: at most 100,000");
        let empty = [Edge { htlc_maximum_msat: 0, ..hint }];
        let nothing = Overlay { edges: &empty, ..over };
        assert_eq!(word(map.route_over(&payment, &nothing, &within(30))), "edge: a maximum of 0");
        let why = |over: &Overlay, search: &Search| Ok(map.no_route_reason(&payment, over, search)?.map(Fault::word));
        assert_eq!(why(&over, &within(30))?, None);
        assert_eq!(why(&over, &within(29))?, Some("beyond-delay".into()));
        assert_eq!(why(&Overlay { limits: &limits, ..over }, &within(30))?, Some("unconnected".into()));
        assert_eq!(why(&Overlay { edges: &edges[..1], ..over }, &within(30))?, Some("payee-takes-no-payment".into()));
        assert_eq!(word(map.no_route_reason(&payment, &nothing, &within(30))), "edge: a maximum of 0");
    }
    Ok(())
}

/// One part of 10,000 msat of a payment of 30,000 (0x7530), whose payee gets metadata and a record (BOLT 4, "Payload Format").
fn payloads() -> Result<(), Fault> {
    let hop = |scid, amount_msat, from, to| Hop { scid, amount_msat, expiry: 700_000, from, to, payload: vec![] };
    let mut hops = [hop(5, 10_005, A, B), hop(6, 10_000, B, C)];
    let records = [Record { kind: 65_537, value: &[9] }];
    let arrival = Arrival { total_msat: 30_000, metadata: &[1, 2], records: &records, secret: [7; 32] };
    let same = [Record { kind: 65_537, value: &[] }; 2];
    assert_eq!(word(write_payloads(&mut hops, &Arrival { records: &same, ..arrival })), "records: not ascending");
    assert_eq!(word(write_payloads(&mut [], &arrival)), "hops: no route");
    assert!(hops.iter().all(|hop| hop.payload.is_empty()));
    write_payloads(&mut hops, &arrival)?;
    let both: [u8; 9] = [2, 2, 0x27, 0x10, 4, 3, 0x0a, 0xae, 0x60];
    let forward: [&[u8]; 4] = [&[19], &both, &[6, 8, 0, 0, 0, 0, 0, 0, 0], &[6]];
    assert_eq!(hops[0].payload, forward.concat());
    let paid: [&[u8]; 6] = [&[56], &both, &[8, 34], &[7; 32], &[0x75, 0x30, 16, 2, 1, 2], &[0xfe, 0, 1, 0, 1, 1, 9]];
    assert_eq!(hops[1].payload, paid.concat());
    Ok(())
}

/// From B two hints lead to C: for 5 msat, and for 9.
fn preferences() -> Result<(), Fault> {
    let map = Map::new(&CHAIN, None, &SEED)?;
    let payment = Payment { payer: A, payee: C, amount_msat: 10_000, expiry: 700_000, secret: [7; 32] };
    let hint = |scid, base| Edge { scid, fee_base_msat: base, fee_proportional_millionths: 0, from: B, to: C,
                                   ..own_channel(50_000_000) };
    let edges = [own_channel(20_000), hint(5, 5), hint(9, 9)];
    let over = Overlay { edges: &edges, ..Overlay::default() };
    let sent = |search: &Search| {
        let Found { hops, is_best } = map.route_over(&payment, &over, search)?;
        Ok((hops[1].scid, hops[0].amount_msat, is_best))
    };
    assert_eq!(sent(&Search::default())?, (5, 10_005, true));
    let mut estimates = Estimates::new()?;
    estimates.set(5, &B, &Estimate { penalty_msat: 4, ..Estimate::default() })?;
    let learnt = Search { estimates: Some(&estimates), ..Search::default() };
    // 5 msat and the penalty of 4 are as much as 9, and the lesser id decides.
    assert_eq!(sent(&learnt)?, (5, 10_005, true));
    estimates.set(5, &B, &Estimate { penalty_msat: 5, ..Estimate::default() })?;
    let learnt = Search { estimates: Some(&estimates), ..Search::default() };
    assert_eq!(sent(&learnt)?, (9, 10_009, true));
    assert_eq!(sent(&Search { hop_msat: 100, failure_msat: 1, ..learnt })?, (9, 10_009, true));
    let few_steps = Search { most_steps: NonZeroU64::new(1), ..learnt };
    assert_eq!(sent(&few_steps)?, (9, 10_009, false));
    assert_eq!(word(sent(&Search { most_labels: NonZeroUsize::new(1), ..learnt })), "undecided");
    assert_eq!(estimates.count(), 1);
    Ok(())
}

fn estimates() -> Result<(), Fault> {
    let mut estimates = Estimates::new()?;
    assert_eq!((estimates.count(), estimates.at(0), estimates.get(SCID, &A)), (0, None, Estimate::default()));
    estimates.carried(SCID, &A, 500)?;
    estimates.failed(SCID, &A, 900)?;
    let own = Estimate { least_msat: 1, most_msat: 2, penalty_msat: 3 };
    estimates.set(SCID, &B, &own)?;
    let tried = Estimate { least_msat: 500, most_msat: 899, penalty_msat: 0 };
    assert_eq!((estimates.get(SCID, &A), estimates.get(SCID, &B)), (tried, own));
    assert_eq!((estimates.at(0), estimates.at(1)), (Some((SCID, A, tried)), Some((SCID, B, own))));
    assert!(estimates.forget(SCID, &A) && !estimates.forget(SCID, &A));
    assert_eq!((estimates.count(), estimates.at(0), estimates.at(1)), (1, Some((SCID, B, own)), None));
    let again = Estimates::load(&estimates.save()?)?;
    assert_eq!((again.count(), again.at(0)), (1, Some((SCID, B, own))));
    assert_eq!(Estimates::load(&[1]).err(), Some(Fault::NOT_SAVED));
    estimates.fade(&Map::new(&CHAIN, None, &SEED)?, 1, 1)?;
    assert_eq!(estimates.count(), 0);
    Ok(())
}

/// A payer with a channel to A pays B over that of A, whose maximum is 50,000,000 msat.
fn payments() -> Result<(), Fault> {
    const PAYER: [u8; 33] = [5; 33];
    let mut map = Map::new(&CHAIN, None, &SEED)?;
    announce(&mut map, &[])?;
    map.offer(&update(), Sig::By(A), Funding::NotAsked)?;
    let mut known = Estimates::new()?;
    known.carried(SCID, &A, 5_000)?;
    let payer = Payer::new(&PAYER, Some(&known))?;
    let channels = [Edge::own(1, PAYER, A, 30_000)];
    let over = Sight { channels: &channels, height: 600_000, ..Sight::default() };
    let invoice = Invoice { metadata: &[1], records: &[Record { kind: 65_537, value: &[9] }], ..Invoice::new(B, 10_000, [7; 32]) };
    assert_eq!(word(payer.begin(&Invoice { amount_msat: 0, ..invoice }, &Bounds::new(100))), "amount-zero");
    assert_eq!(word(payer.begin(&invoice, &Bounds { most_parts: 0, ..Bounds::new(100) })), "no-parts");
    let payment = payer.begin(&invoice, &Bounds::new(100))?;
    let refused = |sight: &Sight| payer.next_part(&map, payment, sight).err();
    assert_eq!(refused(&Sight { channels: &[], ..over }), Some(Unpaid::ChannelsShort(0)));
    assert_eq!(refused(&Sight { reckoned: 1, ..over }), Some(Unpaid::Other(Fault::RECKONED_AHEAD)));
    let preferring = Sight { preferences: Some(Preferences { failure_msat: 0, hop_msat: 0 }), ..over };
    let part = payer.next_part(&map, payment, &preferring).expect("a route").expect("a part");
    // A charges 7 msat, and 9 millionths of 10,000. The odds are 5,000 over 49,990,001.
    assert_eq!((part.number, part.amount_msat, part.fee_msat, part.odds, part.blocks, part.is_best), (0, 10_000, 7, 100, 61, true));
    assert_eq!(part.hops.iter().map(|hop| (hop.scid, hop.amount_msat)).collect::<Vec<_>>(), [(1, 10_007), (SCID, 10_000)]);
    assert!(part.hops.iter().all(|hop| hop.payload.len() == 1 + usize::from(hop.payload[0])));
    let overlay = Overlay { edges: &channels, ..Overlay::default() };
    assert_eq!((map.odds(&part.hops, &overlay, Some(&known))?, map.odds(&part.hops, &overlay, None)?), (100, 200));
    assert_eq!(payer.next_part(&map, payment, &over), Ok(None));
    let again = Payer::load(&payer.save()?)?;
    assert_eq!((again.payments(), again.sent(), again.payment(payment)?), (vec![payment], 1, payer.payment(payment)?));
    again.unreadable(payment, part.number)?;
    assert_eq!(again.part(payment, 0)?.map(|sent| sent.ending), Some(Ending::Unreadable));
    assert_eq!(Payer::load(&[1]).err(), Some(Fault::NOT_SAVED));
    assert_eq!(payer.failed(payment, 0, 3, 0x1007, false), Err(Fault::BEYOND_ROUTE));
    payer.failed(payment, 0, 1, 0x1007, false)?;
    let sent = payer.part(payment, 0)?.expect("a part that was sent");
    assert_eq!((sent.amount_msat, sent.ending, sent.hops.len()), (10_000, Ending::Failed { place: 1, code: 0x1007 }, 2));
    assert_eq!(payer.part(payment, 1)?, None);
    assert_eq!(payer.learnt()?.get(SCID, &A), Estimate { least_msat: 5_000, most_msat: 9_999, penalty_msat: 0 });
    assert_eq!(known.get(SCID, &A).most_msat, u64::MAX);
    assert_eq!(refused(&over), Some(Unpaid::PayeeShort(9_999)));
    assert_eq!(refused(&over).map(|why| why.to_string()).unwrap(), "9999 msat can reach the payee: pay less, or pass its hints");
    payer.fade(&map, 2, 1)?;
    assert_eq!(payer.learnt()?.count(), 1);
    payer.abandon(payment)?;
    assert_eq!(refused(&over), Some(Unpaid::Other(Fault::ABANDONED)));
    payer.forget(payment)?;
    let paid = payer.begin(&Invoice { hints: &[Edge::hint(9, A, B, 1, 0, 0)], ..invoice }, &Bounds::new(100))?;
    assert_eq!(word(payer.fulfilled(paid)), "nothing-under-way");
    assert_eq!(payer.next_part(&map, paid, &over).expect("a route").map(|part| part.hops[1].scid), Some(9));
    payer.fulfilled(paid)?;
    assert_eq!((payer.payment(paid)?.stage, payer.payments()), (numbers::STAGE_PAID, vec![paid]));
    assert_eq!(Fault::NO_PARTS.to_string(), "no-parts: the bound allows no part to be under way");
    assert_eq!((Limit::excluding(1, A), Limit::most(1, A, 0).most_msat), (Limit::most(1, A, 0), 0));
    Ok(())
}

fn main() -> Result<(), Fault> {
    assert_eq!(lgm::library_version(), lgm::LIBRARY_VERSION);
    for number in 0..=255 {
        assert_eq!(Fault(number).text(), Fault(number).word());
    }
    assert_eq!((Fault::NOT_NEWER.kind(), Fault(0).kind()), (Some(Kind::Refused), None));
    lists()?;
    lookups()?;
    published_maps()?;
    saved_maps()?;
    verifying()?;
    pruning()?;
    overlays()?;
    preferences()?;
    estimates()?;
    payloads()?;
    payments()?;
    println!("ok");
    Ok(())
}
