//! The audit. Every figure is added up afresh from balances and packets.

use crate::text::{put_number, put_sum};
use crate::world::World;

pub fn put(world: &World, out: &mut Vec<u8>) {
    out.extend_from_slice(b"audit");
    for count in [world.tokens.len(), world.links.len(), world.packets_sent] {
        out.push(b' ');
        put_number(out, count as u64);
    }
    out.push(b'\n');
    put_tokens(world, out);
    put_escrows(world, out);
}

fn put_tokens(world: &World, out: &mut Vec<u8>) {
    // For each chain and denomination number the number of its token.
    let homes: Vec<Vec<usize>> = (0..world.chains.len())
        .map(|chain| {
            let token_number = |holding: &crate::world::Holding| {
                let token = world.token_of(chain, &holding.denomination);
                world.tokens.iter().position(|t| *t == token).expect("every voucher comes from a token")
            };
            world.chains[chain].holdings.iter().map(token_number).collect()
        })
        .collect();

    let mut held = vec![0u128; world.tokens.len()];
    for (chain, homes) in world.chains.iter().zip(&homes) {
        for (holding, &token) in chain.holdings.iter().zip(homes) {
            held[token] += holding.held();
        }
    }

    let mut open = vec![0u128; world.tokens.len()];
    for link in &world.links {
        for (end, lane) in link.ends.iter().zip(&link.lanes) {
            for packet in lane.iter().filter(|p| p.is_open()) {
                open[homes[end.chain][packet.denomination]] += u128::from(packet.amount);
            }
        }
    }

    for (number, token) in world.tokens.iter().enumerate() {
        let at_home = crate::denomination::Denomination::at_home(token.symbol);
        let chain = &world.chains[token.chain];
        let supply = chain.find(&at_home).map_or(0, |n| chain.holdings[n].supply());
        out.extend_from_slice(b"token ");
        put_number(out, token.chain as u64);
        out.push(b' ');
        out.extend_from_slice(token.symbol.text());
        put_figures(out, [supply, held[number], open[number]]);
    }
}

fn put_escrows(world: &World, out: &mut Vec<u8>) {
    for (link_number, link) in world.links.iter().enumerate() {
        for (end_number, end) in link.ends.iter().enumerate() {
            let far = link.ends[1 - end_number];
            let far_chain = &world.chains[far.chain];
            for (number, holding) in world.chains[end.chain].holdings.iter().enumerate() {
                let escrow = holding.balances[end.escrow()];
                if escrow == 0 {
                    continue;
                }
                let voucher = holding.denomination.behind(far.channel).and_then(|v| far_chain.find(&v));
                let vouchers = voucher.map_or(0, |v| far_chain.holdings[v].supply());
                let outward = open_in(&link.lanes[end_number], number);
                let homeward = voucher.map_or(0, |v| open_in(&link.lanes[1 - end_number], v));
                out.extend_from_slice(b"escrow ");
                put_number(out, link_number as u64);
                out.push(b' ');
                put_number(out, end_number as u64);
                out.push(b' ');
                holding.denomination.put(out);
                put_figures(out, [u128::from(escrow), vouchers, outward + homeward]);
            }
        }
    }
}

/// The open packets of a lane with this denomination of its sending chain.
fn open_in(lane: &[crate::world::Packet], denomination: usize) -> u128 {
    lane.iter().filter(|p| p.denomination == denomination && p.is_open()).map(|p| u128::from(p.amount)).sum()
}

fn put_figures(out: &mut Vec<u8>, figures: [u128; 3]) {
    for figure in figures {
        out.push(b' ');
        put_sum(out, figure);
    }
    out.push(b'\n');
}
