//! The two chains of the console, their links, packets and tokens, and the calls.
//!
//! Each call makes its checks in the order of the manual's list before it
//! alters anything.

use crate::denomination::{Denomination, Symbol};
use crate::refusal::Refusal;

pub const CHAINS: usize = 2;
pub const USERS: usize = 16;
pub const CHANNELS: usize = 8;
pub const ACCOUNTS: usize = USERS + CHANNELS;
pub const LINKS: usize = 16;
pub const PACKETS: usize = 512;
pub const DENOMINATIONS: usize = 32;
pub const TOKENS: usize = 64;

/// What the receipt of a packet came to.
pub const GOOD: u8 = 1;
pub const SEVEN_HOPS: u8 = 2;
pub const NO_PLACE: u8 = 3;
pub const LEDGER_REFUSED: u8 = 4;

type Outcome<T> = Result<T, Refusal>;

/// A denomination that a chain knows, and what each account has of it.
pub struct Holding {
    pub denomination: Denomination,
    pub balances: [u64; ACCOUNTS],
}

impl Holding {
    pub fn supply(&self) -> u128 {
        self.balances.iter().map(|&b| u128::from(b)).sum()
    }

    pub fn held(&self) -> u128 {
        self.balances[..USERS].iter().map(|&b| u128::from(b)).sum()
    }
}

/// One end of a link, seen from its chain.
#[derive(Clone, Copy)]
pub struct Channel {
    pub link: usize,
    pub end: usize,
}

#[derive(Default)]
pub struct Chain {
    pub height: u64,
    pub channels: Vec<Channel>,
    pub holdings: Vec<Holding>,
    pub barred: [bool; USERS],
}

impl Chain {
    pub fn find(&self, denomination: &Denomination) -> Option<usize> {
        self.holdings.iter().position(|h| h.denomination == *denomination)
    }

    fn known(&self, denomination: &Denomination) -> Outcome<usize> {
        self.find(denomination).ok_or(Refusal::NotRegistered)
    }

    fn is_full(&self) -> bool {
        self.holdings.len() == DENOMINATIONS
    }

    fn add(&mut self, denomination: Denomination) -> usize {
        self.holdings.push(Holding { denomination, balances: [0; ACCOUNTS] });
        self.holdings.len() - 1
    }

    fn may_credit(&self, number: usize, amount: u64) -> Outcome<()> {
        if self.holdings[number].supply() + u128::from(amount) > u128::from(u64::MAX) {
            return Err(Refusal::SupplyTooLarge);
        }
        Ok(())
    }

    fn may_debit(&self, account: usize, number: usize, amount: u64) -> Outcome<()> {
        if account < USERS && self.barred[account] {
            return Err(Refusal::Barred);
        }
        if self.holdings[number].balances[account] < amount {
            return Err(Refusal::BalanceTooSmall);
        }
        Ok(())
    }

    fn credit(&mut self, account: usize, number: usize, amount: u64) -> Outcome<()> {
        self.may_credit(number, amount)?;
        self.holdings[number].balances[account] += amount;
        Ok(())
    }

    fn debit(&mut self, account: usize, number: usize, amount: u64) -> Outcome<()> {
        self.may_debit(account, number, amount)?;
        self.holdings[number].balances[account] -= amount;
        Ok(())
    }

    fn transfer(&mut self, from: usize, to: usize, number: usize, amount: u64) -> Outcome<()> {
        self.debit(from, number, amount)?;
        self.holdings[number].balances[to] += amount;
        Ok(())
    }
}

#[derive(Clone, Copy)]
pub struct End {
    pub chain: usize,
    pub channel: usize,
}

impl End {
    pub fn escrow(&self) -> usize {
        USERS + self.channel
    }
}

pub struct Packet {
    /// Number of the denomination on the sending chain.
    pub denomination: usize,
    pub sender: usize,
    pub receiver: usize,
    pub amount: u64,
    pub timeout: u64,
    pub mark: Option<u8>,
    pub stands: bool,
}

impl Packet {
    pub fn is_open(&self) -> bool {
        self.stands && self.mark != Some(GOOD)
    }

    pub fn is_expired(&self, height: u64) -> bool {
        self.timeout != 0 && self.timeout <= height
    }
}

pub struct Link {
    pub strict: bool,
    pub closed: bool,
    pub ends: [End; 2],
    /// The packets by direction; sequence S stands at S - 1.
    pub lanes: [Vec<Packet>; 2],
}

#[derive(Clone, Copy, PartialEq, Eq)]
pub struct Token {
    pub chain: usize,
    pub symbol: Symbol,
}

#[derive(Default)]
pub struct World {
    pub chains: [Chain; CHAINS],
    pub links: Vec<Link>,
    pub tokens: Vec<Token>,
    pub packets_sent: usize,
}

/// The end of a standing packet's lane, and the packet.
struct Place {
    link: usize,
    direction: usize,
    index: usize,
}

fn user(number: u64) -> Outcome<usize> {
    below(number, USERS).ok_or(Refusal::NoSuchUser)
}

fn chain(number: u64) -> Outcome<usize> {
    below(number, CHAINS).ok_or(Refusal::ChainNotServed)
}

fn below(number: u64, limit: usize) -> Option<usize> {
    usize::try_from(number).ok().filter(|&n| n < limit)
}

fn at_least_one(amount: u64) -> Outcome<()> {
    if amount == 0 {
        return Err(Refusal::NothingToMove);
    }
    Ok(())
}

impl World {
    pub fn open(&mut self, first: u64, second: u64, strict: bool) -> Outcome<u64> {
        let chains = [chain(first)?, chain(second)?];
        if chains[0] == chains[1] {
            return Err(Refusal::SameChain);
        }
        if self.links.len() == LINKS {
            return Err(Refusal::TooManyLinks);
        }
        if chains.iter().any(|&c| self.chains[c].channels.len() == CHANNELS) {
            return Err(Refusal::TooManyChannels);
        }
        let link = self.links.len();
        let ends = chains.map(|chain| End { chain, channel: self.chains[chain].channels.len() });
        for (end, &chain) in chains.iter().enumerate() {
            self.chains[chain].channels.push(Channel { link, end });
        }
        self.links.push(Link { strict, closed: false, ends, lanes: [Vec::new(), Vec::new()] });
        Ok(link as u64)
    }

    pub fn issue(&mut self, c: u64, u: u64, symbol: Symbol, amount: u64) -> Outcome<()> {
        let chain = chain(c)?;
        let user = user(u)?;
        at_least_one(amount)?;
        let token = Token { chain, symbol };
        let denomination = Denomination::at_home(symbol);
        let new_token = !self.tokens.contains(&token);
        let number = self.chains[chain].find(&denomination);
        if (new_token && self.tokens.len() == TOKENS) || (number.is_none() && self.chains[chain].is_full()) {
            return Err(Refusal::RegisterFull);
        }
        if let Some(number) = number {
            self.chains[chain].may_credit(number, amount)?;
        }
        if new_token {
            self.tokens.push(token);
        }
        let number = number.unwrap_or_else(|| self.chains[chain].add(denomination));
        self.chains[chain].credit(user, number, amount)
    }

    pub fn retire(&mut self, c: u64, u: u64, denomination: &Denomination, amount: u64) -> Outcome<()> {
        let chain = &mut self.chains[chain(c)?];
        let user = user(u)?;
        at_least_one(amount)?;
        let number = chain.known(denomination)?;
        if !denomination.hops().is_empty() {
            return Err(Refusal::HasHops);
        }
        chain.debit(user, number, amount)
    }

    pub fn pay(&mut self, c: u64, u: u64, v: u64, denomination: &Denomination, amount: u64) -> Outcome<()> {
        let chain = &mut self.chains[chain(c)?];
        let (from, to) = (user(u)?, user(v)?);
        at_least_one(amount)?;
        let number = chain.known(denomination)?;
        chain.transfer(from, to, number, amount)
    }

    #[allow(clippy::too_many_arguments)]
    pub fn send(
        &mut self,
        c: u64,
        k: u64,
        u: u64,
        v: u64,
        denomination: &Denomination,
        amount: u64,
        timeout: u64,
    ) -> Outcome<u64> {
        let chain = chain(c)?;
        let channel = below(k, self.chains[chain].channels.len()).ok_or(Refusal::ChannelNotInUse)?;
        let (sender, receiver) = (user(u)?, user(v)?);
        at_least_one(amount)?;
        let number = self.chains[chain].known(denomination)?;
        let Channel { link, end } = self.chains[chain].channels[channel];
        if self.links[link].closed {
            return Err(Refusal::LinkClosed);
        }
        if timeout != 0 && timeout <= self.far_height(link, end) {
            return Err(Refusal::TimeoutPassed);
        }
        if self.packets_sent == PACKETS {
            return Err(Refusal::TooManyPackets);
        }
        if denomination.came_by(channel) {
            self.chains[chain].debit(sender, number, amount)?;
        } else {
            self.chains[chain].transfer(sender, USERS + channel, number, amount)?;
        }
        self.packets_sent += 1;
        let lane = &mut self.links[link].lanes[end];
        lane.push(Packet { denomination: number, sender, receiver, amount, timeout, mark: None, stands: true });
        Ok(lane.len() as u64)
    }

    pub fn receive(&mut self, l: u64, d: u64, s: u64) -> Outcome<u8> {
        let (link, direction) = self.lane(l, d)?;
        if self.links[link].closed {
            return Err(Refusal::LinkClosed);
        }
        let place = self.standing(link, direction, s)?;
        let packet = self.packet(&place);
        if packet.is_expired(self.far_height(link, direction)) {
            return Err(Refusal::Expired);
        }
        if packet.mark.is_some() {
            return Err(Refusal::Marked);
        }
        let Link { strict, ref lanes, .. } = self.links[link];
        if strict && lanes[direction][..place.index].iter().any(|p| p.mark.is_none()) {
            return Err(Refusal::LowerUnmarked);
        }
        let mark = self.deliver(&place);
        self.links[link].lanes[direction][place.index].mark = Some(mark);
        Ok(mark)
    }

    pub fn ack(&mut self, l: u64, d: u64, s: u64) -> Outcome<()> {
        let (link, direction) = self.lane(l, d)?;
        let place = self.standing(link, direction, s)?;
        let mark = self.packet(&place).mark.ok_or(Refusal::NoMark)?;
        let Link { strict, ref lanes, .. } = self.links[link];
        if strict && lanes[direction][..place.index].iter().any(|p| p.stands) {
            return Err(Refusal::LowerStands);
        }
        if mark != GOOD {
            self.refund(&place)?;
        }
        self.links[link].lanes[direction][place.index].stands = false;
        Ok(())
    }

    pub fn timeout(&mut self, l: u64, d: u64, s: u64) -> Outcome<()> {
        let (link, direction) = self.lane(l, d)?;
        let place = self.standing(link, direction, s)?;
        let packet = self.packet(&place);
        if !self.links[link].closed && !packet.is_expired(self.far_height(link, direction)) {
            return Err(Refusal::NotExpired);
        }
        if packet.mark.is_some() {
            return Err(Refusal::HasMark);
        }
        self.refund(&place)?;
        let link = &mut self.links[link];
        link.lanes[direction][place.index].stands = false;
        link.closed |= link.strict;
        Ok(())
    }

    pub fn tick(&mut self, c: u64, step: u64) -> Outcome<()> {
        let chain = &mut self.chains[chain(c)?];
        at_least_one(step)?;
        chain.height = chain.height.checked_add(step).ok_or(Refusal::HeightTooLarge)?;
        Ok(())
    }

    pub fn set_bar(&mut self, c: u64, u: u64, barred: bool) -> Outcome<()> {
        let chain = &mut self.chains[chain(c)?];
        chain.barred[user(u)?] = barred;
        Ok(())
    }

    pub fn home(&self, c: u64, denomination: &Denomination) -> Outcome<Token> {
        let chain = chain(c)?;
        self.chains[chain].known(denomination)?;
        Ok(self.token_of(chain, denomination))
    }

    /// Follows the hops of a registered denomination to where they end.
    pub fn token_of(&self, holder: usize, denomination: &Denomination) -> Token {
        let chain = denomination.hops().iter().fold(holder, |chain, &hop| {
            let Channel { link, end } = self.chains[chain].channels[usize::from(hop)];
            self.links[link].ends[1 - end].chain
        });
        Token { chain, symbol: denomination.symbol() }
    }

    /// The height of the chain that packets from this end arrive on.
    pub fn far_height(&self, link: usize, end: usize) -> u64 {
        self.chains[self.links[link].ends[1 - end].chain].height
    }

    fn lane(&self, l: u64, d: u64) -> Outcome<(usize, usize)> {
        below(l, self.links.len()).zip(below(d, 2)).ok_or(Refusal::NoSuchLink)
    }

    fn standing(&self, link: usize, direction: usize, s: u64) -> Outcome<Place> {
        let lane = &self.links[link].lanes[direction];
        let index = s.checked_sub(1).and_then(|i| below(i, lane.len())).ok_or(Refusal::NoSuchPacket)?;
        if !lane[index].stands {
            return Err(Refusal::NoLongerStands);
        }
        Ok(Place { link, direction, index })
    }

    fn packet(&self, place: &Place) -> &Packet {
        &self.links[place.link].lanes[place.direction][place.index]
    }

    /// Gives a packet's amount to its receiver if that can be, and says its mark.
    fn deliver(&mut self, place: &Place) -> u8 {
        let ends = self.links[place.link].ends;
        let (from, to) = (ends[place.direction], ends[1 - place.direction]);
        let &Packet { denomination, receiver, amount, .. } = self.packet(place);
        let sent = self.chains[from.chain].holdings[denomination].denomination;
        let chain = &mut self.chains[to.chain];
        let credited = if sent.came_by(from.channel) {
            chain.known(&sent.without_first()).and_then(|number| chain.transfer(to.escrow(), receiver, number, amount))
        } else {
            let Some(voucher) = sent.behind(to.channel) else {
                return SEVEN_HOPS;
            };
            match chain.find(&voucher) {
                Some(number) => chain.credit(receiver, number, amount),
                None if chain.is_full() => return NO_PLACE,
                // The first of its kind: no supply can be exceeded.
                None => {
                    let number = chain.add(voucher);
                    chain.credit(receiver, number, amount)
                }
            }
        };
        match credited {
            Ok(()) => GOOD,
            Err(_) => LEDGER_REFUSED,
        }
    }

    fn refund(&mut self, place: &Place) -> Outcome<()> {
        let end = self.links[place.link].ends[place.direction];
        let &Packet { denomination: number, sender, amount, .. } = self.packet(place);
        let chain = &mut self.chains[end.chain];
        let done = if chain.holdings[number].denomination.came_by(end.channel) {
            chain.credit(sender, number, amount)
        } else {
            chain.transfer(end.escrow(), sender, number, amount)
        };
        done.map_err(|_| Refusal::RefundRefused)
    }
}
