//! Random scripts that reach deep.
//!
//! A world runs beside the script, so that most commands mean something in the
//! state that they meet. A share of them is then spoilt in one word.

use crate::random::Random;
use crate::script::{Session, LONGEST_SCRIPT, NAMES};
use crate::world::{Link, Packet, World, CHAINS, CHANNELS, DENOMINATIONS, USERS};

/// What a script is mostly about.
struct Flavour {
    name: &'static str,
    /// How often each command of `NAMES` is chosen.
    weights: [usize; 13],
    links: usize,
    strict_percent: usize,
    symbols: usize,
    /// How many users take part.
    users: u64,
    timeout_percent: usize,
    spoil_percent: usize,
    /// Sends choose the longest trace that is held.
    deep: bool,
    huge: bool,
    /// Tokens are mostly issued on chain 1, whose ledger keeps notes.
    notes: bool,
    /// Bytes of the script, at least and at most.
    size: (u64, u64),
}

const FLAVOURS: [Flavour; 10] = [
    Flavour {
        name: "a bit of everything",
        weights: [4, 8, 3, 8, 22, 20, 14, 6, 4, 2, 2, 3, 2],
        links: 4,
        strict_percent: 40,
        symbols: 4,
        users: 6,
        timeout_percent: 30,
        spoil_percent: 12,
        deep: false,
        huge: false,
        notes: false,
        size: (500, 6_000),
    },
    Flavour {
        name: "many packets on few links",
        weights: [1, 2, 0, 2, 60, 20, 10, 2, 1, 0, 0, 1, 1],
        links: 2,
        strict_percent: 30,
        symbols: 3,
        users: 4,
        timeout_percent: 5,
        spoil_percent: 3,
        deep: false,
        huge: false,
        notes: false,
        size: (20_000, 40_000),
    },
    Flavour {
        name: "many tokens",
        weights: [2, 34, 3, 3, 22, 18, 10, 2, 1, 0, 0, 4, 1],
        links: 3,
        strict_percent: 20,
        symbols: 40,
        users: 3,
        timeout_percent: 5,
        spoil_percent: 5,
        deep: false,
        huge: false,
        notes: false,
        size: (4_000, 20_000),
    },
    Flavour {
        name: "deep traces",
        weights: [3, 1, 0, 1, 30, 40, 14, 1, 1, 0, 0, 8, 2],
        links: 6,
        strict_percent: 10,
        symbols: 2,
        users: 2,
        timeout_percent: 3,
        spoil_percent: 5,
        deep: true,
        huge: false,
        notes: false,
        size: (4_000, 20_000),
    },
    Flavour {
        name: "strict links with timeouts",
        weights: [3, 4, 1, 2, 30, 20, 16, 10, 4, 0, 0, 1, 2],
        links: 5,
        strict_percent: 90,
        symbols: 2,
        users: 4,
        timeout_percent: 60,
        spoil_percent: 8,
        deep: false,
        huge: false,
        notes: false,
        size: (2_000, 12_000),
    },
    Flavour {
        name: "huge amounts",
        weights: [2, 16, 4, 10, 24, 20, 10, 6, 6, 1, 1, 1, 3],
        links: 3,
        strict_percent: 30,
        symbols: 2,
        users: 3,
        timeout_percent: 20,
        spoil_percent: 8,
        deep: false,
        huge: true,
        notes: false,
        size: (1_000, 6_000),
    },
    Flavour {
        name: "bars",
        weights: [2, 8, 8, 16, 20, 16, 12, 6, 3, 12, 6, 1, 2],
        links: 2,
        strict_percent: 30,
        symbols: 2,
        users: 4,
        timeout_percent: 30,
        spoil_percent: 6,
        deep: false,
        huge: false,
        notes: false,
        size: (1_000, 6_000),
    },
    Flavour {
        name: "many links",
        weights: [14, 8, 1, 3, 30, 24, 14, 6, 3, 1, 1, 4, 2],
        links: 20,
        strict_percent: 50,
        symbols: 4,
        users: 4,
        timeout_percent: 20,
        spoil_percent: 8,
        deep: true,
        huge: false,
        notes: false,
        size: (3_000, 12_000),
    },
    Flavour {
        name: "many notes",
        weights: [1, 30, 2, 70, 8, 4, 2, 1, 0, 0, 0, 0, 1],
        links: 8,
        strict_percent: 10,
        symbols: 36,
        users: 16,
        timeout_percent: 5,
        spoil_percent: 1,
        deep: false,
        huge: false,
        notes: true,
        size: (45_000, 62_000),
    },
    Flavour {
        name: "near misses",
        weights: [4, 8, 4, 8, 20, 16, 14, 10, 4, 3, 3, 4, 2],
        links: 4,
        strict_percent: 50,
        symbols: 4,
        users: 16,
        timeout_percent: 30,
        spoil_percent: 60,
        deep: false,
        huge: false,
        notes: false,
        size: (1_000, 6_000),
    },
];

/// What a last step and the end of a script may add to its size.
const ROOM: usize = 3_000;

/// A long script in which the packets last to the end.
const LONGEST: Flavour = Flavour {
    name: "a long script",
    weights: [1, 10, 4, 26, 25, 19, 15, 1, 2, 1, 3, 4, 1],
    links: 4,
    strict_percent: 30,
    symbols: 4,
    users: 8,
    timeout_percent: 4,
    spoil_percent: 0,
    deep: false,
    huge: false,
    notes: false,
    size: (0, 0),
};

const LARGE_NUMBERS: [&str; 5] =
    ["4294967296", "9223372036854775808", "18446744073709551615", "18446744073709551616", "99999999999999999999999"];

/// What a word of a command stands for.
#[derive(Clone, Copy, PartialEq, Eq)]
enum Kind {
    Name,
    Chain,
    Channel,
    User,
    Amount,
    Denomination,
    Symbol,
    Link,
    Direction,
    Sequence,
    Height,
    Order,
}

struct Word {
    kind: Kind,
    text: String,
}

#[derive(Clone, Copy)]
struct Account {
    chain: usize,
    user: usize,
    denomination: usize,
    balance: u64,
}

struct Generator {
    random: Random,
    flavour: &'static Flavour,
    session: Session,
    script: Vec<u8>,
    answers: Vec<u8>,
}

/// What the scripts of a seed are mostly about.
pub fn flavour(seed: u64) -> &'static str {
    FLAVOURS[(seed % FLAVOURS.len() as u64) as usize].name
}

/// The script of a seed.
pub fn generate(seed: u64, audits: bool) -> Vec<u8> {
    let flavour = &FLAVOURS[(seed % FLAVOURS.len() as u64) as usize];
    let mut random = Random::new(seed);
    let size = random.between(flavour.size.0, flavour.size.1) as usize;
    script_of_size(random, flavour, size, audits)
}

/// A script just within the longest that is read, in which most lines are accepted.
pub fn longest(seed: u64, audits: bool) -> Vec<u8> {
    script_of_size(Random::new(seed), &LONGEST, LONGEST_SCRIPT - ROOM, audits)
}

fn script_of_size(random: Random, flavour: &'static Flavour, size: usize, audits: bool) -> Vec<u8> {
    let mut generator =
        Generator { random, flavour, session: Session::default(), script: Vec::new(), answers: Vec::new() };
    generator.begin();
    while generator.script.len() < size {
        generator.step(audits);
    }
    generator.finish(audits);
    generator.script
}

impl Generator {
    /// A link and a token to begin with, except sometimes.
    fn begin(&mut self) {
        if self.random.percent(95) {
            for name in [0, 1, 1] {
                let words = self.command(name);
                self.write(&words);
            }
        }
    }

    fn step(&mut self, audits: bool) {
        let name = self.random.weighted(&self.flavour.weights);
        if NAMES[name] == "audit" && !audits {
            return;
        }
        let mut words = self.command(name);
        if self.random.percent(self.flavour.spoil_percent) {
            // Several faults in one line show which of them is found first.
            for _ in 0..self.random.pick(&[1, 1, 1, 2, 3]) {
                self.spoil(&mut words);
            }
        }
        self.write(&words);
        if self.random.percent(2) {
            let passed_over: &[u8] = self.random.pick(&[&b""[..], b"#", b"# a remark", b"#\ttab \xff\r"]);
            self.write_line(passed_over);
        }
    }

    /// Shows some balances exactly, by payments to oneself of one too much and
    /// of just the balance, and then every sum.
    fn finish(&mut self, audits: bool) {
        for _ in 0..8 {
            let Some(account) = self.account(|_, _| true) else {
                break;
            };
            let Account { chain, user, denomination, balance } = account;
            let text = self.text_of(chain, denomination);
            for amount in [balance.saturating_add(1), balance] {
                self.write_line(format!("pay {chain} {user} {user} {text} {amount}").as_bytes());
            }
        }
        if audits {
            self.write_line(b"audit");
        }
    }

    fn write(&mut self, words: &[Word]) {
        let texts: Vec<&str> = words.iter().map(|word| word.text.as_str()).collect();
        let mut line = texts.join(" ").into_bytes();
        // Sometimes the same line again: what was accepted once may now be refused.
        let times = if self.random.percent(2) { 2 } else { 1 };
        if self.random.percent(self.flavour.spoil_percent) && self.random.percent(5) {
            let at = self.random.below(line.len() + 1);
            line.insert(at, b' ');
        }
        for _ in 0..times {
            self.write_line(&line);
        }
    }

    fn write_line(&mut self, line: &[u8]) {
        self.script.extend_from_slice(line);
        self.script.push(b'\n');
        self.answers.clear();
        self.session.line(line, &mut self.answers);
    }

    fn world(&self) -> &World {
        &self.session.world
    }

    // The commands

    fn command(&mut self, name: usize) -> Vec<Word> {
        let mut words = vec![word(Kind::Name, NAMES[name])];
        words.extend(match NAMES[name] {
            "open" => self.open(),
            "issue" => self.issue(),
            "retire" => self.retire(),
            "pay" => self.pay(),
            "send" => self.send(),
            "receive" => self.pick_packet(|world, link, direction, packet| {
                !world.links[link].closed
                    && packet.stands
                    && packet.mark.is_none()
                    && !packet.is_expired(world.far_height(link, direction))
            }),
            "ack" => self.pick_packet(|_, _, _, packet| packet.stands && packet.mark.is_some()),
            "timeout" => self.pick_packet(|world, link, direction, packet| {
                packet.stands
                    && packet.mark.is_none()
                    && (world.links[link].closed || packet.is_expired(world.far_height(link, direction)))
            }),
            "tick" => self.tick(),
            "bar" => vec![self.chain(), self.user()],
            "unbar" => self.unbar(),
            "home" => self.home(),
            _ => Vec::new(),
        });
        words
    }

    fn open(&mut self) -> Vec<Word> {
        let first = self.random.below(CHAINS);
        // Past its number of links a script opens only now and then.
        let second = if self.world().links.len() < self.flavour.links || self.random.percent(10) {
            1 - first
        } else {
            self.random.below(CHAINS + 1)
        };
        let kind = if self.random.percent(self.flavour.strict_percent) { "strict" } else { "free" };
        vec![word(Kind::Chain, first), word(Kind::Chain, second), word(Kind::Order, kind)]
    }

    fn issue(&mut self) -> Vec<Word> {
        let chain = if self.flavour.notes && self.random.percent(95) { 1 } else { self.random.below(CHAINS) };
        let symbol = self.symbol();
        let denomination = crate::denomination::Denomination::read(symbol.as_bytes()).expect("a symbol");
        let chain_now = &self.world().chains[chain];
        let supply = chain_now.find(&denomination).map_or(0, |n| chain_now.holdings[n].supply());
        let room = u64::MAX - u64::try_from(supply).expect("the first law");
        let amount = if self.flavour.huge {
            match self.random.below(5) {
                0 => room.max(1),
                1 => room.saturating_add(1),
                2 => self.random.between(1, u64::MAX),
                3 => u64::MAX,
                _ => self.random.between(1, room.max(1)),
            }
        } else {
            self.random.between(1, 1_000_000)
        };
        vec![word(Kind::Chain, chain), self.user(), word(Kind::Symbol, symbol), word(Kind::Amount, amount)]
    }

    fn symbol(&mut self) -> String {
        match self.random.below(self.flavour.symbols) {
            0 => "gold".into(),
            1 => "transfer".into(),
            2 => "abcdefghijklmnop".into(),
            3 => "usd2".into(),
            n => format!("t{n}"),
        }
    }

    fn retire(&mut self) -> Vec<Word> {
        let Some(account) =
            self.account(|world, a| world.chains[a.chain].holdings[a.denomination].denomination.hops().is_empty())
        else {
            return vec![self.chain(), self.user(), word(Kind::Denomination, "gold"), word(Kind::Amount, 1)];
        };
        let amount = self.amount(account.balance);
        vec![
            word(Kind::Chain, account.chain),
            word(Kind::User, account.user),
            self.denomination(&account),
            word(Kind::Amount, amount),
        ]
    }

    fn pay(&mut self) -> Vec<Word> {
        let Some(account) = self.account(|_, _| true) else {
            let denomination = word(Kind::Denomination, "gold");
            return vec![self.chain(), self.user(), self.user(), denomination, word(Kind::Amount, 1)];
        };
        let amount = self.amount(account.balance);
        vec![
            word(Kind::Chain, account.chain),
            word(Kind::User, account.user),
            self.user(),
            self.denomination(&account),
            word(Kind::Amount, amount),
        ]
    }

    fn send(&mut self) -> Vec<Word> {
        let Some(account) = self.account(|_, _| true) else {
            return vec![
                self.chain(),
                word(Kind::Channel, 0),
                self.user(),
                self.user(),
                word(Kind::Denomination, "gold"),
                word(Kind::Amount, 1),
                word(Kind::Height, 0),
            ];
        };
        let channel = self.channel(&account);
        let height = self.world().chains[1 - account.chain].height;
        let timeout = if !self.random.percent(self.flavour.timeout_percent) {
            0
        } else if self.random.percent(10) {
            self.random.pick(&[1, height.saturating_sub(1), height, u64::MAX])
        } else {
            let later = self.random.between(1, 4);
            height.saturating_add(later)
        };
        let amount = self.amount(account.balance);
        vec![
            word(Kind::Chain, account.chain),
            word(Kind::Channel, channel),
            word(Kind::User, account.user),
            self.user(),
            self.denomination(&account),
            word(Kind::Amount, amount),
            word(Kind::Height, timeout),
        ]
    }

    /// A channel to send on: mostly open, and in deep scripts mostly not homeward.
    fn channel(&mut self, account: &Account) -> usize {
        let chain = &self.world().chains[account.chain];
        let denomination = chain.holdings[account.denomination].denomination;
        let wanted: Vec<usize> = (0..chain.channels.len())
            .filter(|&k| !self.world().links[chain.channels[k].link].closed)
            .filter(|&k| !self.flavour.deep || !denomination.came_by(k))
            .collect();
        let used = chain.channels.len();
        if wanted.is_empty() || self.random.percent(15) {
            self.random.below((used + 1).min(CHANNELS))
        } else {
            self.random.pick(&wanted)
        }
    }

    fn tick(&mut self) -> Vec<Word> {
        let chain = self.random.below(CHAINS);
        let room = u64::MAX - self.world().chains[chain].height;
        let step = if self.flavour.huge && self.random.percent(30) {
            self.random.pick(&[room, room.saturating_add(1), room / 2, room.saturating_sub(2)])
        } else {
            self.random.between(1, 3)
        };
        vec![word(Kind::Chain, chain), word(Kind::Amount, step)]
    }

    /// Mostly somebody who is barred.
    fn unbar(&mut self) -> Vec<Word> {
        let chains = self.world().chains.iter().enumerate();
        let barred: Vec<(usize, usize)> =
            chains.flat_map(|(c, chain)| (0..USERS).filter(|&u| chain.barred[u]).map(move |u| (c, u))).collect();
        if barred.is_empty() || self.random.percent(20) {
            return vec![self.chain(), self.user()];
        }
        let (chain, user) = self.random.pick(&barred);
        vec![word(Kind::Chain, chain), word(Kind::User, user)]
    }

    fn home(&mut self) -> Vec<Word> {
        let chain = self.random.below(CHAINS);
        let known = self.world().chains[chain].holdings.len();
        if known == 0 {
            return vec![word(Kind::Chain, chain), word(Kind::Denomination, "gold")];
        }
        let index = self.random.below(known);
        let text = self.text_of(chain, index);
        vec![word(Kind::Chain, chain), word(Kind::Denomination, text)]
    }

    /// A packet as the predicate wants it, the lowest of its lane on strict
    /// links, or sometimes any.
    fn pick_packet(&mut self, wanted: impl Fn(&World, usize, usize, &Packet) -> bool) -> Vec<Word> {
        let mut fit = Vec::new();
        let mut all = Vec::new();
        for (number, link) in self.world().links.iter().enumerate() {
            for direction in 0..2 {
                let Link { strict, lanes, .. } = link;
                let mut lane_has_one = false;
                for (index, packet) in lanes[direction].iter().enumerate() {
                    all.push((number, direction, index + 1));
                    if !(*strict && lane_has_one) && wanted(self.world(), number, direction, packet) {
                        fit.push((number, direction, index + 1));
                        lane_has_one = true;
                    }
                }
            }
        }
        let from = if fit.is_empty() || self.random.percent(10) { &all } else { &fit };
        let (link, direction, sequence) = if from.is_empty() { (0, 0, 1) } else { self.random.pick(from) };
        vec![word(Kind::Link, link), word(Kind::Direction, direction), word(Kind::Sequence, sequence)]
    }

    // The words

    fn chain(&mut self) -> Word {
        word(Kind::Chain, self.random.below(CHAINS))
    }

    fn user(&mut self) -> Word {
        word(Kind::User, self.random.between(0, self.flavour.users - 1))
    }

    /// A user who holds something, mostly as the predicate wants it.
    fn account(&mut self, wanted: impl Fn(&World, &Account) -> bool) -> Option<Account> {
        let mut fit = Vec::new();
        for (chain, state) in self.world().chains.iter().enumerate() {
            for (denomination, holding) in state.holdings.iter().enumerate() {
                for (user, &balance) in holding.balances[..USERS].iter().enumerate() {
                    let account = Account { chain, user, denomination, balance };
                    if balance > 0 {
                        fit.push(account);
                    }
                }
            }
        }
        if self.random.percent(90) {
            let world = &self.session.world;
            let hops = |a: &Account| world.chains[a.chain].holdings[a.denomination].denomination.hops().len();
            if fit.iter().any(|a| wanted(world, a)) {
                fit.retain(|a| wanted(world, a));
            }
            if self.flavour.deep && self.random.percent(60) {
                let longest = fit.iter().map(hops).max();
                fit.retain(|a| Some(hops(a)) == longest);
            }
        }
        (!fit.is_empty()).then(|| self.random.pick(&fit))
    }

    fn denomination(&mut self, account: &Account) -> Word {
        word(Kind::Denomination, self.text_of(account.chain, account.denomination))
    }

    fn text_of(&self, chain: usize, denomination: usize) -> String {
        let mut text = Vec::new();
        self.world().chains[chain].holdings[denomination].denomination.put(&mut text);
        String::from_utf8(text).expect("a denomination is ASCII")
    }

    /// An amount out of a balance, and sometimes a bit more than it.
    fn amount(&mut self, balance: u64) -> u64 {
        match self.random.below(40) {
            0 => balance.saturating_add(1),
            1 => balance,
            2 => 1,
            _ if self.flavour.huge => self.random.between(1, balance),
            _ => self.random.between(1, (balance / 20).max(1)),
        }
    }

    // Near misses

    fn spoil(&mut self, words: &mut Vec<Word>) {
        match self.random.below(30) {
            0 if words.len() > 1 => {
                words.pop();
            }
            1 => words.push(word(Kind::Amount, self.random.below(20))),
            2 => {
                let other =
                    self.random.pick(&["Open", "recieve", "acks", "tim", "audits", "opena", "0", "help", "tick:"]);
                words[0].text = other.into();
            }
            _ => {
                let at = self.random.below(words.len());
                words[at].text = self.odd_word(&words[at]);
            }
        }
    }

    fn odd_word(&mut self, old: &Word) -> String {
        let number: u64 = old.text.parse().unwrap_or(0);
        if old.kind != Kind::Name && self.random.percent(10) {
            let shapes =
                [format!("0{}", old.text), format!("+{number}"), format!("{number}."), "x".into(), "-1".into()];
            return self.random.pick(&shapes);
        }
        let choices: Vec<String> = match old.kind {
            Kind::Name => NAMES.map(String::from).to_vec(),
            Kind::Chain => numbers(&[1 - number.min(1), 2, 7, 8, 255, 256]),
            Kind::Channel => numbers(&[number.saturating_add(1), 0, 7, 8, 9, 16, 256]),
            Kind::User => numbers(&[15, 16, 17, 23, 24, 256]),
            Kind::Amount => numbers(&[0, number.saturating_add(1), u64::MAX, u64::MAX - 1, 0]),
            Kind::Link => numbers(&[number.saturating_add(1), self.world().links.len() as u64, 7, 15, 16, 32]),
            Kind::Direction => numbers(&[1 - number.min(1), 2, 3, 256]),
            Kind::Sequence => numbers(&[0, number.saturating_add(1), number.saturating_sub(1), 512, 513, 600, number.saturating_add(2)]),
            Kind::Height => {
                let chain = self.random.below(CHAINS);
                let height = self.world().chains[chain].height;
                numbers(&[height, height.saturating_sub(1), height.saturating_add(1), 1, u64::MAX])
            }
            Kind::Order => ["Free", "loose", "stric", "strictly", "0"].map(String::from).to_vec(),
            Kind::Symbol | Kind::Denomination => self.odd_denominations(&old.text),
        };
        let is_number = !matches!(old.kind, Kind::Name | Kind::Order | Kind::Symbol | Kind::Denomination);
        if is_number && self.random.percent(15) {
            return self.random.pick(&LARGE_NUMBERS).into();
        }
        self.random.pick(&choices)
    }

    fn odd_denominations(&mut self, old: &str) -> Vec<String> {
        let mut odd = vec![
            format!("transfer/channel-{}/{old}", self.random.below(9)),
            format!("transfer/channel-0/{old}"),
            format!("{}gold", "transfer/channel-1/".repeat(self.random.below(9))),
            old.split_once('/').and_then(|(_, r)| r.split_once('/')).map_or("gold", |(_, r)| r).into(),
            old.to_uppercase(),
            format!("{old}a"),
            format!("{old}/"),
            format!("/{old}"),
            "transfer".into(),
            "transfer/channel-0".into(),
            "transfer/channel-0/".into(),
            "transfer/channel-00/gold".into(),
            "transfer/channel-8/gold".into(),
            "transfer/channel-/gold".into(),
            "transfer/gold".into(),
            "gold2".into(),
            "2gold".into(),
            "g-ld".into(),
            "abcdefghijklmnopq".into(),
            "never".into(),
        ];
        let chain = self.random.below(CHAINS);
        let known = self.world().chains[chain].holdings.len().min(DENOMINATIONS);
        for _ in 0..known.min(4) {
            let index = self.random.below(known);
            odd.push(self.text_of(chain, index));
        }
        odd
    }
}

fn numbers(values: &[u64]) -> Vec<String> {
    values.iter().map(u64::to_string).collect()
}

fn word(kind: Kind, text: impl ToString) -> Word {
    Word { kind, text: text.to_string() }
}
