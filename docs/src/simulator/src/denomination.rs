//! Symbols and denominations, and their texts.

pub const MOST_HOPS: usize = 6;
const LONGEST_SYMBOL: usize = 16;
const HOP: &[u8] = b"transfer/channel-";

/// A letter a-z followed by at most 15 letters a-z or digits.
#[derive(Clone, Copy, Debug, PartialEq, Eq)]
pub struct Symbol {
    bytes: [u8; LONGEST_SYMBOL],
    length: u8,
}

impl Symbol {
    pub fn read(word: &[u8]) -> Option<Symbol> {
        let good = word.len() <= LONGEST_SYMBOL
            && word.first().is_some_and(u8::is_ascii_lowercase)
            && word.iter().all(|b| b.is_ascii_lowercase() || b.is_ascii_digit());
        good.then(|| {
            let mut bytes = [0; LONGEST_SYMBOL];
            bytes[..word.len()].copy_from_slice(word);
            Symbol { bytes, length: word.len() as u8 }
        })
    }

    pub fn text(&self) -> &[u8] {
        &self.bytes[..self.length as usize]
    }
}

/// A trace of 0 to 6 channels, the last way in first, and a symbol.
#[derive(Clone, Copy, Debug, PartialEq, Eq)]
pub struct Denomination {
    symbol: Symbol,
    hops: [u8; MOST_HOPS],
    count: u8,
}

impl Denomination {
    pub fn at_home(symbol: Symbol) -> Denomination {
        Denomination { symbol, hops: [0; MOST_HOPS], count: 0 }
    }

    pub fn read(word: &[u8]) -> Option<Denomination> {
        let mut hops = [0; MOST_HOPS];
        let mut count = 0;
        let mut rest = word;
        while let Some([digit, b'/', after @ ..]) = rest.strip_prefix(HOP) {
            if !(b'0'..=b'7').contains(digit) || count == MOST_HOPS {
                return None;
            }
            hops[count] = digit - b'0';
            count += 1;
            rest = after;
        }
        let symbol = Symbol::read(rest)?;
        Some(Denomination { symbol, hops, count: count as u8 })
    }

    pub fn put(&self, out: &mut Vec<u8>) {
        for hop in self.hops() {
            out.extend_from_slice(HOP);
            out.extend_from_slice(&[b'0' + hop, b'/']);
        }
        out.extend_from_slice(self.symbol.text());
    }

    pub fn symbol(&self) -> Symbol {
        self.symbol
    }

    pub fn hops(&self) -> &[u8] {
        &self.hops[..self.count as usize]
    }

    /// Whether it came in by this channel last.
    pub fn came_by(&self, channel: usize) -> bool {
        self.hops().first().is_some_and(|&hop| usize::from(hop) == channel)
    }

    /// With one hop more in front, unless there are six already.
    pub fn behind(&self, channel: usize) -> Option<Denomination> {
        if usize::from(self.count) == MOST_HOPS {
            return None;
        }
        let mut longer = *self;
        longer.hops[0] = channel as u8;
        longer.hops[1..].copy_from_slice(&self.hops[..MOST_HOPS - 1]);
        longer.count += 1;
        Some(longer)
    }

    /// Without its first hop; a denomination without hops stays as it is.
    pub fn without_first(&self) -> Denomination {
        let mut shorter = *self;
        if self.count > 0 {
            shorter.hops[..MOST_HOPS - 1].copy_from_slice(&self.hops[1..]);
            shorter.hops[MOST_HOPS - 1] = 0;
            shorter.count -= 1;
        }
        shorter
    }
}
