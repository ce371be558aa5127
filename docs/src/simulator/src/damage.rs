//! Damage to scripts: bytes flipped, inserted and cut, and everything else
//! that a script can have wrong before its commands are looked at.

use crate::random::Random;
use crate::script::LONGEST_SCRIPT;

/// The script with the damage of this seed.
pub fn damage(seed: u64, script: &[u8]) -> Vec<u8> {
    let mut random = Random::new(seed ^ 0x5eed_da3a_6e00_0000);
    let mut bytes = script.to_vec();
    for _ in 0..1 + random.below(3) {
        damage_once(&mut random, &mut bytes);
    }
    bytes
}

fn damage_once(random: &mut Random, bytes: &mut Vec<u8>) {
    match random.below(16) {
        0 => {
            for _ in 0..1 + random.below(20) {
                if let Some(at) = position(random, bytes) {
                    bytes[at] ^= 1 << random.below(8);
                }
            }
        }
        1 => {
            for _ in 0..1 + random.below(20) {
                let at = random.below(bytes.len() + 1);
                bytes.insert(at, random.draw() as u8);
            }
        }
        2 => {
            for _ in 0..1 + random.below(20) {
                if let Some(at) = position(random, bytes) {
                    let end = (at + 1 + random.below(30)).min(bytes.len());
                    bytes.drain(at..end);
                }
            }
        }
        3 => replace_some(random, bytes, b'\n', b"\r\n"),
        4 => replace_some(random, bytes, b' ', b"\t"),
        5 => replace_some(random, bytes, b' ', b"  "),
        6 => replace_some(random, bytes, b'\n', b" \n"),
        7 => replace_some(random, bytes, b'\n', b"\n "),
        8 => {
            let filler = random.pick(&[b'#', b'a', b' ', b'0', 0xff]);
            long_line(random, bytes, filler);
        }
        9 => {
            let length = random.pick(&[253, 254, 255, 256, 257, 300]);
            let mut line = random.pick(&[&b"pay 0 1 2 gold "[..], b"#", b"receive 0 0 ", b"audit ", b"x"]).to_vec();
            line.resize(length, b'1');
            insert_line(random, bytes, &line);
        }
        10 | 11 => pad(random, bytes),
        12 => {
            while bytes.last() == Some(&b'\n') {
                bytes.pop();
            }
        }
        13 => {
            let length = random.pick(&[0, 0, 1, 2, 10]);
            bytes.truncate(length);
        }
        14 => replace_some(random, bytes, b'\n', b"\n\n\n"),
        _ => {
            let cut = random.below(bytes.len() + 1);
            bytes.truncate(cut);
        }
    }
}

fn position(random: &mut Random, bytes: &[u8]) -> Option<usize> {
    (!bytes.is_empty()).then(|| random.below(bytes.len()))
}

/// Replaces a byte by a text in all places, or in some.
fn replace_some(random: &mut Random, bytes: &mut Vec<u8>, old: u8, new: &[u8]) {
    let chance = random.pick(&[2, 10, 50, 100]);
    let mut replaced = Vec::with_capacity(bytes.len() + 64);
    for &byte in bytes.iter() {
        if byte == old && random.percent(chance) {
            replaced.extend_from_slice(new);
        } else {
            replaced.push(byte);
        }
    }
    *bytes = replaced;
}

/// A line of about the longest length that is read, or well over it.
fn long_line(random: &mut Random, bytes: &mut Vec<u8>, filler: u8) {
    let length = random.pick(&[254, 255, 256, 257, 511, 512, 1_000, 5_000]);
    insert_line(random, bytes, &vec![filler; length]);
}

fn insert_line(random: &mut Random, bytes: &mut Vec<u8>, line: &[u8]) {
    let starts: Vec<usize> = (0..=bytes.len()).filter(|&at| at == 0 || bytes[at - 1] == b'\n').collect();
    let at = random.pick(&starts);
    bytes.splice(at..at, line.iter().copied().chain([b'\n']));
}

/// Makes the script as long as the longest that is read, or a bit longer or
/// shorter, by remarks or empty lines in front, so that its commands get high
/// line numbers.
fn pad(random: &mut Random, bytes: &mut Vec<u8>) {
    let lengths = [LONGEST_SCRIPT - 1, LONGEST_SCRIPT, LONGEST_SCRIPT + 1, LONGEST_SCRIPT + 2, 70_000, 200_000];
    let length = random.pick(&lengths);
    let line: &[u8] = random.pick(&[&b"\n"[..], b"#\n", b"# remark\n", b"bar 0 0\n"]);
    let missing = length.saturating_sub(bytes.len());
    let mut padded: Vec<u8> = line.iter().copied().cycle().take(missing).collect();
    if missing > 0 {
        padded[missing - 1] = b'\n';
    }
    padded.append(bytes);
    *bytes = padded;
}
