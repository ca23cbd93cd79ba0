//! Damages to a build. Some may by chance leave it as it was, or right in another way.

use crate::batches::made::shuffle;
use crate::batches::second::requests;
use crate::random::Random;

/// A damage to a build, with another build to take from.
pub type Damage = fn(&mut Vec<u8>, &[u8], &mut Random);

/// The damages to a build.
pub const DAMAGES: [Damage; 18] = [
    bit_flipped,
    byte_changed,
    byte_inserted,
    byte_removed,
    byte_doubled,
    n_changed,
    n_changed,
    padding_set,
    zeros_put,
    cut,
    start_cut,
    tail_taken,
    joined,
    bytes_added,
    all_exchanged,
    request_removed,
    request_doubled,
    requests_mixed,
];

/// Bytes that mean something: every n, and those beside the limit or far from it.
const SPECIAL: [u8; 16] = [0, 1, 2, 3, 4, 5, 6, 7, 8, 9, 10, 11, 16, 25, 128, 255];

/// A place in a build, its end included.
fn place(build: &[u8], random: &mut Random) -> usize {
    random.below(build.len() + 1)
}

/// The place where some request begins, or any place if there is none.
fn start(build: &[u8], random: &mut Random) -> usize {
    let requests = requests(build).unwrap_or_default();
    if requests.is_empty() {
        return place(build, random);
    }
    let before = &requests[..random.below(requests.len())];
    before.iter().map(|request| request.len()).sum()
}

/// A byte by chance, or one that means something.
fn byte(random: &mut Random) -> u8 {
    match random.below(2) {
        0 => random.one(&SPECIAL),
        _ => random.bits() as u8,
    }
}

/// Up to so many bytes by chance.
fn bytes(most: usize, random: &mut Random) -> Vec<u8> {
    let count = random.below(most + 1);
    (0..count).map(|_| byte(random)).collect()
}

/// Has this byte at a place, or after the last.
fn set(build: &mut Vec<u8>, place: usize, byte: u8) {
    build.splice(place..build.len().min(place + 1), [byte]);
}

/// Changes the requests of a build that is right.
fn in_requests(build: &mut Vec<u8>, change: impl FnOnce(&mut Vec<&[u8]>)) {
    if let Some(mut requests) = requests(build).filter(|requests| !requests.is_empty()) {
        change(&mut requests);
        *build = requests.concat();
    }
}

/// A bit is turned.
fn bit_flipped(build: &mut Vec<u8>, _: &[u8], random: &mut Random) {
    let place = place(build, random);
    let turned = build.get(place).unwrap_or(&0) ^ 1 << random.below(8);
    set(build, place, turned);
}

/// A byte is another, or one follows the last.
fn byte_changed(build: &mut Vec<u8>, _: &[u8], random: &mut Random) {
    let place = place(build, random);
    set(build, place, byte(random));
}

/// A byte is put in.
fn byte_inserted(build: &mut Vec<u8>, _: &[u8], random: &mut Random) {
    build.insert(place(build, random), byte(random));
}

/// A byte is taken out.
fn byte_removed(build: &mut Vec<u8>, _: &[u8], random: &mut Random) {
    let place = place(build, random);
    build.drain(place..build.len().min(place + 1));
}

/// A byte stands twice.
fn byte_doubled(build: &mut Vec<u8>, _: &[u8], random: &mut Random) {
    let place = place(build, random);
    if let Some(byte) = build.get(place) {
        build.insert(place, *byte);
    }
}

/// A request has another n: one that means something, the next or the one before, or by one bit.
fn n_changed(build: &mut Vec<u8>, _: &[u8], random: &mut Random) {
    let place = start(build, random);
    let n = *build.get(place).unwrap_or(&0);
    let changed = match random.below(4) {
        0 => random.one(&SPECIAL),
        1 => n.wrapping_add(1),
        2 => n.wrapping_sub(1),
        _ => n ^ 1 << random.below(8),
    };
    set(build, place, changed);
}

/// The byte after an n has its last bit set.
fn padding_set(build: &mut Vec<u8>, _: &[u8], random: &mut Random) {
    let place = start(build, random) + 1;
    if let Some(byte) = build.get(place).copied() {
        set(build, place, byte | 1);
    }
}

/// Zeros are put in, up to as many as the longest request has bytes.
fn zeros_put(build: &mut Vec<u8>, _: &[u8], random: &mut Random) {
    let place = place(build, random);
    let zeros = vec![0; random.one(&[1, 2, 3, 5, 64, 65])];
    build.splice(place..place, zeros);
}

/// The build ends before some byte.
fn cut(build: &mut Vec<u8>, _: &[u8], random: &mut Random) {
    build.truncate(place(build, random));
}

/// The build begins at some byte.
fn start_cut(build: &mut Vec<u8>, _: &[u8], random: &mut Random) {
    build.drain(..place(build, random));
}

/// The build goes on from some byte with the end of the other.
fn tail_taken(build: &mut Vec<u8>, other: &[u8], random: &mut Random) {
    build.truncate(place(build, random));
    build.extend(&other[place(other, random)..]);
}

/// The other build follows.
fn joined(build: &mut Vec<u8>, other: &[u8], _: &mut Random) {
    build.extend(other);
}

/// Bytes follow.
fn bytes_added(build: &mut Vec<u8>, _: &[u8], random: &mut Random) {
    build.extend(bytes(8, random));
}

/// The build is other bytes.
fn all_exchanged(build: &mut Vec<u8>, _: &[u8], random: &mut Random) {
    *build = bytes(12, random);
}

/// A request is taken out.
fn request_removed(build: &mut Vec<u8>, _: &[u8], random: &mut Random) {
    in_requests(build, |requests| {
        requests.remove(random.below(requests.len()));
    });
}

/// A request stands twice.
fn request_doubled(build: &mut Vec<u8>, _: &[u8], random: &mut Random) {
    in_requests(build, |requests| {
        let request = random.one(requests);
        requests.insert(random.below(requests.len()), request);
    });
}

/// The requests have another order.
fn requests_mixed(build: &mut Vec<u8>, _: &[u8], random: &mut Random) {
    in_requests(build, |requests| shuffle(requests, random));
}
