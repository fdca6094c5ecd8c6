//! SHA-256 (FIPS 180-4) over a whole message in memory.

/// The first 32 bits of the fractional part of `root`, a root of a prime,
/// given as the whole number that lies below `root` times 2 to the 32nd.
fn fraction(scaled: u128) -> u32 {
    (scaled & 0xffff_ffff) as u32
}

/// The largest whole number whose `power`-th power is at most `goal`.
fn root(goal: u128, power: u32) -> u128 {
    let (mut low, mut high) = (0u128, 1 << 40);
    while low + 1 < high {
        let middle = (low + high) / 2;
        match middle.checked_pow(power) {
            Some(value) if value <= goal => low = middle,
            _ => high = middle,
        }
    }
    low
}

fn primes() -> impl Iterator<Item = u128> {
    (2u128..).filter(|n| (2..*n).all(|d| n % d != 0))
}

fn schedule(block: &[u8]) -> [u32; 64] {
    let mut w = [0u32; 64];
    for (word, four) in w.iter_mut().zip(block.chunks_exact(4)) {
        *word = u32::from_be_bytes([four[0], four[1], four[2], four[3]]);
    }
    for i in 16..64 {
        let (x, y) = (w[i - 15], w[i - 2]);
        let s0 = x.rotate_right(7) ^ x.rotate_right(18) ^ (x >> 3);
        let s1 = y.rotate_right(17) ^ y.rotate_right(19) ^ (y >> 10);
        w[i] = w[i - 16].wrapping_add(s0).wrapping_add(w[i - 7]).wrapping_add(s1);
    }
    w
}

fn absorb(state: &mut [u32; 8], block: &[u8], k: &[u32]) {
    let w = schedule(block);
    let mut v = *state;
    for i in 0..64 {
        let [a, b, c, d, e, f, g, h] = v;
        let s1 = e.rotate_right(6) ^ e.rotate_right(11) ^ e.rotate_right(25);
        let choice = (e & f) ^ (!e & g);
        let one = h.wrapping_add(s1).wrapping_add(choice).wrapping_add(k[i]).wrapping_add(w[i]);
        let s0 = a.rotate_right(2) ^ a.rotate_right(13) ^ a.rotate_right(22);
        let two = s0.wrapping_add((a & b) ^ (a & c) ^ (b & c));
        v = [one.wrapping_add(two), a, b, c, d.wrapping_add(one), e, f, g];
    }
    for (word, more) in state.iter_mut().zip(v) {
        *word = word.wrapping_add(more);
    }
}

/// The sum of a message, in hexadecimal.
pub fn hex(message: &[u8]) -> String {
    let k: Vec<u32> = primes().take(64).map(|p| fraction(root(p << 96, 3))).collect();
    let mut state = [0u32; 8];
    for (word, p) in state.iter_mut().zip(primes()) {
        *word = fraction(root(p << 64, 2));
    }
    let mut padded = message.to_vec();
    padded.push(0x80);
    while padded.len() % 64 != 56 {
        padded.push(0);
    }
    padded.extend((8 * message.len() as u64).to_be_bytes());
    for block in padded.chunks_exact(64) {
        absorb(&mut state, block, &k);
    }
    state.iter().map(|word| format!("{word:08x}")).collect()
}
