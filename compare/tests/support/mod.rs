//! SHA-256 (FIPS 180-4), for the test of the copied files.

/// The digest of `message` in hexadecimal.
pub fn sha256_hex(message: &[u8]) -> String {
    let constants = cube_root_bits();
    let mut state = square_root_bits();
    for block in padded(message).chunks_exact(64) {
        compress(&mut state, &constants, block);
    }
    state.iter().map(|word| format!("{word:08x}")).collect()
}

/// The message, the bit 1, zeros, and the length in bits.
fn padded(message: &[u8]) -> Vec<u8> {
    let mut bytes = message.to_vec();
    bytes.push(0x80);
    while bytes.len() % 64 != 56 {
        bytes.push(0);
    }
    bytes.extend((message.len() as u64 * 8).to_be_bytes());
    bytes
}

fn compress(state: &mut [u32; 8], constants: &[u32; 64], block: &[u8]) {
    let mut work = *state;
    for (constant, word) in constants.iter().zip(schedule(block)) {
        work = one_round(work, constant.wrapping_add(word));
    }
    for (kept, new) in state.iter_mut().zip(work) {
        *kept = kept.wrapping_add(new);
    }
}

/// The 64 words of a block.
fn schedule(block: &[u8]) -> [u32; 64] {
    let mut words = [0; 64];
    for (word, bytes) in words.iter_mut().zip(block.chunks_exact(4)) {
        *word = u32::from_be_bytes(bytes.try_into().expect("a chunk has four bytes"));
    }
    for i in 16..64 {
        let (a, b) = (words[i - 15], words[i - 2]);
        let low = a.rotate_right(7) ^ a.rotate_right(18) ^ (a >> 3);
        let high = b.rotate_right(17) ^ b.rotate_right(19) ^ (b >> 10);
        words[i] = sum(&[words[i - 16], low, words[i - 7], high]);
    }
    words
}

fn one_round([a, b, c, d, e, f, g, h]: [u32; 8], added: u32) -> [u32; 8] {
    let choice = (e & f) ^ (!e & g);
    let majority = (a & b) ^ (a & c) ^ (b & c);
    let rotated_e = e.rotate_right(6) ^ e.rotate_right(11) ^ e.rotate_right(25);
    let rotated_a = a.rotate_right(2) ^ a.rotate_right(13) ^ a.rotate_right(22);
    let first = sum(&[h, rotated_e, choice, added]);
    let second = rotated_a.wrapping_add(majority);
    [
        first.wrapping_add(second),
        a,
        b,
        c,
        d.wrapping_add(first),
        e,
        f,
        g,
    ]
}

fn sum(words: &[u32]) -> u32 {
    words
        .iter()
        .fold(0, |total, word| total.wrapping_add(*word))
}

/// The first 32 bits behind the point of the square roots of the first eight primes.
fn square_root_bits() -> [u32; 8] {
    let mut primes = primes();
    std::array::from_fn(|_| fraction_of_root(next(&mut primes), 2))
}

/// The first 32 bits behind the point of the cube roots of the first 64 primes.
fn cube_root_bits() -> [u32; 64] {
    let mut primes = primes();
    std::array::from_fn(|_| fraction_of_root(next(&mut primes), 3))
}

fn next(numbers: &mut impl Iterator<Item = u128>) -> u128 {
    numbers.next().expect("the primes do not end")
}

fn primes() -> impl Iterator<Item = u128> {
    (2..).filter(|&n| (2..n).all(|d| n % d != 0))
}

/// The low 32 bits of the largest whole number whose `degree`-th power is at most `n` times 2 to the
/// power of 32 times `degree`.
fn fraction_of_root(n: u128, degree: u32) -> u32 {
    let target = n << (32 * degree);
    let (mut low, mut high) = (0_u128, 1 << 37);
    while high - low > 1 {
        let middle = (low + high) / 2;
        if middle.pow(degree) <= target {
            low = middle;
        } else {
            high = middle;
        }
    }
    low as u32
}
