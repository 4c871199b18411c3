//! The text of the original is what it was.

const STREAM: &str = include_str!("../../../original/stream.rs");
const LICENSE: &str = include_str!("../../../original/LICENSE");

#[test]
fn the_original_has_its_sum() {
    assert_eq!(
        sha256(STREAM.as_bytes()),
        "5d099e094e492aeeccce0f2bbd02efac249837b3bb133cf7e4b295a7094f8dbb"
    );
    assert_eq!(
        sha256(LICENSE.as_bytes()),
        "324f8feec6e0352fb6c9faa08de90ad40b1f6e1f2c3a4085004d88acb060263c"
    );
}

#[test]
fn the_repacker_is_the_second_half_of_compile_song_v2() {
    let made = include_str!(concat!(env!("OUT_DIR"), "/repack.rs"));
    let (_, body) = made.split_once('\n').unwrap();
    let call = "let v1 = compile_song(song, project_dir)?;\n";
    assert_eq!(STREAM.matches(body).count(), 1);
    assert!(STREAM.contains(&format!("{call}{body}")));
    assert!(body.ends_with("    Ok(output)\n}\n"));
}

#[test]
fn the_sum_is_sha_256() {
    let empty = "e3b0c44298fc1c149afbf4c8996fb92427ae41e4649b934ca495991b7852b855";
    let abc = "ba7816bf8f01cfea414140de5dae2223b00361a396177a9cb410ff61f20015ad";
    assert_eq!(sha256(b""), empty);
    assert_eq!(sha256(b"abc"), abc);
}

/// SHA-256 (FIPS 180-4) in hexadecimal.
fn sha256(message: &[u8]) -> String {
    let primes: Vec<u32> = (2..312).filter(|n| (2..*n).all(|d| n % d != 0)).collect();
    let constants: Vec<u32> = primes.iter().map(|p| root_bits(*p, 3)).collect();
    let mut state: Vec<u32> = primes[..8].iter().map(|p| root_bits(*p, 2)).collect();
    let mut padded = message.to_vec();
    padded.push(0x80);
    padded.resize(padded.len().next_multiple_of(64), 0);
    if padded.len() - message.len() < 9 {
        padded.resize(padded.len() + 64, 0);
    }
    let length = padded.len();
    padded[length - 8..].copy_from_slice(&(8 * message.len() as u64).to_be_bytes());
    for block in padded.chunks(64) {
        compress(&mut state, &constants, block);
    }
    state.iter().map(|word| format!("{word:08x}")).collect()
}

/// The first 32 bits behind the point of a root of `n`: the greatest x with x^degree at most n * 2^(32 * degree).
fn root_bits(n: u32, degree: u32) -> u32 {
    let power = u128::from(n) << (32 * degree);
    let mut root: u128 = 0;
    for bit in (0..38).rev() {
        let tried = root | 1 << bit;
        if tried.pow(degree) <= power {
            root = tried;
        }
    }
    root as u32
}

fn compress(state: &mut [u32], constants: &[u32], block: &[u8]) {
    let mut w: Vec<u32> = block
        .chunks(4)
        .map(|word| u32::from_be_bytes(word.try_into().unwrap()))
        .collect();
    for i in 16..64 {
        let (a, b) = (w[i - 15], w[i - 2]);
        let s0 = a.rotate_right(7) ^ a.rotate_right(18) ^ (a >> 3);
        let s1 = b.rotate_right(17) ^ b.rotate_right(19) ^ (b >> 10);
        w.push(sum(&[w[i - 16], s0, w[i - 7], s1]));
    }
    let mut v: [u32; 8] = std::array::from_fn(|i| state[i]);
    for (w, k) in w.into_iter().zip(constants) {
        let [a, b, c, d, e, f, g, h] = v;
        let s1 = e.rotate_right(6) ^ e.rotate_right(11) ^ e.rotate_right(25);
        let choice = (e & f) ^ (!e & g);
        let t1 = sum(&[h, s1, choice, *k, w]);
        let s0 = a.rotate_right(2) ^ a.rotate_right(13) ^ a.rotate_right(22);
        let majority = (a & b) ^ (a & c) ^ (b & c);
        v = [sum(&[t1, s0, majority]), a, b, c, sum(&[d, t1]), e, f, g];
    }
    for (word, added) in state.iter_mut().zip(v) {
        *word = word.wrapping_add(added);
    }
}

fn sum(words: &[u32]) -> u32 {
    words.iter().fold(0, |sum, word| sum.wrapping_add(*word))
}
