//! SHA-256 (FIPS 180-4), for the cases that give a long output by its digest.

/// The first 32 bits of the fractional part of the n-th root (2 or 3) of a number.
fn fraction(x: u32, cube: bool) -> u32 {
    let x = x as u128;
    let (mut low, mut high) = (0u128, 1u128 << 40);
    while high - low > 1 {
        let mid = (low + high) / 2;
        let below = if cube {
            mid * mid * mid <= x << 96
        } else {
            mid * mid <= x << 64
        };
        if below {
            low = mid;
        } else {
            high = mid;
        }
    }
    low as u32
}

fn primes(n: usize) -> Vec<u32> {
    (2..)
        .filter(|&x: &u32| (2..x).all(|d| x % d != 0))
        .take(n)
        .collect()
}

/// The digest of some bytes.
pub fn sha256(bytes: &[u8]) -> [u8; 32] {
    let mut state: Vec<u32> = primes(8).iter().map(|&p| fraction(p, false)).collect();
    let constant: Vec<u32> = primes(64).iter().map(|&p| fraction(p, true)).collect();
    let mut padded = bytes.to_vec();
    padded.push(0x80);
    while padded.len() % 64 != 56 {
        padded.push(0);
    }
    padded.extend_from_slice(&(8 * bytes.len() as u64).to_be_bytes());
    for block in padded.chunks(64) {
        let mut w: Vec<u32> = block
            .chunks(4)
            .map(|c| u32::from_be_bytes(c.try_into().unwrap()))
            .collect();
        for t in 16..64 {
            let s0 = w[t - 15].rotate_right(7) ^ w[t - 15].rotate_right(18) ^ (w[t - 15] >> 3);
            let s1 = w[t - 2].rotate_right(17) ^ w[t - 2].rotate_right(19) ^ (w[t - 2] >> 10);
            w.push(
                w[t - 16]
                    .wrapping_add(s0)
                    .wrapping_add(w[t - 7])
                    .wrapping_add(s1),
            );
        }
        let mut v = state.clone();
        for t in 0..64 {
            let s1 = v[4].rotate_right(6) ^ v[4].rotate_right(11) ^ v[4].rotate_right(25);
            let choice = (v[4] & v[5]) ^ (!v[4] & v[6]);
            let one = v[7]
                .wrapping_add(s1)
                .wrapping_add(choice)
                .wrapping_add(constant[t])
                .wrapping_add(w[t]);
            let s0 = v[0].rotate_right(2) ^ v[0].rotate_right(13) ^ v[0].rotate_right(22);
            let two = s0.wrapping_add((v[0] & v[1]) ^ (v[0] & v[2]) ^ (v[1] & v[2]));
            v.rotate_right(1);
            v[4] = v[4].wrapping_add(one);
            v[0] = one.wrapping_add(two);
        }
        for (s, x) in state.iter_mut().zip(v) {
            *s = s.wrapping_add(x);
        }
    }
    let mut digest = [0; 32];
    for (d, s) in digest.chunks_mut(4).zip(state) {
        d.copy_from_slice(&s.to_be_bytes());
    }
    digest
}

#[test]
fn digest_of_abc() {
    let hex: String = sha256(b"abc").iter().map(|b| format!("{b:02x}")).collect();
    assert_eq!(
        hex,
        "ba7816bf8f01cfea414140de5dae2223b00361a396177a9cb410ff61f20015ad"
    );
}
