// Writes the vectors of `hash_u64`. The function comes from hash_u64.rs beside this file, which make.sh takes out of
// raft-engine's src/util.rs.
include!("hash_u64.rs");

// What splitmix64.c adds before each mix.
const STEP: u64 = 0x9e3779b97f4a7c15;

// splitmix64.c's outputs from the seed 1234567, as published: the k-th is the mix of the seed and k steps.
const SEED: u64 = 1234567;
const PUBLISHED: [u64; 5] = [
    6457827717110365317,
    3203168211198807973,
    9817491932198370423,
    4593380528125082431,
    16408922859458223821,
];

// xorshift64 from a fixed seed: another generator than the one under test.
fn random(state: &mut u64) -> u64 {
    *state ^= *state << 13;
    *state ^= *state >> 7;
    *state ^= *state << 17;
    *state
}

fn main() {
    let mut inputs: Vec<u64> = (0..31).collect();
    for k in 5..64 {
        let power = 1u64 << k;
        inputs.extend([power - 1, power, power + 1]);
    }
    inputs.extend((0..16).map(|k| u64::MAX - k));
    let mut state = 20240607;
    for k in 0..128 {
        // every fourth is short, as group numbers are
        inputs.push(random(&mut state) >> if k % 4 == 0 { 44 } else { 0 });
    }
    for input in inputs {
        println!("{} {}", input, hash_u64(input));
    }
    let mut input = SEED;
    for output in PUBLISHED {
        input = input.wrapping_add(STEP);
        println!("{} {}", input, output);
    }
}
