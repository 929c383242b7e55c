//! The greatest period of n points, Landau's function (document 02, paper 9: the system that runs longest). Cycles may be exchanged for cycles of the powers of
//! primes that make their least common multiple, which take no more points. So at most one power of each prime is looked for, such that they take at most n
//! points together and their product is the greatest: prime after prime, for every number of points up to n.

fn is_prime(x: usize) -> bool {
    (2..).take_while(|divisor| divisor * divisor <= x).all(|divisor| x % divisor > 0)
}

/// The powers of a prime that are at most `most`.
fn powers(prime: usize, most: usize) -> impl Iterator<Item = usize> {
    std::iter::successors(Some(prime), move |&power| Some(power * prime)).take_while(move |&power| power <= most)
}

/// Which power of a prime each number of points takes, 0 being none. `greatest` has the greatest products without this prime, and afterwards those with it.
fn choices(prime: usize, greatest: &mut [u64]) -> Vec<usize> {
    let mut chosen = vec![0; greatest.len()];
    // From the most points down, so that those that are left have no power of this prime yet.
    for points in (prime..greatest.len()).rev() {
        for power in powers(prime, points) {
            let product = power as u64 * greatest[points - power];
            if product > greatest[points] {
                (greatest[points], chosen[points]) = (product, power);
            }
        }
    }
    chosen
}

/// The cycle lengths of a map of n points with the greatest period, rising, and this period. Points that no power takes are fixed points.
pub fn longest(n: usize) -> (Vec<usize>, u64) {
    let mut greatest = vec![1; n + 1];
    let chosen: Vec<Vec<usize>> = (2..=n).filter(|&x| is_prime(x)).map(|prime| choices(prime, &mut greatest)).collect();
    let (mut lengths, mut left) = (Vec::new(), n);
    for powers in chosen.iter().rev() {
        let power = powers[left];
        lengths.extend((power > 0).then_some(power));
        left -= power;
    }
    lengths.resize(lengths.len() + left, 1);
    lengths.sort();
    (lengths, greatest[n])
}
