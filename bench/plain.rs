// A plain, unproved Rust version of working out and proving, to compare speeds with.
// The same algorithm as the proved prover's: tables that are halved after each coin, one pass over the gates per variable.

const P: u64 = 2147483647;

fn add(a: u32, b: u32) -> u32 {
    let s = a + b;
    if s >= P as u32 { s - P as u32 } else { s }
}

fn sub(a: u32, b: u32) -> u32 {
    if a >= b { a - b } else { a + P as u32 - b }
}

fn mul(a: u32, b: u32) -> u32 {
    let x = a as u64 * b as u64;
    let s = ((x & P) + (x >> 31)) as u32;
    if s >= P as u32 { s - P as u32 } else { s }
}

#[derive(Clone, Copy)]
pub struct Gate {
    product: bool,
    left: usize,
    right: usize,
}

pub struct Circuit {
    pub copies: usize,
    pub inputs: usize,
    pub layers: Vec<Vec<Gate>>,
}

impl Circuit {
    pub fn from_words(words: &[u32]) -> Circuit {
        let mut layers = Vec::new();
        let mut at = 3;
        for _ in 0..words[2] {
            let gates = 1usize << words[at];
            let gate = |i: usize| {
                let w = &words[at + 1 + 3 * i..];
                Gate { product: w[0] == 1, left: w[1] as usize, right: w[2] as usize }
            };
            layers.push((0..gates).map(gate).collect());
            at += 1 + 3 * gates;
        }
        Circuit { copies: words[0] as usize, inputs: words[1] as usize, layers }
    }

    fn below(&self, layer: usize) -> usize {
        match self.layers.get(layer + 1) {
            Some(gates) => gates.len().trailing_zeros() as usize,
            None => self.inputs,
        }
    }

    // The values of a layer in all copies, worked out from the inputs.
    pub fn values(&self, layer: usize, inputs: &[u32]) -> Vec<u32> {
        let mut below = inputs.to_vec();
        for j in (layer..self.layers.len()).rev() {
            let size = 1 << self.below(j);
            let mut values = Vec::with_capacity(self.layers[j].len() << self.copies);
            for copy in below.chunks_exact(size) {
                for g in &self.layers[j] {
                    let (a, b) = (copy[g.left], copy[g.right]);
                    values.push(if g.product { mul(a, b) } else { add(a, b) });
                }
            }
            below = values;
        }
        below
    }
}

fn eq_table(factor: u32, point: &[u32]) -> Vec<u32> {
    let mut table = vec![factor];
    for &r in point {
        let mut next = Vec::with_capacity(2 * table.len());
        for &e in &table {
            let high = mul(e, r);
            next.push(sub(e, high));
            next.push(high);
        }
        table = next;
    }
    table
}

fn fix_first(table: &mut Vec<u32>, r: u32) {
    let half = table.len() / 2;
    let (low, high) = table.split_at_mut(half);
    for (a, b) in low.iter_mut().zip(high) {
        *a = add(*a, mul(r, sub(*b, *a)));
    }
    table.truncate(half);
}

// The four values of a line through a at 0 and b at 1.
fn line(a: u32, b: u32) -> [u32; 4] {
    let d = sub(b, a);
    let c = add(b, d);
    [a, b, c, add(c, d)]
}

fn copies_round(v: &[u32], e: &[u32], w: &[u32], gates: &[Gate], below: usize) -> [u32; 4] {
    let half = e.len() / 2;
    let (low, high) = v.split_at(v.len() / 2);
    let mut sums = [0; 4];
    for c in 0..half {
        let row0 = &low[c << below..(c + 1) << below];
        let row1 = &high[c << below..(c + 1) << below];
        let mut row = [0; 4];
        for (g, &w) in gates.iter().zip(w) {
            let l = line(row0[g.left], row1[g.left]);
            let r = line(row0[g.right], row1[g.right]);
            for t in 0..4 {
                let value = if g.product { mul(l[t], r[t]) } else { add(l[t], r[t]) };
                row[t] = add(row[t], mul(w, value));
            }
        }
        let factor = line(e[c], e[half + c]);
        for t in 0..4 {
            sums[t] = add(sums[t], mul(factor[t], row[t]));
        }
    }
    sums
}

fn place_round(v: &[u32], h: &[u32], j: &[u32]) -> [u32; 4] {
    let half = v.len() / 2;
    let mut sums = [0; 4];
    for i in 0..half {
        let (a, b, c) = (line(v[i], v[half + i]), line(h[i], h[half + i]), line(j[i], j[half + i]));
        for t in 0..4 {
            sums[t] = add(sums[t], add(mul(a[t], b[t]), c[t]));
        }
    }
    sums
}

// All rounds over three tables; gives the point and the value of the first table there.
fn place_rounds(mut v: Vec<u32>, mut h: Vec<u32>, mut j: Vec<u32>, coins: &[u32], answers: &mut Vec<u32>) -> u32 {
    for &r in coins {
        answers.extend(place_round(&v, &h, &j));
        fix_first(&mut v, r);
        fix_first(&mut h, r);
        fix_first(&mut j, r);
    }
    v[0]
}

pub fn prove(c: &Circuit, inputs: &[u32], coins: &[u32]) -> Vec<u32> {
    let first = c.copies + c.layers[0].len().trailing_zeros() as usize;
    let mut copy = coins[..c.copies].to_vec();
    let mut shares = vec![(1, coins[c.copies..first].to_vec())];
    let mut coins = &coins[first..];
    let mut answers = Vec::new();
    for (layer, gates) in c.layers.iter().enumerate() {
        let below = c.below(layer);
        let mut v = c.values(layer + 1, inputs);
        let mut w = vec![0; gates.len()];
        for (factor, point) in &shares {
            for (w, e) in w.iter_mut().zip(eq_table(*factor, point)) {
                *w = add(*w, e);
            }
        }
        let mut e = eq_table(1, &copy);
        for &r in &coins[..c.copies] {
            answers.extend(copies_round(&v, &e, &w, gates, below));
            fix_first(&mut v, r);
            fix_first(&mut e, r);
        }
        copy = coins[..c.copies].to_vec();
        let x = coins[c.copies..c.copies + below].to_vec();
        let y = coins[c.copies + below..c.copies + 2 * below].to_vec();
        for w in &mut w {
            *w = mul(*w, e[0]);
        }
        let (mut h, mut j) = (vec![0; v.len()], vec![0; v.len()]);
        for (g, &w) in gates.iter().zip(&w) {
            let other = mul(w, v[g.right]);
            if g.product {
                h[g.left] = add(h[g.left], other);
            } else {
                h[g.left] = add(h[g.left], w);
                j[g.left] = add(j[g.left], other);
            }
        }
        let a = place_rounds(v.clone(), h, j, &x, &mut answers);
        let ex = eq_table(1, &x);
        let (mut h, mut j) = (vec![0; v.len()], vec![0; v.len()]);
        for (g, &w) in gates.iter().zip(&w) {
            let w = mul(w, ex[g.left]);
            if g.product {
                h[g.right] = add(h[g.right], mul(w, a));
            } else {
                h[g.right] = add(h[g.right], w);
                j[g.right] = add(j[g.right], mul(w, a));
            }
        }
        let b = place_rounds(v, h, j, &y, &mut answers);
        answers.extend([a, b]);
        shares = vec![(1, x), (coins[c.copies + 2 * below], y)];
        coins = &coins[c.copies + 2 * below + 1..];
    }
    answers
}
