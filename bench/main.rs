// Times the proved calls against the plain Rust version, on the largest shapes, in one process.
// Also compares what the two give: outputs and answers have to be the same words.
mod plain;

use std::time::Instant;

unsafe extern "C" {
    fn ciderdune_run(c: *const u32, cn: usize, v: *const u32, vn: usize, room: *mut u32, rn: usize) -> u32;
    fn ciderdune_prove(
        c: *const u32, cn: usize, v: *const u32, vn: usize, coins: *const u32, n: usize,
        room: *mut u32, rn: usize, work: *mut u32, wn: usize,
    ) -> u32;
}

fn proved_run(circuit: &[u32], inputs: &[u32], room: &mut [u32]) -> u32 {
    unsafe {
        ciderdune_run(
            circuit.as_ptr(), circuit.len(), inputs.as_ptr(), inputs.len(), room.as_mut_ptr(), room.len(),
        )
    }
}

fn proved_prove(circuit: &[u32], inputs: &[u32], coins: &[u32], room: &mut [u32], work: &mut [u32]) -> u32 {
    unsafe {
        ciderdune_prove(
            circuit.as_ptr(), circuit.len(), inputs.as_ptr(), inputs.len(), coins.as_ptr(), coins.len(),
            room.as_mut_ptr(), room.len(), work.as_mut_ptr(), work.len(),
        )
    }
}

// Numbers that look random, the same in every run.
struct Draw(u64);

impl Draw {
    fn below(&mut self, n: u64) -> u32 {
        self.0 = self.0.wrapping_mul(6364136223846793005).wrapping_add(1442695040888963407);
        ((self.0 >> 33) % n) as u32
    }
}

// How often each piece of work is timed.
const TURNS: usize = 100;

// Times a piece of work, in milliseconds, and keeps the shortest time so far.
fn time(shortest: &mut f64, work: impl FnOnce()) {
    let start = Instant::now();
    work();
    *shortest = shortest.min(start.elapsed().as_secs_f64() * 1000.0);
}

fn measure(copies: u32, size: u32, layers: u32) {
    let mut draw = Draw(20261118);
    let mut words = vec![copies, size, layers];
    for _ in 0..layers {
        words.push(size);
        for _ in 0..1 << size {
            words.extend([draw.below(2), draw.below(1 << size), draw.below(1 << size)]);
        }
    }
    let p = 2147483647;
    let inputs: Vec<u32> = (0..1 << (copies + size)).map(|_| draw.below(p)).collect();
    let variables = copies + 2 * size;
    let coins: Vec<u32> = (0..copies + size + layers * (variables + 1)).map(|_| draw.below(p)).collect();
    let mut outputs = vec![0; 1 << (copies + size)];
    let mut answers = vec![0; (layers * (4 * variables + 2)) as usize];
    let mut work = vec![0; 1 << 18];

    let circuit = plain::Circuit::from_words(&words);
    // by turns, so that whatever else the machine does falls on all four alike
    let [mut run, mut prove, mut plain_run, mut plain_prove] = [f64::INFINITY; 4];
    for _ in 0..TURNS {
        time(&mut run, || assert_eq!(proved_run(&words, &inputs, &mut outputs), 0));
        time(&mut plain_run, || drop(circuit.values(0, &inputs)));
        time(&mut prove, || assert_eq!(proved_prove(&words, &inputs, &coins, &mut answers, &mut work), 0));
        time(&mut plain_prove, || drop(plain::prove(&circuit, &inputs, &coins)));
    }
    assert_eq!(outputs, circuit.values(0, &inputs));
    assert_eq!(answers, plain::prove(&circuit, &inputs, &coins));
    println!(
        "| 2^{copies} copies of 2^{size}, {layers} layers | {run:.2} | {prove:.2} | {:.1} | {plain_run:.2} | {plain_prove:.2} | {:.1} | {:.2} |",
        prove / run, plain_prove / plain_run, prove / plain_prove,
    );
}

fn main() {
    println!("| shape | run, ms | prove, ms | prove / run | plain run, ms | plain prove, ms | plain prove / run | proved / plain prove |");
    println!("|---|---|---|---|---|---|---|---|");
    measure(10, 6, 10);
    measure(0, 16, 2);
    measure(6, 10, 10);
}
