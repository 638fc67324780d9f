//! Adding samples and taking traces.

use super::super::generate::rings::{self, Ring};
use super::super::oracle::program::Contacts;
use super::super::{ffi, oracle};
use super::{hex, number, Bench, Compared, Findings};

/// Some samples one after another into one ring.
pub fn run_add(bench: &mut Bench) -> Compared {
    let mut ring = rings::any(&mut bench.random);
    for _ in 0..bench.random.pick(&[1, 2, 5]) {
        let random = &mut bench.random;
        let sample = random.pick(&[0, 0, 1, 1, 2, 127, 128, 255]);
        compare_add(bench, &mut ring, sample)?;
    }
    Ok(())
}

/// Compares the adding of one sample; the ring goes on with it.
pub fn compare_add(bench: &mut Bench, ring: &mut Ring, sample: u8) -> Compared {
    let before = story(ring);
    let mut slots = bench.lend(&ring.slots);
    let mut state = bench.lend(&ring.state);
    let want = number(&oracle::ring::add(&mut ring.slots, &mut ring.state, sample));
    let have = ffi::ring_add(&mut slots, &mut state, sample);
    let mut found = Findings::default();
    found.number(want, have);
    found.lent("slots", &slots, &ring.slots);
    found.lent("state", &state, &ring.state);
    bench.close(found, Contacts::One, want, || {
        format!("{before}\nsample {sample}")
    })
}

/// One trace of a ring.
pub fn run_trace(bench: &mut Bench) -> Compared {
    let random = &mut bench.random;
    let ring = rings::any(random);
    let needed = oracle::trace::bytes_for(ring.state[1].min(5_000) as usize);
    let room = match random.below(8) {
        0 => needed.saturating_sub(1),
        1 => random.between(0, needed),
        2..=4 => needed,
        _ => needed + random.below(20),
    };
    let out = random.bytes(room);
    compare_trace(bench, &ring, out)
}

/// Compares the taking of a trace.
pub fn compare_trace(bench: &mut Bench, ring: &Ring, mut out: Vec<u8>) -> Compared {
    let mut lent_out = bench.lend(&out);
    let mut samples = bench.random.words(1);
    let mut lent_samples = bench.lend(&samples);
    let taken = oracle::ring::take(&ring.slots, &ring.state, &mut out);
    let want = number(&taken);
    if let Ok(count) = taken {
        samples[0] = count;
    }
    let slots = bench.lend(&ring.slots);
    let state = bench.lend(&ring.state);
    let have = ffi::ring_trace(&slots, &state, &mut lent_out, &mut lent_samples);
    let mut found = Findings::default();
    found.number(want, have);
    found.lent("slots", &slots, &ring.slots);
    found.lent("state", &state, &ring.state);
    found.lent("output", &lent_out, &out);
    found.lent("samples", &lent_samples, &samples);
    let story = || format!("{}\noutput of {} bytes", story(ring), out.len());
    bench.close(found, Contacts::One, want, story)
}

/// A ring in hex.
fn story(ring: &Ring) -> String {
    let [next, count] = ring.state;
    format!("slots {}\nnext {next}\ncount {count}", hex(&ring.slots))
}
