//! Checking a program.

use super::super::generate::programs;
use super::super::oracle::program::Contacts;
use super::super::{ffi, oracle};
use super::{hex, number, Bench, Compared, Findings};

/// Some programs of both sorts, many of them damaged.
pub fn run(bench: &mut Bench) -> Compared {
    for contacts in Contacts::ALL.repeat(2) {
        let program = programs::any(&mut bench.random, contacts, 2);
        compare(bench, &program)?;
    }
    Ok(())
}

/// Compares the check of one program.
pub fn compare(bench: &mut Bench, program: &[u8]) -> Compared {
    let want = number(&oracle::program::check(program));
    let lent = bench.lend(program);
    let have = ffi::check_program(&lent);
    let mut found = Findings::default();
    found.number(want, have);
    found.lent("program", &lent, program);
    let contacts = programs::contacts(program);
    bench.close(found, contacts, want, || {
        format!("program {}", hex(program))
    })
}
