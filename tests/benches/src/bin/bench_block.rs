//! `bench_block READ WRITE` reads the blocks on standard input READ times and writes them WRITE times. It prints how many octets all
//! those readings took, how many octets were written in the end and whether they are those that came, and the size of a block in memory.
//! `bench/figures/blocks.py` counts its instructions.
use block_codec::Block;
use std::io::{self, Read};
use std::process::ExitCode;
use test_benches::blocks::{Octets, read_times, write_times};
use test_benches::{USAGE, two_numbers};

fn main() -> io::Result<ExitCode> {
    let Some((reads, writes)) = two_numbers() else {
        println!("usage: bench_block READ WRITE");
        return Ok(ExitCode::from(USAGE));
    };
    let mut bytes = Vec::new();
    io::stdin().read_to_end(&mut bytes)?;
    let octets = read_times(&bytes, reads);
    let mut out = Octets::new();
    write_times(&mut out, &bytes, writes);
    let same = out.as_slice() == bytes;
    println!(
        "{octets} octets read; {} octets written, as they came: {same}",
        out.len()
    );
    println!("in memory: a block {} octets", size_of::<Block>());
    Ok(ExitCode::SUCCESS)
}
