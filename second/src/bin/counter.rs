//! Reads lines from standard input and answers each on standard output.

use std::io::{self, BufWriter, ErrorKind, Read, Write};

use second::Counter;

const CHUNK_BYTES: usize = 64 * 1024;

fn main() -> io::Result<()> {
    let mut input = io::stdin().lock();
    let mut output = BufWriter::with_capacity(CHUNK_BYTES, io::stdout().lock());
    let mut counter = Counter::new();
    let mut chunk = vec![0; CHUNK_BYTES];
    loop {
        let length = match input.read(&mut chunk) {
            Ok(0) => break,
            Ok(length) => length,
            Err(error) if error.kind() == ErrorKind::Interrupted => continue,
            Err(error) => return Err(error),
        };
        counter.feed(&chunk[..length], &mut output)?;
        // The next read may wait, so nothing stays behind.
        output.flush()?;
    }
    counter.finish(&mut output)?;
    output.flush()
}
