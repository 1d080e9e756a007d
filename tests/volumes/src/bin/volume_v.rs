//! Writes Volume V to standard output, as `samples/volume-v.dsk` holds it.

use std::io::{self, Write};
use volumes::volume_v::volume_v;

fn main() -> io::Result<()> {
    io::stdout().write_all(&volume_v().image)
}
